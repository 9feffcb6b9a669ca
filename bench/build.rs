//! Links what is called in C: the engine's archive and the reference's. bench/run makes both and names them by absolute paths, whatever their
//! names, since Cargo runs this elsewhere.

use std::env;
use std::ffi::OsStr;
use std::path::Path;

fn main() {
    for name in ["SINGLE_LIMIT_ARCHIVE", "REFERENCE_ARCHIVE"] {
        println!("cargo:rerun-if-env-changed={name}");
        link(&env::var(name).unwrap_or_else(|_| panic!("{name} names an archive by an absolute path")));
    }
}

fn link(archive: &str) {
    let path = Path::new(archive);
    let folder = path.parent().expect("the archive is in a folder");
    let stem = path.file_stem().and_then(OsStr::to_str).expect("the archive has a name");
    let name = stem.strip_prefix("lib").expect("the archive's name is libNAME.a");
    println!("cargo:rerun-if-changed={archive}");
    println!("cargo:rustc-link-search=native={}", folder.display());
    println!("cargo:rustc-link-lib=static={name}");
}
