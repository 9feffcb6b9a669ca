//! Links the engine's archive. SINGLE_LIMIT_ARCHIVE says where it is, whatever its name: an absolute path, since Cargo runs this elsewhere.

use std::env;
use std::ffi::OsStr;
use std::path::Path;

const ARCHIVE: &str = "SINGLE_LIMIT_ARCHIVE";

fn main() {
    println!("cargo:rerun-if-env-changed={ARCHIVE}");
    let archive = env::var(ARCHIVE).expect("SINGLE_LIMIT_ARCHIVE names the engine's archive by an absolute path");
    let path = Path::new(&archive);
    let folder = path.parent().expect("the archive is in a folder");
    let stem = path.file_stem().and_then(OsStr::to_str).expect("the archive has a name");
    let name = stem.strip_prefix("lib").expect("the archive's name is libNAME.a");
    println!("cargo:rerun-if-changed={archive}");
    println!("cargo:rustc-link-search=native={}", folder.display());
    println!("cargo:rustc-link-lib=static={name}");
}
