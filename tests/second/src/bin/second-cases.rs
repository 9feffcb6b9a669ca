//! `second-cases ROOT`: writes the stored cases into the repository at ROOT: sessions as tests/cases/NAME.in and NAME.out,
//! call scripts as NAME.calls and NAME.answers, and the session of the engine's program.

use std::path::Path;
use std::process::ExitCode;
use std::{env, fs, io};

use second::cases::{self, Case};

fn main() -> ExitCode {
    let Some(root) = env::args().nth(1) else {
        eprintln!("usage: second-cases ROOT");
        return ExitCode::FAILURE;
    };
    match write(Path::new(&root)) {
        Ok(()) => ExitCode::SUCCESS,
        Err(error) => {
            eprintln!("{root}: {error}");
            ExitCode::FAILURE
        }
    }
}

fn write(root: &Path) -> io::Result<()> {
    let folder = root.join("tests/cases");
    write_all(&folder, cases::sessions(), ["in", "out"])?;
    write_all(&folder, cases::scripts(), ["calls", "answers"])?;
    let Case { name, input, output } = cases::program();
    let folder = root.join("crates").join(name);
    fs::write(folder.join("stdin"), input)?;
    fs::write(folder.join("stdout"), output)
}

fn write_all(folder: &Path, cases: Vec<Case>, [input, output]: [&str; 2]) -> io::Result<()> {
    for case in cases {
        let path = folder.join(case.name);
        fs::write(path.with_extension(input), case.input)?;
        fs::write(path.with_extension(output), case.output)?;
    }
    Ok(())
}
