//! `second-script SEED`: writes a call script, the same for the same seed.

use std::io::{self, Write};
use std::process::ExitCode;

fn main() -> ExitCode {
    let Some(seed) = std::env::args().nth(1).and_then(|seed| seed.parse().ok()) else {
        eprintln!("usage: second-script SEED");
        return ExitCode::FAILURE;
    };
    match io::stdout().write_all(&second::scripts::script(seed).text) {
        Ok(()) => ExitCode::SUCCESS,
        Err(_) => ExitCode::FAILURE,
    }
}
