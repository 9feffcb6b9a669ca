//! `second-generate SEED LINES`: writes a session input, the same for the same arguments.

use std::io::{self, Write};
use std::process::ExitCode;

fn main() -> ExitCode {
    let arguments: Vec<u64> = std::env::args().skip(1).map_while(|argument| argument.parse().ok()).collect();
    let [seed, lines] = arguments[..] else {
        eprintln!("usage: second-generate SEED LINES");
        return ExitCode::FAILURE;
    };
    let input = second::generate::session(seed, lines as usize);
    match io::stdout().write_all(&input) {
        Ok(()) => ExitCode::SUCCESS,
        Err(_) => ExitCode::FAILURE,
    }
}
