//! `second-compare PROGRAM STORE FIRST COUNT LINES [INPUT...]`: runs COUNT generated sessions from seed FIRST on, and
//! the inputs in files, through the engine's session program, and compares its output with the library's byte by byte.
//! Says how many lines of which codes were compared. At the first difference stores the input in STORE and fails.

use std::collections::BTreeMap;
use std::env;
use std::process::ExitCode;

use second::compare::Comparison;
use second::engine::{SESSIONS, lines};
use second::generate;

fn main() -> ExitCode {
    let arguments: Vec<String> = env::args().skip(1).collect();
    let [program, store, first, count, length, inputs @ ..] = &arguments[..] else { return usage() };
    let numbers = [first, count, length].map(|argument| argument.parse().ok());
    let [Some(first), Some(count), Some(length)] = numbers else { return usage() };
    let sessions = (first..first + count).map(|seed: u64| (seed, generate::session(seed, length as usize)));
    // Lines compared, by the code they were answered with.
    let mut codes: BTreeMap<String, u64> = BTreeMap::new();
    let comparison = Comparison { language: SESSIONS, program, store };
    let compared = comparison.all(inputs, sessions, |_, answers| {
        for line in lines(answers) {
            *codes.entry(line[..2].escape_ascii().to_string()).or_default() += 1;
        }
    });
    if let Err(error) = compared {
        println!("{error}");
        return ExitCode::FAILURE;
    }
    let total: u64 = codes.values().sum();
    println!("{count} sessions from seed {first} on and {} stored: {total} lines, none differs", inputs.len());
    for (code, count) in codes {
        println!("{count:>10}  lines of code {code}");
    }
    ExitCode::SUCCESS
}

fn usage() -> ExitCode {
    eprintln!("usage: second-compare PROGRAM STORE FIRST COUNT LINES [INPUT...]");
    ExitCode::FAILURE
}
