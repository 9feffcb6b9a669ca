//! `second-coverage sessions FIRST LAST LINES`, `second-coverage scripts FIRST LAST`: what the sessions or the call
//! scripts of seeds FIRST to LAST reach; fails where anything is not reached.

use std::process::ExitCode;

use second::coverage::{self, Tally};

fn main() -> ExitCode {
    let arguments: Vec<String> = std::env::args().skip(1).collect();
    let Some((language, numbers)) = arguments.split_first() else { return usage() };
    let numbers: Vec<u64> = numbers.iter().map_while(|number| number.parse().ok()).collect();
    let tally = match (language.as_str(), &numbers[..]) {
        ("sessions", &[first, last, lines]) => of_sessions(first, last, lines as usize),
        ("scripts", &[first, last]) => of_scripts(first, last),
        _ => return usage(),
    };
    print!("{tally}");
    println!("{}", tally.summary());
    if tally.zeros() == 0 { ExitCode::SUCCESS } else { ExitCode::FAILURE }
}

fn usage() -> ExitCode {
    eprintln!("usage: second-coverage sessions FIRST LAST LINES | second-coverage scripts FIRST LAST");
    ExitCode::FAILURE
}

fn of_sessions(first: u64, last: u64, lines: usize) -> Tally {
    let mut tally = coverage::expected();
    for seed in first..=last {
        coverage::count(seed, lines, &mut tally);
    }
    tally
}

fn of_scripts(first: u64, last: u64) -> Tally {
    let mut tally = coverage::scripts::expected();
    for seed in first..=last {
        coverage::scripts::count(seed, &mut tally);
    }
    tally
}
