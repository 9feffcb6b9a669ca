//! `second-compare-calls PROGRAM STORE FIRST COUNT [SCRIPT...]`: runs COUNT generated call scripts from seed FIRST on, and
//! the scripts in files, through a program that answers them by the engine's calls, and compares its output with the
//! library's byte by byte. Says how many calls of which codes were compared and how many places of the tables the check
//! named. At the first difference stores the script in STORE and fails.

use std::collections::{BTreeMap, BTreeSet};
use std::env;
use std::process::ExitCode;

use second::compare::Comparison;
use second::engine::SCRIPTS;
use second::scripts;

fn main() -> ExitCode {
    let arguments: Vec<String> = env::args().skip(1).collect();
    let [program, store, first, count, inputs @ ..] = &arguments[..] else { return usage() };
    let [Some(first), Some(count)] = [first, count].map(|argument| argument.parse().ok()) else { return usage() };
    let made = (first..first + count).map(|seed: u64| (seed, scripts::script(seed).text));
    let mut counts = Counts::default();
    let comparison = Comparison { language: SCRIPTS, program, store };
    if let Err(error) = comparison.all(inputs, made, |script, answers| counts.add(script, answers)) {
        println!("{error}");
        return ExitCode::FAILURE;
    }
    let total: u64 = counts.calls.values().flat_map(BTreeMap::values).sum();
    println!("{count} scripts from seed {first} on and {} stored: {total} calls, none differs", inputs.len());
    for (code, places) in &counts.places {
        println!("{:>10}  places named by check with code {code}", places.len());
    }
    for (call, codes) in &counts.calls {
        let codes: Vec<_> = codes.iter().map(|(code, count)| format!("{code}: {count}")).collect();
        println!("{call:>10}  {}", codes.join(", "));
    }
    ExitCode::SUCCESS
}

fn usage() -> ExitCode {
    eprintln!("usage: second-compare-calls PROGRAM STORE FIRST COUNT [SCRIPT...]");
    ExitCode::FAILURE
}

#[derive(Default)]
struct Counts {
    /// How often each call was answered with each code; of `cover`, with no and yes.
    calls: BTreeMap<String, BTreeMap<u8, u64>>,
    /// The places that `check` named with codes 2 and 13.
    places: BTreeMap<u8, BTreeSet<String>>,
}

impl Counts {
    fn add(&mut self, script: &[u8], answers: &[u8]) {
        let [script, answers] = [script, answers].map(|text| String::from_utf8_lossy(text));
        let asked = script.lines().filter(|line| (SCRIPTS.is_asked)(line.as_bytes()));
        for (line, answer) in asked.zip(answers.lines()) {
            let call = line.split(' ').next().unwrap_or_default();
            let mut words = answer.split(' ');
            let code = words.next().and_then(|code| code.parse().ok()).expect("a code");
            *self.calls.entry(call.to_string()).or_default().entry(code).or_default() += 1;
            if call == "check" && [2, 13].contains(&code) {
                self.places.entry(code).or_default().extend(words.next().map(str::to_string));
            }
        }
    }
}
