//! The stored cases are the files in tests/cases, and the second program answers each as it is stored.

use std::collections::BTreeSet;
use std::fs;
use std::path::Path;

use second::cases::{self, Case, SUMS};
use second::{script, session};

/// From the package's folder, where the tests run.
const STORED: &str = "../cases";
const CRATES: &str = "../../crates";

fn is_answered(case: &Case, answers: fn(&[u8]) -> Vec<u8>) {
    let answered = answers(&case.input);
    let answered = String::from_utf8_lossy(&answered);
    let wanted = String::from_utf8_lossy(&case.output);
    let differs = answered.lines().zip(wanted.lines()).position(|(answered, wanted)| answered != wanted);
    assert_eq!(differs, None, "first differing line of {}", case.name);
    assert_eq!(answered, wanted, "{}", case.name);
}

#[test]
fn each_case_is_answered_as_written() {
    for case in cases::sessions().into_iter().chain([cases::program()]) {
        is_answered(&case, session::answers);
    }
    for case in cases::scripts() {
        is_answered(&case, script::answers);
    }
}

#[test]
fn the_stored_files_are_the_cases() {
    let mut names = BTreeSet::new();
    let sessions = cases::sessions().into_iter().map(|case| (case, ["in", "out"]));
    let scripts = cases::scripts().into_iter().map(|case| (case, ["calls", "answers"]));
    for (case, ends) in sessions.chain(scripts) {
        for (end, text) in ends.into_iter().zip([&case.input, &case.output]) {
            let name = format!("{}.{end}", case.name);
            assert!(fs::read(Path::new(STORED).join(&name)).expect(&name) == *text, "{name}");
            names.insert(name);
        }
    }
    let stored = fs::read_dir(STORED).expect("the folder of stored cases");
    let stored = stored.map(|file| file.expect("a file").file_name().into_string().expect("a plain name"));
    assert_eq!(stored.filter(|name| !name.starts_with('.')).collect::<BTreeSet<_>>(), names);
}

#[test]
fn the_programs_files_are_the_documents_session() {
    let Case { name, input, output } = cases::program();
    for (file, text) in [("stdin", input), ("stdout", output)] {
        let path = Path::new(CRATES).join(&name).join(file);
        assert!(fs::read(&path).expect("a stored file") == text, "{}", path.display());
    }
}

/// The five figures of each report that was done, in the order of the answers.
fn reports(answers: &str) -> Vec<[i64; 5]> {
    let figure = |digits: &str| u64::from_str_radix(digits, 16).expect("digits") as i64;
    let figures = |line: &str| [2, 18, 34, 50, 66].map(|at| figure(&line[at..at + 16]));
    answers.lines().filter(|line| line.len() == 82 && line.starts_with("00")).map(figures).collect()
}

#[test]
fn the_session_of_sums_reports_the_documents_table() {
    let path = Path::new(STORED).join("sums.out");
    let reports = reports(&fs::read_to_string(path).expect("digits"));
    assert_eq!(reports[..SUMS.len()], SUMS.map(|sum| sum.figures));
    // The two orders: a kopeck short, then admitted with a limit of 0.
    assert_eq!(reports[SUMS.len()..][..2].iter().map(|figures| figures[4]).collect::<Vec<_>>(), [20_999, 0]);
}

#[test]
fn the_long_session_reaches_every_code() {
    let lines = fs::read_to_string(Path::new(STORED).join("long.out")).expect("digits");
    let codes: BTreeSet<&str> = lines.lines().map(|line| &line[..2]).collect();
    let all = ["00", "02", "03", "04", "05", "06", "07", "08", "09", "0a", "0c", "0d"];
    assert_eq!(codes, BTreeSet::from(all), "every code but 1, which a session cannot show");
}
