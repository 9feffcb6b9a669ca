//! `bench-session INPUT ENGINE SECOND REFERENCE [RUN]`: times the session programs in turn on the file and on an empty input, by the CPU time of each
//! process, output thrown away. Their answers are compared first, which also warms them up. Lines on standard output, tab-separated, one number a
//! round: `session`, nanoseconds a line without those of the start; `start`, nanoseconds of the start, of RUN by the clock on the wall.

use std::fs::{self, File};
use std::process::{Command, ExitCode, Stdio};
use std::time::Instant;

use bench::clock;
use bench::contestants::SIDES;

const ROUNDS: usize = 150;
const RUNS: usize = 15;
const NOTHING: &str = "/dev/null";

fn main() -> ExitCode {
    let arguments: Vec<String> = std::env::args().skip(1).collect();
    let [input, engine, second, reference, run @ ..] = &arguments[..] else {
        eprintln!("usage: bench-session INPUT ENGINE SECOND REFERENCE [RUN]");
        return ExitCode::FAILURE;
    };
    let programs = [engine, second, reference];
    let wanted = answers(second, input);
    if let Some(other) = programs.iter().find(|program| answers(program, input) != wanted) {
        eprintln!("bench-session: {other} and {second} answer {input} differently");
        return ExitCode::FAILURE;
    }
    measure(input, programs);
    for run in run {
        print("start", "./run", 0, "engine", &(0..RUNS).map(|_| on_the_wall(run)).collect::<Vec<_>>());
    }
    ExitCode::SUCCESS
}

fn measure(input: &str, programs: [&String; SIDES.len()]) {
    let bytes = fs::read(input).expect("the input is readable");
    // The last line may lack its newline.
    let lines = bytes.strip_suffix(b"\n").unwrap_or(&bytes).split(|&byte| byte == b'\n').count();
    let mut times = [const { Vec::new() }; SIDES.len()];
    let mut starts = [const { Vec::new() }; SIDES.len()];
    for round in 0..ROUNDS {
        for turn in 0..programs.len() {
            let at = (round + turn) % programs.len();
            let start = clock::of_program(command(programs[at], NOTHING).stdout(Stdio::null()));
            let whole = clock::of_program(command(programs[at], input).stdout(Stdio::null()));
            starts[at].push(start);
            times[at].push((whole - start) / lines as f64);
        }
    }
    for (at, side) in SIDES.iter().enumerate() {
        print("session", "session line", lines, side.name(), &times[at]);
        print("start", "session program", 0, side.name(), &starts[at]);
    }
}

fn print(set: &str, name: &str, count: usize, side: &str, times: &[f64]) {
    let times: Vec<String> = times.iter().map(|time| format!("{time:.1}")).collect();
    println!("{set}\t{name}\t{count}\t{side}\t{}", times.join("\t"));
}

fn command(program: &str, input: &str) -> Command {
    let mut command = Command::new(program);
    command.stdin(File::open(input).expect("the input opens"));
    command
}

fn answers(program: &str, input: &str) -> Vec<u8> {
    let output = command(program, input).output().expect("the program starts");
    assert!(output.status.success(), "{program} fails");
    output.stdout
}

fn on_the_wall(program: &str) -> f64 {
    let start = Instant::now();
    let status = command(program, NOTHING).stdout(Stdio::null()).status().expect("the program starts");
    assert!(status.success(), "{program} fails");
    start.elapsed().as_nanos() as f64
}
