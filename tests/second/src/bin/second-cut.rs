//! `second-cut PROGRAM FIRST COUNT LINES [INPUT...]`: what the engine's session program answers does not depend on the
//! pieces its input comes in. For each of COUNT seeds from FIRST on, a generated session and the inputs in files are
//! cut at random and handed to it piece by piece; the answers are the library's, or it fails.

use std::process::ExitCode;
use std::{env, fs};

use second::engine;
use second::generate::{self, Random};

fn main() -> ExitCode {
    let arguments: Vec<String> = env::args().skip(1).collect();
    let [program, first, count, lines, inputs @ ..] = &arguments[..] else { return usage() };
    let numbers = [first, count, lines].map(|argument| argument.parse().ok());
    let [Some(first), Some(count), Some(lines)] = numbers else { return usage() };
    match cut_all(program, first..first + count, lines as usize, inputs) {
        Ok(pieces) => {
            println!("{count} cuts of {} inputs, {pieces} pieces, each read by itself: none differs", inputs.len() + 1);
            ExitCode::SUCCESS
        }
        Err(error) => {
            println!("{error}");
            ExitCode::FAILURE
        }
    }
}

fn usage() -> ExitCode {
    eprintln!("usage: second-cut PROGRAM FIRST COUNT LINES [INPUT...]");
    ExitCode::FAILURE
}

/// How many pieces there were.
fn cut_all(program: &str, seeds: std::ops::Range<u64>, lines: usize, paths: &[String]) -> Result<usize, String> {
    let read = |path: &String| fs::read(path).map_err(|error| format!("{path}: {error}"));
    let stored = paths.iter().map(read).collect::<Result<Vec<_>, _>>()?;
    let mut count = 0;
    for seed in seeds {
        let mut random = Random::new(seed);
        let generated = generate::session(seed, lines);
        for (number, input) in stored.iter().chain([&generated]).enumerate() {
            let pieces = cut(input, &mut random);
            let name = paths.get(number).map_or("the generated session", |path| path);
            engine::compare(&engine::SESSIONS, program, &pieces)
                .map_err(|error| format!("seed {seed}, {name}, cut: {error}"))?;
            count += pieces.len();
        }
    }
    Ok(count)
}

/// Pieces of 1 byte up to a greatest size, which is drawn first: some inputs come byte by byte, some nearly whole.
fn cut<'a>(input: &'a [u8], random: &mut Random) -> Vec<&'a [u8]> {
    /// Keeps an input's run short: each piece waits for the program.
    const MOST_PIECES: usize = 20_000;
    let sizes = [1, 10, 100, 1_000, 10_000, 100_000];
    let fits = |&size: &usize| size <= input.len().max(1) && input.len() / size <= MOST_PIECES;
    let most = random.pick(&sizes.into_iter().filter(fits).collect::<Vec<_>>());
    let mut pieces = Vec::new();
    let mut rest = input;
    while !rest.is_empty() {
        let (piece, after) = rest.split_at(rest.len().min(1 + random.below(most)));
        pieces.push(piece);
        rest = after;
    }
    pieces
}
