//! Call scripts, for tests only: library calls one a line, of hand-made books and tables of any lengths. They show what
//! a session cannot: the place of the table check, code 1, damaged blocks, the cover test, the figures for the phone app, and
//! every buffer after every call by its checksum.

mod buffers;
mod command;

pub use buffers::{Buffer, Buffers};
pub use command::Command;

use std::fmt;
use std::io::{self, BufRead, Write};

use crate::calls::{self, App, Refusal, code};
use crate::cover::row_passes;
use crate::limit::Figures;
use crate::record::Record;

/// What a call answers; shown, it is the answer's line.
#[derive(Clone, Copy)]
pub enum Answer {
    Check { code: u8, place: usize },
    Cover(bool),
    Changed { code: u8, sum: u64 },
    Report { code: u8, figures: Figures, sum: u64 },
    App { code: u8, app: App, sum: u64 },
    Unapp { code: u8, record: Record },
}

impl Answer {
    /// The code; of `cover`, 1 or 0.
    pub fn code(&self) -> u8 {
        match *self {
            Answer::Cover(passes) => u8::from(passes),
            Answer::Check { code, .. } | Answer::Changed { code, .. } | Answer::Report { code, .. } => code,
            Answer::App { code, .. } | Answer::Unapp { code, .. } => code,
        }
    }
}

impl fmt::Display for Answer {
    fn fmt(&self, out: &mut fmt::Formatter) -> fmt::Result {
        match *self {
            Answer::Check { code, place } => write!(out, "{code} {place}"),
            Answer::Cover(passes) => write!(out, "{}", u8::from(passes)),
            Answer::Changed { code, sum } => write!(out, "{code} {sum}"),
            Answer::Report { code, figures, sum } => {
                write!(out, "{code} {} {sum}", figures.five().map(|figure| figure.to_string()).join(" "))
            }
            Answer::App { code, app: App { record, gauge }, sum } => {
                write!(out, "{code} {} {} {} {sum}", bits(&record), gauge.number(), gauge.bits())
            }
            Answer::Unapp { code, record } => write!(out, "{code} {}", bits(&record)),
        }
    }
}

fn bits(record: &Record) -> String {
    record.bits().map(|bits| bits.to_string()).join(" ")
}

/// Obeys a command, and answers a call. Only a number beyond the lent length is wrong of a command that was read.
pub fn obey(buffers: &mut Buffers, command: &Command) -> Result<Option<Answer>, String> {
    match *command {
        Command::Set { buffer, number, value } => {
            let numbers = buffers.numbers_mut(buffer);
            *numbers.get_mut(number).ok_or_else(|| format!("{command}: beyond the lent length"))? = value;
        }
        Command::Lengths(lengths) => {
            for (buffer, length) in Buffer::ALL.into_iter().zip(lengths) {
                buffers.resize(buffer, length);
            }
        }
        Command::Reset => *buffers = Buffers::default(),
        _ => return Ok(Some(answer(buffers, command))),
    }
    Ok(None)
}

fn answer(buffers: &mut Buffers, command: &Command) -> Answer {
    let (book, feed, lent) = buffers.split();
    let done: Result<(), Refusal> = match *command {
        Command::Cover { asset } => return Answer::Cover(row_passes(&lent, asset)),
        Command::Report { account } => {
            let report = calls::report(book, &lent, account);
            let sum = buffers.sum();
            return Answer::Report { code: code(&report), figures: report.unwrap_or_default(), sum };
        }
        Command::App { account } => {
            let app = calls::app(book, &lent, account, feed);
            let sum = buffers.sum();
            return Answer::App { code: code(&app), app: app.unwrap_or_default(), sum };
        }
        Command::Unapp => {
            let record = calls::unapp(feed);
            return Answer::Unapp { code: code(&record), record: record.unwrap_or_default() };
        }
        Command::Open { account, kind, code } => calls::open(book, account, kind, code),
        Command::Move(ref wanted) => calls::move_collateral(book, &lent, wanted),
        Command::Order(ref wanted) => calls::order(book, &lent, wanted),
        Command::Roll { account } => {
            rule!(calls::roll(book, account); RollAsksForUnlisted => calls::roll_asking(book, &lent, account))
        }
        Command::Check | Command::Set { .. } | Command::Lengths(_) | Command::Reset => {
            let (code, place) = calls::check_tables(&lent);
            return Answer::Check { code, place };
        }
    };
    Answer::Changed { code: code(&done), sum: buffers.sum() }
}

/// A whole script: an answer line for each call. A line of another form ends it.
pub fn run(input: impl BufRead, mut output: impl Write) -> io::Result<()> {
    let mut buffers = Buffers::default();
    for (number, line) in input.lines().enumerate() {
        let line = line?;
        let wrong = |what: String| io::Error::other(format!("line {}: {what}", number + 1));
        let command = Command::read(&line).ok_or_else(|| wrong(format!("no command: {line}")))?;
        if let Some(answer) = obey(&mut buffers, &command).map_err(wrong)? {
            writeln!(output, "{answer}")?;
        }
    }
    output.flush()
}

/// The answers to a script held in memory.
pub fn answers(script: &[u8]) -> Vec<u8> {
    let mut output = Vec::new();
    run(script, &mut output).expect("a script that keeps its form");
    output
}
