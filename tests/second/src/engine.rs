//! A program of the engine as a process, fed through a pipe and compared with the library byte by byte.

use std::ffi::{c_int, c_ulong};
use std::io::{self, ErrorKind, Write};
use std::os::fd::AsRawFd;
use std::process::{ChildStdin, Command, Output, Stdio};
use std::thread;
use std::time::{Duration, Instant};

use crate::{script, session};

/// What is asked of both programs.
#[derive(Clone, Copy)]
pub struct Language {
    /// The end of a stored input's name.
    pub end: &'static str,
    /// The library's answers.
    pub answers: fn(&[u8]) -> Vec<u8>,
    /// Whether a line of the input gets an answer line.
    pub is_asked: fn(&[u8]) -> bool,
}

pub const SESSIONS: Language = Language { end: "in", answers: session::answers, is_asked: |_| true };
/// The words of calls are in small letters, those of other commands are not.
pub const SCRIPTS: Language = Language {
    end: "calls",
    answers: script::answers,
    is_asked: |line| line.first().is_some_and(u8::is_ascii_lowercase),
};

/// One input through both programs, the engine's in pieces: hands back the answers, or says what differs.
pub fn compare(language: &Language, program: &str, pieces: &[&[u8]]) -> Result<Vec<u8>, String> {
    let input = pieces.concat();
    let output = run(program, pieces).map_err(|error| format!("{program}: {error}"))?;
    let wanted = (language.answers)(&input);
    if let Some(difference) = difference(language, &input, &wanted, &output.stdout) {
        return Err(difference);
    }
    if !output.status.success() {
        return Err(format!("{program} ended with {}", output.status));
    }
    Ok(wanted)
}

/// Feeds the program from a thread of its own, so that neither waits for the other.
fn run(program: &str, pieces: &[&[u8]]) -> io::Result<Output> {
    let mut child = Command::new(program).stdin(Stdio::piped()).stdout(Stdio::piped()).spawn()?;
    let stdin = child.stdin.take().expect("a pipe");
    thread::scope(|scope| {
        // A program that ends before it has read everything shows in its output.
        scope.spawn(move || feed(stdin, pieces));
        child.wait_with_output()
    })
}

/// A piece is written when the program has read all before it, so that no read has bytes of two pieces.
fn feed(mut pipe: ChildStdin, pieces: &[&[u8]]) -> io::Result<()> {
    for (number, piece) in pieces.iter().enumerate() {
        if number > 0 {
            wait_until_read(&pipe)?;
        }
        pipe.write_all(piece)?;
    }
    Ok(())
}

fn wait_until_read(pipe: &ChildStdin) -> io::Result<()> {
    const PATIENCE: Duration = Duration::from_secs(20);
    let begun = Instant::now();
    while unread(pipe)? > 0 {
        if begun.elapsed() > PATIENCE {
            return Err(ErrorKind::TimedOut.into());
        }
        thread::yield_now();
    }
    Ok(())
}

unsafe extern "C" {
    fn ioctl(file: c_int, request: c_ulong, ...) -> c_int;
}

/// How many bytes wait in the pipe; the standard library does not ask that, Linux answers it.
fn unread(pipe: &ChildStdin) -> io::Result<c_int> {
    const FIONREAD: c_ulong = 0x541b;
    let mut bytes: c_int = 0;
    // SAFETY: the file is open, and FIONREAD writes one int where it is told to.
    match unsafe { ioctl(pipe.as_raw_fd(), FIONREAD, &raw mut bytes) } {
        0 => Ok(bytes),
        _ => Err(io::Error::last_os_error()),
    }
}

/// The first line that differs, with both answers.
fn difference(language: &Language, input: &[u8], wanted: &[u8], answered: &[u8]) -> Option<String> {
    if wanted == answered {
        return None;
    }
    let mut asked = (1..).zip(lines(input)).filter(|(_, line)| (language.is_asked)(line));
    let (mut wanted, mut answered) = (lines(wanted), lines(answered));
    loop {
        let (number, line) = asked.next().unwrap_or((0, b"nothing"));
        let [wanted, answered] = [wanted.next(), answered.next()];
        if wanted != answered || wanted.is_none() {
            let [wanted, answered] = [wanted, answered].map(|line| text(line.unwrap_or(b"nothing")));
            let line = text(line);
            return Some(format!("line {number}: {line}\n  the second program: {wanted}\n  the engine: {answered}"));
        }
    }
}

/// Each with its newline, which the last may lack.
pub fn lines(text: &[u8]) -> impl Iterator<Item = &[u8]> {
    text.split_inclusive(|&byte| byte == b'\n')
}

/// A line as it can be shown, cut short where it is long.
fn text(line: &[u8]) -> String {
    const SHOWN: usize = 120;
    let line = line.strip_suffix(b"\n").unwrap_or(line);
    line[..line.len().min(SHOWN)].escape_ascii().to_string()
}
