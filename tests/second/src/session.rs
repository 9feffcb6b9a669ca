//! Document 01, "Session lines": a session from an empty book and all-zero tables; one answer line for each input line.

use std::io::{self, BufRead, Write};

use crate::block::{self, Block, Book};
use crate::calls::{self, Refusal, code};
use crate::frame::{Frame, LONGEST_LINE, encode};
use crate::limit::Figures;
use crate::tables::{Lent, PLACES};
use crate::units::{BOOK, TABLE};

/// The code of a line of any other form.
pub const MALFORMED: u8 = 12;

#[derive(Clone)]
pub struct Session {
    book: Vec<i64>,
    /// Clearing table, own table and groups, by place.
    parameters: Vec<i64>,
}

impl Default for Session {
    fn default() -> Session {
        Session { book: vec![0; BOOK], parameters: vec![0; PLACES] }
    }
}

impl Session {
    pub fn block(&self, account: usize) -> &Block {
        &self.blocks()[account]
    }

    pub fn blocks(&self) -> &Book {
        block::blocks(&self.book)
    }

    pub fn book(&self) -> &[i64] {
        &self.book
    }

    pub fn parameters(&self) -> &[i64] {
        &self.parameters
    }

    pub fn lent(&self) -> Lent<'_> {
        lent(&self.parameters)
    }

    /// Answers one line, given without its newline; hands back the code.
    pub fn answer(&mut self, line: &[u8], answers: &mut Vec<u8>) -> u8 {
        let code = match Frame::read(line) {
            None => MALFORMED,
            Some(Frame::Report { account }) => return self.answer_report(account, answers),
            Some(Frame::Set { place, number }) => code(&self.set(place, number)),
            Some(Frame::Open { account, kind, code: wanted }) => {
                code(&calls::open(&mut self.book, account, kind, wanted))
            }
            Some(Frame::Move(wanted)) => {
                code(&calls::move_collateral(&mut self.book, &lent(&self.parameters), &wanted))
            }
            Some(Frame::Order(wanted)) => code(&calls::order(&mut self.book, &lent(&self.parameters), &wanted)),
            Some(Frame::Roll { account }) => code(&rule!(calls::roll(&mut self.book, account);
                RollAsksForUnlisted => calls::roll_asking(&mut self.book, &lent(&self.parameters), account))),
        };
        encode(&[code], answers);
        answers.push(b'\n');
        code
    }

    /// `01`: any number at places 0 to 2055, with no table check.
    fn set(&mut self, place: usize, number: i64) -> Result<(), Refusal> {
        let parameter = self.parameters.get_mut(place).ok_or(Refusal::NoSuchChoice)?;
        *parameter = number;
        Ok(())
    }

    /// `06`: the code and five figures, zero where refused.
    fn answer_report(&self, account: i64, answers: &mut Vec<u8>) -> u8 {
        let report = calls::report(&self.book, &self.lent(), account);
        write_report(code(&report), &report.unwrap_or_default(), answers);
        code(&report)
    }
}

fn lent(parameters: &[i64]) -> Lent<'_> {
    let (clearing, rest) = parameters.split_at(TABLE);
    let (own, groups) = rest.split_at(TABLE);
    Lent { clearing, own, groups }
}

/// A report's answer line.
fn write_report(code: u8, figures: &Figures, answers: &mut Vec<u8>) {
    encode(&[code], answers);
    for figure in figures.five() {
        encode(&figure.to_be_bytes(), answers);
    }
    answers.push(b'\n');
}

/// A whole session: each line of the input answered on the output.
pub fn run(mut input: impl BufRead, mut output: impl Write) -> io::Result<()> {
    let mut session = Session::default();
    let mut line = Vec::new();
    let mut answer = Vec::new();
    while next_line(&mut input, &mut line)? {
        session.answer(&line, &mut answer);
        output.write_all(&answer)?;
        answer.clear();
    }
    output.flush()
}

/// The answers to an input held in memory.
pub fn answers(input: &[u8]) -> Vec<u8> {
    let mut output = Vec::new();
    run(input, &mut output).expect("reading and writing memory does not fail");
    output
}

/// Reads up to the next newline, or to the end where the last line lacks it; false where nothing is left. Only the
/// longest frame's digits and one more are kept: that much shows a line to be too long, however long it is.
fn next_line(input: &mut impl BufRead, line: &mut Vec<u8>) -> io::Result<bool> {
    line.clear();
    let mut begun = false;
    loop {
        let piece = input.fill_buf()?;
        if piece.is_empty() {
            return Ok(begun);
        }
        begun = true;
        let newline = piece.iter().position(|&byte| byte == b'\n');
        let part = &piece[..newline.unwrap_or(piece.len())];
        let kept = part.len().min(LONGEST_LINE + 1 - line.len());
        line.extend_from_slice(&part[..kept]);
        let used = part.len() + usize::from(newline.is_some());
        input.consume(used);
        if newline.is_some() {
            return Ok(true);
        }
    }
}
