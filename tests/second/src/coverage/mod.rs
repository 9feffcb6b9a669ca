//! What generated sessions and scripts reach, counted by replaying them: codes, rules of the tables, figures, edges, forms
//! of lines, and what only scripts show.

mod app;
mod calls;
mod codes;
mod exact;
mod figures;
mod lines;
mod opening;
mod script_arguments;
mod script_blocks;
mod script_cover;
pub mod scripts;
mod stricter;
mod tables;
mod tally;
mod trouble;
mod unapp;

pub use tally::Tally;

use crate::block::{self, Block, Book};
use crate::calls::{DONE, Move, Order};
use crate::frame::Frame;
use crate::generate;
use crate::session::Session;
use crate::tables::{Lent, Tables};
use crate::units::ACCOUNTS;

/// All that sessions are to reach.
pub fn expected() -> Tally {
    let mut tally = Tally::default();
    calls::expect_codes(&mut tally);
    calls::expect(&mut tally);
    tables::expect(&mut tally);
    figures::expect(&mut tally);
    codes::expect(&mut tally);
    opening::expect(&mut tally);
    lines::expect(&mut tally);
    tally
}

/// A call's frame and code, with the book and the tables as they were before it and after it.
struct Step<'a> {
    frame: &'a Frame,
    code: u8,
    before: State<'a>,
    after: State<'a>,
}

/// A book and tables of the right lengths.
#[derive(Clone, Copy)]
struct State<'a> {
    book: &'a [i64],
    lent: Lent<'a>,
}

impl<'a> State<'a> {
    fn of(session: &'a Session) -> State<'a> {
        State { book: session.book(), lent: session.lent() }
    }

    fn block(&self, account: usize) -> &'a Block {
        &self.blocks()[account]
    }

    fn blocks(&self) -> &'a Book {
        block::blocks(self.book)
    }

    fn tables(&self) -> Tables<'a> {
        self.lent.tables().expect("tables of the right lengths")
    }
}

/// The account as a number of a block, if it is one.
fn account_of(account: i64) -> Option<usize> {
    usize::try_from(account).ok().filter(|&account| account < ACCOUNTS)
}

/// Counts what the session of a seed reaches.
pub fn count(seed: u64, lines: usize, tally: &mut Tally) {
    let input = generate::session(seed, lines);
    lines::count_end(&input, tally);
    let mut session = Session::default();
    let mut touched = Vec::new();
    for line in input.split_inclusive(|&byte| byte == b'\n') {
        let line = line.strip_suffix(b"\n").unwrap_or(line);
        let before = session.clone();
        let code = session.answer(line, &mut Vec::new());
        let Some(frame) = Frame::read(line) else {
            lines::count_form(line, tally);
            continue;
        };
        let step = Step { frame: &frame, code, before: State::of(&before), after: State::of(&session) };
        count_step(&step, &mut touched, tally);
    }
}

/// `touched` are the places set since the last call that was lent tables.
fn count_step(step: &Step, touched: &mut Vec<usize>, tally: &mut Tally) {
    calls::count_code(step, tally);
    match *step.frame {
        Frame::Set { place, number } => {
            touched.extend((step.code == DONE).then_some(place));
            lines::count_extreme("parameter", number, tally);
            return;
        }
        Frame::Open { .. } | Frame::Roll { .. } => return count_call(step, tally),
        Frame::Move(Move { amount, .. }) => lines::count_extreme("move", amount, tally),
        Frame::Order(ref order) => {
            lines::count_extreme("quantity", order.quantity, tally);
            lines::count_extreme("money", order.money, tally);
        }
        Frame::Report { .. } => {}
    }
    tables::count(&step.before.tables(), touched, tally);
    touched.clear();
    count_call(step, tally);
}

/// What a call with tables of the right lengths reaches.
fn count_call(step: &Step, tally: &mut Tally) {
    match *step.frame {
        Frame::Open { kind, code, .. } => opening::count(step, kind, code, tally),
        Frame::Move(ref wanted) => calls::count_move(step, wanted, tally),
        Frame::Order(ref wanted) => calls::count_order(step, wanted, tally),
        Frame::Roll { account } => calls::count_roll(step, account, tally),
        Frame::Report { account } => figures::count(step, account, tally),
        Frame::Set { .. } => {}
    }
    let (call, account) = match *step.frame {
        Frame::Move(Move { account, .. }) => ("move", account),
        Frame::Order(Order { account, .. }) => ("order", account),
        Frame::Roll { account } => ("roll", account),
        Frame::Report { account } => ("report", account),
        Frame::Set { .. } | Frame::Open { .. } => return,
    };
    if let Some(account) = account_of(account) {
        codes::count_six(call, step.code, &step.before, account, tally);
    }
}
