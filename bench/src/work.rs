//! The runs that are timed: each makes a number of calls and hands back how many were answered as expected.

use std::hint::black_box;

use second::block::{CLAIMS, NETS, OBLIGATIONS, holding_start};
use second::calls::{BUY, Order};
use second::tables::Lent;
use second::units::BLOCK;

use crate::books::Book;
use crate::contestants::{Contestant, Engine, Reference, Second, Side};
use crate::tables::Tables;

/// What is timed.
#[derive(Clone, Copy, PartialEq)]
pub enum Call {
    CheckTables,
    Report,
    OrderAdmitted,
    OrderRefused,
    TroubleRefused,
    TroubleAdmitted,
}

impl Call {
    pub const EACH: [Call; 6] = [
        Call::CheckTables,
        Call::Report,
        Call::OrderAdmitted,
        Call::OrderRefused,
        Call::TroubleRefused,
        Call::TroubleAdmitted,
    ];

    pub fn name(self) -> &'static str {
        match self {
            Call::CheckTables => "table check",
            Call::Report => "report",
            Call::OrderAdmitted => "order admitted",
            Call::OrderRefused => "order refused (10)",
            Call::TroubleRefused => "order in trouble, refused (10)",
            Call::TroubleAdmitted => "order in trouble, admitted",
        }
    }

    pub fn code(self) -> u8 {
        if matches!(self, Call::OrderRefused | Call::TroubleRefused) { 10 } else { 0 }
    }

    /// Whether it is asked of accounts in trouble, or of the others.
    pub fn is_for(self, in_trouble: bool) -> bool {
        match self {
            Call::CheckTables | Call::Report => true,
            Call::OrderAdmitted | Call::OrderRefused => !in_trouble,
            Call::TroubleRefused | Call::TroubleAdmitted => in_trouble,
        }
    }
}

/// An account of one of the books.
#[derive(Clone, Copy)]
pub struct Asked {
    pub book: usize,
    pub account: i64,
}

pub enum Work {
    Check,
    Report(Vec<Asked>),
    /// Each of a book.
    Order(Vec<(usize, Order)>),
}

pub struct Case {
    pub name: &'static str,
    pub call: Call,
    /// What tells it from the same call elsewhere: assets, own rows, blocks, place or code.
    pub count: usize,
    pub work: Work,
    /// The code of each answer.
    pub code: u8,
}

/// Which calls of a case's list are made: so many, from this one on, again from the first after the last.
#[derive(Clone, Copy)]
pub struct Slice {
    pub from: usize,
    pub count: usize,
}

impl Slice {
    /// How many of the slice's calls are answered as they should be.
    fn tally<T>(self, list: &[T], mut answered: impl FnMut(&T) -> bool) -> usize {
        let mut at = self.from % list.len();
        let mut right = 0;
        for _ in 0..self.count {
            right += usize::from(answered(&list[at]));
            at += 1;
            if at == list.len() {
                at = 0;
            }
        }
        right
    }
}

impl Case {
    pub fn run(&self, side: Side, tables: &Tables, books: &mut [Book], slice: Slice) -> usize {
        match side {
            Side::Engine => self.run_by::<Engine>(&tables.lent(), books, slice),
            Side::Second => self.run_by::<Second>(&tables.lent(), books, slice),
            Side::Reference => self.run_by::<Reference>(&tables.lent(), books, slice),
        }
    }

    /// black_box hides from the compiler that the inputs are the same as before and the answers are hardly used, so it can neither move
    /// a call out of the loop nor leave one out.
    fn run_by<C: Contestant>(&self, tables: &Lent, books: &mut [Book], slice: Slice) -> usize {
        match &self.work {
            Work::Check => slice.tally(&[()], |_| black_box(C::check_tables(black_box(tables))).0 == self.code),
            Work::Report(list) => slice.tally(list, |&Asked { book, account }| {
                black_box(C::report(black_box(&books[book]), black_box(tables), account)).0 == self.code
            }),
            Work::Order(list) => slice.tally(list, |(book, wanted)| {
                order::<C>(black_box(&mut books[*book]), black_box(tables), wanted) == self.code
            }),
        }
    }

    /// Reads the blocks of a slice, so that whoever comes first finds them as near as the others do.
    pub fn fetch(&self, books: &[Book], slice: Slice) {
        let read = |book: usize, account: i64| {
            let block = books[book].chunks_exact(BLOCK).nth(account as usize).unwrap_or_default();
            black_box(block.iter().fold(0, |sum: i64, &number| sum.wrapping_add(number)));
            true
        };
        match &self.work {
            Work::Check => 0,
            Work::Report(list) => slice.tally(list, |asked| read(asked.book, asked.account)),
            Work::Order(list) => slice.tally(list, |(book, wanted)| read(*book, wanted.account)),
        };
    }
}

/// An order that is admitted is taken back at once by putting its two numbers back: the book neither grows nor reaches a bound,
/// and for every contestant that costs the same two writes.
fn order<C: Contestant>(book: &mut Book, tables: &Lent, wanted: &Order) -> u8 {
    let places = places(wanted);
    let before = places.map(|place| book[place]);
    let answer = C::order(book, tables, wanted);
    for (place, number) in places.into_iter().zip(before) {
        book[place] = number;
    }
    answer
}

/// The two numbers of the book that an order changes.
fn places(order: &Order) -> [usize; 2] {
    let block = BLOCK * order.account as usize;
    let date = order.date as usize;
    let trades = if order.side == BUY { CLAIMS } else { OBLIGATIONS };
    [block + holding_start(order.asset as usize) + trades.start + date, block + NETS.start + date]
}
