//! What a script lends: the book, both tables, the groups and the app's feed, of any lengths, and the checksum over all
//! of them.

use crate::block::{self, Block, Book};
use crate::record::RECORD;
use crate::tables::{Lent, Tables};
use crate::units::*;

/// The buffers of today's calls; the order is that of the numbers of `L` and of the checksum's factors.
#[derive(Clone, Copy, Debug, PartialEq)]
pub enum Buffer {
    Book,
    Clearing,
    Own,
    Groups,
    /// The five numbers of #102.
    Feed,
}

impl Buffer {
    pub const ALL: [Buffer; 5] = [Buffer::Book, Buffer::Clearing, Buffer::Own, Buffer::Groups, Buffer::Feed];
    /// Those that a report is lent.
    pub const OF_REPORT: [Buffer; 4] = [Buffer::Book, Buffer::Clearing, Buffer::Own, Buffer::Groups];

    /// The length that a call takes.
    pub fn right_length(self) -> usize {
        match self {
            Buffer::Book => BOOK,
            Buffer::Clearing | Buffer::Own => TABLE,
            Buffer::Groups => GROUPS,
            Buffer::Feed => RECORD,
        }
    }

    /// The command that sets a number of it.
    pub fn word(self) -> &'static str {
        match self {
            Buffer::Book => "B",
            Buffer::Clearing => "C",
            Buffer::Own => "O",
            Buffer::Groups => "G",
            Buffer::Feed => "F",
        }
    }

    /// What its sum counts in the checksum; 3 and 13 are of buffers that no call is lent yet.
    fn factor(self) -> u64 {
        match self {
            Buffer::Book => 1,
            Buffer::Clearing => 5,
            Buffer::Own => 7,
            Buffer::Groups => 11,
            Buffer::Feed => 17,
        }
    }

    /// The buffer and the number in it of a place of the tables.
    pub fn of_place(place: usize) -> (Buffer, usize) {
        match place {
            0..TABLE => (Buffer::Clearing, place),
            _ if place < 2 * TABLE => (Buffer::Own, place - TABLE),
            _ => (Buffer::Groups, place - 2 * TABLE),
        }
    }
}

#[derive(Clone, PartialEq)]
pub struct Buffers {
    numbers: [Vec<i64>; 5],
}

impl Default for Buffers {
    fn default() -> Buffers {
        Buffers { numbers: Buffer::ALL.map(|buffer| vec![0; buffer.right_length()]) }
    }
}

impl Buffers {
    pub fn numbers(&self, buffer: Buffer) -> &Vec<i64> {
        &self.numbers[buffer as usize]
    }

    pub fn numbers_mut(&mut self, buffer: Buffer) -> &mut Vec<i64> {
        &mut self.numbers[buffer as usize]
    }

    /// Cut, or filled up with zeros.
    pub fn resize(&mut self, buffer: Buffer, length: usize) {
        self.numbers_mut(buffer).resize(length, 0);
    }

    pub fn lengths(&self) -> [usize; 5] {
        Buffer::ALL.map(|buffer| self.numbers(buffer).len())
    }

    /// The book, the feed, and what is lent beside them.
    pub fn split(&mut self) -> (&mut [i64], &mut [i64], Lent<'_>) {
        let [book, clearing, own, groups, feed] = &mut self.numbers;
        (book, feed, Lent { clearing, own, groups })
    }

    pub fn book(&self) -> &[i64] {
        self.numbers(Buffer::Book)
    }

    pub fn lent(&self) -> Lent<'_> {
        let [_, clearing, own, groups, _] = &self.numbers;
        Lent { clearing, own, groups }
    }

    pub fn feed(&self) -> &[i64] {
        self.numbers(Buffer::Feed)
    }

    /// None where a length is wrong.
    pub fn tables(&self) -> Option<Tables<'_>> {
        self.lent().tables()
    }

    pub fn block(&self, account: usize) -> &Block {
        &self.blocks()[account]
    }

    /// Of a book of the right length.
    pub fn blocks(&self) -> &Book {
        block::blocks(self.book())
    }

    pub fn block_mut(&mut self, account: usize) -> &mut Block {
        &mut block::blocks_mut(self.numbers_mut(Buffer::Book))[account]
    }

    /// Modulo 2^64: for each buffer the sum of (i + 1) × number i, times the buffer's factor.
    pub fn sum(&self) -> u64 {
        Buffer::ALL.iter().fold(0, |sum: u64, &buffer| {
            let weighed =
                |sum: u64, (i, &number): (usize, &i64)| sum.wrapping_add((i as u64 + 1).wrapping_mul(number as u64));
            let own_sum = self.numbers(buffer).iter().enumerate().fold(0, weighed);
            sum.wrapping_add(own_sum.wrapping_mul(buffer.factor()))
        })
    }
}
