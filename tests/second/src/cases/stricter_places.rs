//! Document 02, #103, worked out by hand, as a call script: the place that the check names for each number of an own row,
//! and which fault it names where there are more. Assets 5 and 9 have row A, but a pool share of 7,500, which can be
//! exceeded.

use super::{Calls, Case, GROUP_ONE, SUMS, row_a};
use crate::block::{self, ORDINARY, holding_start};
use crate::calls::{BUY, Move, Order};
use crate::row::*;
use crate::script::{Buffer, Command};
use crate::units::*;

const ASSET: usize = 5;
const BEHIND: usize = 9;
/// Where their own rows start: 1,024 + 64 × 5, 1,024 + 64 × 9.
const START: usize = 1_344;
const START_BEHIND: usize = 1_600;
const ACCOUNT: usize = 3;

/// A number, values that are laxer than row A's, and stricter ones.
type Edges = (usize, &'static [i64], &'static [i64]);

const HEAD: [Edges; 12] = [
    (1, &[9_999, 10_001], &[]),
    (2, &[9_000, 5_001, 10_000], &[4_999, 0]),
    (3, &[7_501, 10_000], &[7_499, 0]),
    (4, &[1, 2], &[]),
    (5, &[], &[1]),
    (6, &[1_999, 0], &[2_001, 4_000]),
    (7, &[2_999, 0], &[3_001, 5_000]),
    (8, &[3_999, 2_000], &[4_001, 10_000]),
    (9, &[4_999, 3_000], &[5_001, 10_000]),
    (10, &[101, 10_000_000], &[99, 0]),
    (11, &[101, 10_000_000], &[99, 0]),
    (12, &[0, 2, 8], &[]),
];
/// The five of a date: mid 0, low −100, up 200, outer −200, 300.
const OF_DATE: [Edges; DATE] = [
    (0, &[-1, 1, -100, 200], &[]),
    (1, &[-99, 0], &[-101, -200]),
    (2, &[199, 0], &[201, 300]),
    (3, &[-199, -100], &[-201, -10_000_000]),
    (4, &[299, 200], &[301, 10_000_000]),
];

pub fn script() -> Case {
    let mut calls = Calls::default();
    calls.set(Buffer::Groups, 0, GROUP_ONE);
    for (table, asset) in [(Buffer::Clearing, ASSET), (Buffer::Clearing, BEHIND), (Buffer::Own, ASSET)] {
        calls.lend_row(table, asset);
    }
    calls.sound();
    calls.number_by_number();
    calls.marks_that_are_set();
    calls.the_first_of_more();
    calls.broken_comes_first();
    calls.every_call();
    calls.limit_raised();
    calls.case("stricter")
}

impl Calls {
    fn lend_row(&mut self, table: Buffer, asset: usize) {
        for (number, &value) in row_a().iter().enumerate().filter(|(_, value)| **value != 0) {
            self.set(table, ROW * asset + number, if number == POOL_SHARE { 7_500 } else { value });
        }
    }

    fn own(&mut self, number: usize, value: i64) {
        self.set(Buffer::Own, ROW * ASSET + number, value);
    }

    fn sound(&mut self) {
        self.call_without_sum(Command::Check, "0 0");
    }

    fn laxer(&mut self, place: usize) {
        self.call_without_sum(Command::Check, &format!("13 {place}"));
    }

    fn broken(&mut self, place: usize) {
        self.call_without_sum(Command::Check, &format!("2 {place}"));
    }

    fn number_by_number(&mut self) {
        HEAD.into_iter().for_each(|edges| self.around(0, edges));
        for date in 0..DATES {
            OF_DATE.into_iter().for_each(|edges| self.around(16 + 5 * date, edges));
        }
        self.sound();
    }

    fn around(&mut self, start: usize, (number, laxer, stricter): Edges) {
        let number = start + number;
        let equal = self.standing.numbers(Buffer::Own)[ROW * ASSET + number];
        for &value in laxer {
            self.own(number, value);
            self.laxer(START + number);
        }
        for &value in stricter {
            self.own(number, value);
            self.sound();
        }
        self.own(number, equal);
    }

    /// Over a clearing row that is not recorded and special.
    fn marks_that_are_set(&mut self) {
        self.set(Buffer::Clearing, ROW * ASSET + COVERED_SALES, 1);
        self.laxer(START + COVERED_SALES);
        self.own(COVERED_SALES, 2);
        self.laxer(START + COVERED_SALES);
        self.own(COVERED_SALES, 1);
        self.sound();
        self.set(Buffer::Clearing, ROW * ASSET + SPECIAL_DELIVERY, 1);
        self.laxer(START + SPECIAL_DELIVERY);
        self.own(SPECIAL_DELIVERY, 1);
        self.sound();
        self.set(Buffer::Clearing, ROW * ASSET + SPECIAL_DELIVERY, 0);
        self.sound();
        self.set(Buffer::Clearing, ROW * ASSET + COVERED_SALES, 0);
        self.laxer(START + COVERED_SALES);
        self.own(COVERED_SALES, 0);
        self.own(SPECIAL_DELIVERY, 0);
        self.sound();
    }

    /// Laxer numbers come in from behind, each before those that are there; then they are mended from the front.
    fn the_first_of_more(&mut self) {
        self.lend_row(Buffer::Own, BEHIND);
        self.sound();
        for (number, laxer) in [(55, 299), (1, 9_999)] {
            self.set(Buffer::Own, ROW * BEHIND + number, laxer);
            self.laxer(START_BEHIND + number);
        }
        let faults = [(55, 299, 300), (51, 1, 0), (17, -99, -100), (9, 4_999, 5_000), (2, 9_000, 5_000)];
        for (number, laxer, _) in faults {
            self.own(number, laxer);
            self.laxer(START + number);
        }
        for (number, _, right) in faults.into_iter().rev() {
            self.laxer(START + number);
            self.own(number, right);
        }
        for (number, right) in [(1, 10_000), (55, 300)] {
            self.laxer(START_BEHIND + number);
            self.set(Buffer::Own, ROW * BEHIND + number, right);
        }
        self.sound();
    }

    /// Wherever it stands.
    fn broken_comes_first(&mut self) {
        self.own(POOL_SHARE, 7_501);
        for (buffer, number, wrong, right, place) in [
            (Buffer::Clearing, 63, 1, 0, 63),
            (Buffer::Clearing, ROW * ASSET + GROUP, 9, 1, 332),
            (Buffer::Own, 7, 1, 0, 1_024),
            (Buffer::Own, ROW * ASSET, 2, 1, START),
            (Buffer::Own, ROW * ASSET + 3, 10_001, 7_501, START + 3),
            (Buffer::Own, ROW * ASSET + 63, -1, 0, START + 63),
            (Buffer::Own, ROW * BEHIND + 6, 4_001, 2_000, START_BEHIND + 8),
            (Buffer::Own, ROW * 15 + 63, i64::MIN, 0, 1_984),
            (Buffer::Groups, 7, 51, 0, 2_055),
        ] {
            self.set(buffer, number, wrong);
            self.broken(place);
            self.set(buffer, number, right);
            self.laxer(START + 3);
        }
    }

    /// With 13 alone, after 1 and before 3; the account has nothing of the asset. Open and roll are lent no tables.
    fn every_call(&mut self) {
        let right = self.standing.lengths();
        let mut long = right;
        long[Buffer::Groups as usize] = GROUPS + 1;
        for (lengths, code) in [(long, 1), (right, 13)] {
            self.lengths(lengths);
            for account in [ACCOUNT as i64, 16, i64::MIN] {
                self.call(Command::Report { account }, &format!("{code} 0 0 0 0 0"));
                self.call(Command::App { account }, &format!("{code} 0 0 0 0 0 0 0"));
                for (asset, amount) in [(255, 1), (5, -1), (0, 0)] {
                    self.call(Command::Move(Move { account, asset, amount }), &code.to_string());
                }
                for (asset, quantity) in [(5, 1), (0, 0)] {
                    let order = Order { account, asset, date: 0, side: BUY, quantity, money: 0 };
                    self.call(Command::Order(order), &code.to_string());
                }
            }
        }
        self.call(Command::Roll { account: ACCOUNT as i64 }, "4");
        self.standing.block_mut(ACCOUNT)[block::KIND] = ORDINARY;
        self.call(Command::Open { account: ACCOUNT as i64, kind: ORDINARY, code: 0 }, "0");
        self.call(Command::Roll { account: ACCOUNT as i64 }, "0");
        self.own(POOL_SHARE, 0);
        self.reported([0; 5]);
    }

    fn reported(&mut self, figures: [i64; 5]) {
        let figures = figures.map(|figure| figure.to_string()).join(" ");
        self.call(Command::Report { account: ACCOUNT as i64 }, &format!("0 {figures}"));
    }

    /// Ten units below zero have S4's figures; under special delivery, which is stricter, they have none.
    fn limit_raised(&mut self) {
        self.set(Buffer::Book, BLOCK * ACCOUNT + holding_start(ASSET), -10);
        self.reported(SUMS[4].figures);
        self.own(SPECIAL_DELIVERY, 1);
        self.reported([0; 5]);
        self.own(SPECIAL_DELIVERY, 0);
        self.reported(SUMS[4].figures);
    }
}
