//! Document 02, #104, as a call script: what no session makes of a settlement code. Kinds mixed, a block that is not open,
//! five of them, one out of bounds, numbers 13 that are no codes; and the figures of four full blocks at 2^53, one below
//! and one above.

use super::{Calls, Case, GROUP_ONE, SUMS, bits_of_whole, row_a};
use crate::block::{self, CLAIMS, COLLATERAL, OBLIGATIONS, ORDINARY, POOL, holding_start};
use crate::calls::{BUY, Move, Order, RUBLES};
use crate::record::RECORD;
use crate::row::{ACCEPTANCE_SHARE, KIND, POOL_SHARE, PRICE, SECURITY};
use crate::script::{Buffer, Command};
use crate::units::*;

/// The code, the two accounts on it, and others.
const CODE: i64 = 3;
const ONE: usize = 6;
const OTHER: usize = 11;
const MORE: [usize; 3] = [0, 9, 15];
const EMPTY: usize = 4;

/// Forty of collateral and an obligation of thirty in another block, as in the case shared-s03.
const SHORT: [i64; 5] = [-100_000, 30_000, 2_000, 0, -132_000];
/// S2: the forty alone.
const FORTY: [i64; 5] = SUMS[1].figures;

/// Accounts of another code, and what their units are worth: 5.76 × 10^15.
const FULL: [usize; MEMBERS] = [1, 5, 10, 14];
const UNITS: i64 = 16 * 4 * 9 * MOST_UNITS * MOST_PRICE;
/// 2^53.
const SIZE: i64 = 9_007_199_254_740_992;

pub fn script() -> Case {
    let mut script = Settlement(Calls::default());
    script.start();
    script.numbers_that_are_no_codes();
    script.kinds_mixed();
    script.not_open();
    script.five();
    script.out_of_bounds();
    script.unlisted();
    script.at_2_to_the_53();
    script.0.case("settlement")
}

struct Settlement(Calls);

impl Settlement {
    fn number(&mut self, account: usize, number: usize, value: i64) {
        self.0.set(Buffer::Book, BLOCK * account + number, value);
    }

    fn on_code(&mut self, account: usize, kind: i64, code: i64) {
        self.number(account, block::KIND, kind);
        self.number(account, block::CODE, code);
    }

    fn report(&mut self, account: usize, figures: [i64; 5]) {
        let figures = figures.map(|figure| figure.to_string()).join(" ");
        self.0.call(Command::Report { account: account as i64 }, &format!("0 {figures}"));
    }

    fn open(&mut self, account: usize, kind: i64, code: i64, answer: u8) {
        self.0.call(Command::Open { account: account as i64, kind, code }, &answer.to_string());
    }

    /// Every call of an account is answered with 6, a roll with 6 or 0.
    fn stopped(&mut self, account: usize, roll: u8) {
        let account = account as i64;
        let order = Order { account, asset: 0, date: 0, side: BUY, quantity: 1, money: 0 };
        self.0.call(Command::Move(Move { account, asset: RUBLES, amount: 1 }), "6");
        self.0.call(Command::Order(order), "6");
        self.0.call(Command::Report { account }, "6 0 0 0 0 0");
        self.0.call(Command::App { account }, "6 0 0 0 0 0 0 0");
        self.0.call(Command::Roll { account }, &roll.to_string());
    }

    /// Both accounts of the code, and whoever would come onto it.
    fn all_stopped(&mut self) {
        for account in [ONE, OTHER] {
            self.stopped(account, 6);
        }
        self.open(EMPTY, ORDINARY, CODE, 7);
    }

    /// Row A, two accounts on the code, and one without.
    fn start(&mut self) {
        for (number, &value) in row_a().iter().enumerate().filter(|(_, value)| **value != 0) {
            self.0.set(Buffer::Clearing, number, value);
        }
        self.0.set(Buffer::Groups, 0, GROUP_ONE);
        self.on_code(ONE, ORDINARY, CODE);
        self.on_code(OTHER, ORDINARY, CODE);
        self.number(ONE, holding_start(0) + COLLATERAL, 40);
        self.number(OTHER, holding_start(0) + OBLIGATIONS.start, 30);
        self.number(MORE[0], block::KIND, POOL);
        for account in [ONE, OTHER] {
            self.report(account, SHORT);
        }
    }

    /// The one alone is at 6; the other is alone on the code then. With the same number both are at 6.
    fn numbers_that_are_no_codes(&mut self) {
        for number in [16, 255, 256, -1, i64::MIN, i64::MAX] {
            self.number(OTHER, block::CODE, number);
            self.stopped(OTHER, 6);
            self.report(ONE, FORTY);
            self.open(EMPTY, ORDINARY, number, 7);
            self.number(ONE, block::CODE, number);
            self.stopped(ONE, 6);
            self.number(ONE, block::CODE, CODE);
        }
        self.number(OTHER, block::CODE, CODE);
        self.report(ONE, SHORT);
    }

    fn kinds_mixed(&mut self) {
        self.number(OTHER, block::KIND, POOL);
        self.all_stopped();
        self.open(EMPTY, POOL, CODE, 7);
        self.number(OTHER, block::KIND, ORDINARY);
        self.report(ONE, SHORT);
    }

    /// A block that is not open has no code: it is itself at 6, for opening too.
    fn not_open(&mut self) {
        self.number(MORE[1], block::CODE, CODE);
        self.all_stopped();
        self.stopped(MORE[1], 6);
        self.open(MORE[1], ORDINARY, CODE, 6);
        self.number(MORE[1], block::CODE, 0);
        self.report(ONE, SHORT);
    }

    /// Three more make five, two more make four, which leave no room either.
    fn five(&mut self) {
        for account in MORE {
            self.on_code(account, ORDINARY, CODE);
        }
        self.all_stopped();
        self.stopped(MORE[2], 6);
        self.on_code(MORE[2], block::NOT_OPEN, 0);
        self.report(OTHER, SHORT);
        self.report(MORE[1], SHORT);
        self.open(EMPTY, ORDINARY, CODE, 7);
        self.on_code(MORE[1], block::NOT_OPEN, 0);
        self.open(EMPTY, POOL, CODE, 7);
    }

    /// A third account of the code, MORE[0], has a kopeck too much, and one too little.
    fn out_of_bounds(&mut self) {
        for rubles in [MOST_RUBLES + 1, -MOST_RUBLES - 1] {
            self.number(MORE[0], block::RUBLES, rubles);
            self.all_stopped();
            self.stopped(MORE[0], 6);
        }
        // Its bounds are its own: with all it may have the code is rich.
        self.number(MORE[0], block::RUBLES, MOST_RUBLES);
        self.report(ONE, [MOST_RUBLES - 100_000, 30_000, 2_000, 0, MOST_RUBLES - 132_000]);
        let deposit = |account: usize| Command::Move(Move { account: account as i64, asset: RUBLES, amount: 1 });
        self.0.call(deposit(MORE[0]), "9");
        self.number(MORE[0], block::RUBLES, 0);
    }

    /// Its claim of asset 1, which has no row: a roll is lent no tables, and finds nothing to roll in the first.
    fn unlisted(&mut self) {
        self.number(MORE[0], holding_start(1) + CLAIMS.start + 5, 1);
        self.stopped(ONE, 0);
        self.number(MORE[0], holding_start(1) + CLAIMS.start + 5, 0);
        self.report(ONE, SHORT);
    }

    /// Rubles as they are needed: three blocks have all they may, the last one what is missing.
    fn at_2_to_the_53(&mut self) {
        self.full_blocks();
        let missing = SIZE - UNITS - 27 * MOST_RUBLES;
        for (account, number) in FULL[..3].iter().flat_map(|&account| (1..10).map(move |number| (account, number))) {
            self.number(account, number, MOST_RUBLES);
        }
        for number in 2..7 {
            self.number(FULL[3], number, MOST_RUBLES);
        }
        for by in [-1, 0, 1, -1] {
            self.number(FULL[3], block::RUBLES, missing - 5 * MOST_RUBLES + by);
            for account in FULL {
                self.report(account, [SIZE + by, 0, 0, 0, SIZE + by]);
                self.app(account, SIZE + by);
            }
        }
    }

    /// Sixteen assets at 10^7 that count whole and have no risk, with nine million units of each in four blocks.
    fn full_blocks(&mut self) {
        for number in 0..ROW {
            if self.0.standing.numbers(Buffer::Clearing)[number] != 0 {
                self.0.set(Buffer::Clearing, number, 0);
            }
        }
        let row = [(KIND, SECURITY), (PRICE, MOST_PRICE), (ACCEPTANCE_SHARE, WHOLE), (POOL_SHARE, WHOLE)];
        for (asset, (number, value)) in (0..ASSETS).flat_map(|asset| row.map(|number| (asset, number))) {
            self.0.set(Buffer::Clearing, ROW * asset + number, value);
        }
        for account in FULL {
            self.on_code(account, POOL, 15);
            for asset in 0..ASSETS {
                // Collateral and the claims of eight dates.
                (0..9).for_each(|number| self.number(account, holding_start(asset) + number, MOST_UNITS));
            }
        }
    }

    /// The record of valuation and limit alone, unused: from 2^53 on it is 9 and the feed stays.
    fn app(&mut self, account: usize, figure: i64) {
        let call = Command::App { account: account as i64 };
        if figure >= SIZE {
            return self.0.call(call, "9 0 0 0 0 0 0 0");
        }
        let mut bits = [0; RECORD];
        (bits[0], bits[4]) = (bits_of_whole(figure).cast_signed(), bits_of_whole(figure).cast_signed());
        self.0.standing.numbers_mut(Buffer::Feed).copy_from_slice(&bits);
        self.0.call(call, &format!("0 {} 0 0 0 {} 2 0", bits[0], bits[4]));
    }
}
