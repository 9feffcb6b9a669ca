//! Document 02, #102, worked out by hand, as a call script: S1 to S12 and the edges of the gauge as records of floats,
//! refusals, and feeds read back. A whole number's bits are made by shifts; each quotient's stand below as digits.

use super::sums::{BOUGHT, Held};
use super::{Calls, Case, GROUP_ONE, Quotient, SUMS, bits_of_whole};
use crate::block::{self, CLAIMS, COLLATERAL, NETS, OBLIGATIONS, ORDINARY, RUBLES, holding_start};
use crate::record::RECORD;
use crate::row::Row;
use crate::script::{Buffer, Command};
use crate::units::*;

/// 0.21 is 1.68 / 8, and 0.68 is 0.AE147 AE147 .. in sixteenths: behind the thirteenth stands 47, below a half.
const PART_21: u64 = 0x3fca_e147_ae14_7ae1;
/// 0.28 is 1.12 / 4, and 0.12 is 0.1EB85 1EB85 ..: behind the thirteenth stands 85, above a half.
const PART_28: u64 = 0x3fd1_eb85_1eb8_51ec;
/// A third is 1.333 .. / 4, and a third is 0.555 .. in sixteenths.
const THIRD: u64 = 0x3fd5_5555_5555_5555;
const HALF: u64 = 0x3fe0_0000_0000_0000;
/// 32,000 / 32,001 is half of 1 and 31,999 / 32,001, by long division 0.FFFBE 774EE AE3 ..
const NEARLY_ONE: u64 = 0x3fef_ffbe_774e_eae3;
const ONE: u64 = 0x3ff0_0000_0000_0000;

/// The quotients with their bits.
pub const QUOTIENTS: [(Quotient, u64); 6] = [
    (Quotient { dividend: 42_000, divisor: 200_000 }, PART_21),
    (Quotient { dividend: 420_000, divisor: 1_500_000 }, PART_28),
    (Quotient { dividend: 1, divisor: 3 }, THIRD),
    (Quotient { dividend: 43_000, divisor: 86_000 }, HALF),
    (Quotient { dividend: 32_000, divisor: 32_001 }, NEARLY_ONE),
    (Quotient { dividend: 21_000, divisor: 21_000 }, ONE),
];

/// The gauge that is to be answered.
#[derive(Clone, Copy)]
enum Shown {
    Empty,
    /// By so many kopecks.
    Over(i64),
    /// Bits of the quotient.
    Used(u64),
}
use Shown::*;

/// Of S1 to S12, S2 in an account of kind 2 after S2. Seven have a valuation of zero or less.
const SHOWN: [Shown; SUMS.len()] = [
    Empty,
    Used(PART_21),
    Used(PART_21),
    Used(PART_21),
    Empty,
    Used(PART_28),
    Used(PART_21),
    Empty,
    Empty,
    Empty,
    Empty,
    Empty,
    Used(THIRD),
];

/// Accounts, each of a sum by its place among them.
const S4: usize = 4;
const S11: usize = 11;
/// Accounts that no sum has.
const BUYER: usize = 13;
const RUBLES_ALONE: usize = 14;
const CLOSED: usize = 15;

/// Infinity, and a NaN's pattern: something behind an exponent of all ones.
const INFINITY: i64 = 0x7ff0_0000_0000_0000;
const NAN: i64 = INFINITY + 1;

pub fn script() -> Case {
    let mut calls = Calls::default();
    calls.keep(Buffer::Groups, 0, GROUP_ONE);
    calls.sums();
    calls.edges();
    calls.without_risk();
    calls.refusals();
    calls.read_back();
    calls.case("app")
}

impl Calls {
    /// Sets a number that does not stand there yet.
    fn keep(&mut self, buffer: Buffer, number: usize, value: i64) {
        if self.standing.numbers(buffer)[number] != value {
            self.set(buffer, number, value);
        }
    }

    fn block_number(&mut self, account: usize, number: usize, value: i64) {
        self.keep(Buffer::Book, BLOCK * account + number, value);
    }

    fn row(&mut self, asset: usize, row: &Row) {
        for (number, &value) in row.iter().enumerate() {
            self.keep(Buffer::Clearing, ROW * asset + number, value);
        }
    }

    fn feed(&mut self, bits: [i64; RECORD]) {
        for (number, bits) in bits.into_iter().enumerate() {
            self.keep(Buffer::Feed, number, bits);
        }
    }

    /// The call, which leaves the bits in the feed, and these read back.
    fn app(&mut self, account: usize, figures: [i64; RECORD], shown: Shown) {
        let bits = figures.map(|figure| bits_of_whole(figure).cast_signed());
        self.standing.numbers_mut(Buffer::Feed).copy_from_slice(&bits);
        let (gauge, gauge_bits) = match shown {
            Empty => (0, 0),
            Over(shortfall) => (1, bits_of_whole(shortfall)),
            Used(bits) => (2, bits),
        };
        let account = account as i64;
        self.call(Command::App { account }, &format!("0 {} {gauge} {gauge_bits}", words(bits)));
        self.unapp(bits);
    }

    fn no_app(&mut self, account: i64, code: u8) {
        self.call(Command::App { account }, &format!("{code} 0 0 0 0 0 0 0"));
    }

    fn unapp(&mut self, bits: [i64; RECORD]) {
        self.call_without_sum(Command::Unapp, &format!("0 {}", words(bits)));
    }

    fn no_unapp(&mut self, code: u8) {
        self.call_without_sum(Command::Unapp, &format!("{code} 0 0 0 0 0"));
    }

    /// A sum to an account.
    fn sums(&mut self) {
        for (account, (sum, shown)) in SUMS.iter().zip(SHOWN).enumerate() {
            (0..sum.assets).for_each(|asset| self.row(asset, &sum.row()));
            self.block_number(account, block::KIND, sum.account_kind);
            for held in sum.holding {
                let (asset, number, units) = match *held {
                    Held::Collateral { asset, units } => (asset, COLLATERAL, units),
                    Held::Claim { asset, date, units } => (asset, CLAIMS.start + date, units),
                    Held::Obligation { asset, date, units } => (asset, OBLIGATIONS.start + date, units),
                };
                self.block_number(account, holding_start(asset) + number, units);
            }
            self.app(account, sum.figures, shown);
        }
        self.row(0, &SUMS[S4].row());
    }

    /// S4 with rubles, of which risk takes 32,000: valuation −1, 0 and 1, and limit −1, 0 and 1; S11 with rubles, of which
    /// risk less discount takes 43,000; and the account of the document that bought ten.
    fn edges(&mut self) {
        for (rubles, shown) in [
            (99_999, Empty),
            (100_000, Empty),
            (100_001, Over(31_999)),
            (110_000, Over(22_000)),
            (131_999, Over(1)),
            (132_000, Used(ONE)),
            (132_001, Used(NEARLY_ONE)),
        ] {
            self.block_number(S4, RUBLES, rubles);
            self.app(S4, [rubles - 100_000, 30_000, 2_000, 0, rubles - 132_000], shown);
        }
        for (rubles, shown) in
            [(1, Over(42_999)), (42_999, Over(1)), (43_000, Used(ONE)), (86_000, Used(HALF)), (129_000, Used(THIRD))]
        {
            self.block_number(S11, RUBLES, rubles);
            self.app(S11, [rubles, 50_000, 3_000, 10_000, rubles - 43_000], shown);
        }
        self.block_number(BUYER, block::KIND, ORDINARY);
        self.block_number(BUYER, RUBLES, 21_000);
        self.block_number(BUYER, NETS.start + 1, -100_000);
        self.block_number(BUYER, holding_start(0) + CLAIMS.start + 1, 10);
        self.app(BUYER, BOUGHT, Used(ONE));
    }

    /// Rubles alone: a quotient of 0, whose bits are 0; and nothing to show of what is owed.
    fn without_risk(&mut self) {
        self.block_number(RUBLES_ALONE, block::KIND, ORDINARY);
        for (rubles, shown) in [(-1, Empty), (0, Empty), (1, Used(0)), (100_000, Used(0)), (MOST_RUBLES, Used(0))] {
            self.block_number(RUBLES_ALONE, RUBLES, rubles);
            self.app(RUBLES_ALONE, [rubles, 0, 0, 0, rubles], shown);
        }
        for number in NETS {
            self.block_number(RUBLES_ALONE, number, MOST_RUBLES);
        }
        let rubles = 9 * MOST_RUBLES;
        self.app(RUBLES_ALONE, [rubles, 0, 0, 0, rubles], Used(0));
    }

    /// The feed holds the last record, and keeps it. One fault after another is mended; each was the one named.
    fn refusals(&mut self) {
        let right = self.standing.lengths();
        self.keep(Buffer::Groups, 7, 51);
        self.block_number(RUBLES_ALONE, 10, 1);
        for count in [6, 4, 0] {
            let mut lengths = right;
            lengths[Buffer::Feed as usize] = count;
            self.lengths(lengths);
            self.no_app(16, 1);
            self.no_unapp(1);
        }
        let mut lengths = right;
        lengths[Buffer::Groups as usize] = 9;
        self.lengths(lengths);
        self.feed([1, -1, INFINITY, 5, i64::MIN]);
        self.no_app(16, 1);
        self.lengths(right);
        self.no_app(16, 2);
        self.keep(Buffer::Groups, 7, 0);
        [16, -1, i64::MIN, i64::MAX].into_iter().for_each(|account| self.no_app(account, 3));
        self.no_app(RUBLES_ALONE as i64, 6);
        self.block_number(RUBLES_ALONE, 10, 0);
        self.block_number(RUBLES_ALONE, holding_start(2), 1);
        self.no_app(RUBLES_ALONE as i64, 6);
        self.no_app(CLOSED as i64, 4);
        // Another account's fault does not matter.
        self.app(BUYER, BOUGHT, Used(ONE));
    }

    /// Any bits but a NaN's come back, though no report writes them.
    fn read_back(&mut self) {
        for bits in [[0, i64::MIN, INFINITY, INFINITY | i64::MIN, 1], [-1 ^ (1 << 52), 2, 3, 4, 5 | i64::MIN]] {
            self.feed(bits);
            self.unapp(bits);
            for place in 0..RECORD {
                for nan in [NAN, NAN | i64::MIN, i64::MAX, -1, INFINITY | 1 << 51] {
                    let mut with_nan = bits;
                    with_nan[place] = nan;
                    self.feed(with_nan);
                    self.no_unapp(9);
                }
            }
        }
    }
}

fn words(bits: [i64; RECORD]) -> String {
    bits.map(|bits| bits.to_string()).join(" ")
}
