//! Document 01, "Sums to be met": S1 to S12, with the remark on S2 and the two orders; each as a case of its own, and
//! all of them in one session.

use super::{Case, Script};
use crate::block::{LISTED_POOL, ORDINARY, POOL};
use crate::calls::{BUY, Move, Order, RUBLES, SELL};
use crate::frame::Frame;
use crate::row::*;
use crate::tables::{clearing_place, group_place};
use crate::units::{ACCOUNTS, ASSETS, DATES, ROW, WHOLE};

/// The discount percent of group 1.
pub const GROUP_ONE: i64 = 25;

/// Row A: every date has mid 0, low −100, up 200, outer −200, 300.
pub fn row_a() -> Row {
    let mut row = [0; ROW];
    row[..13].copy_from_slice(&[SECURITY, 10_000, 5_000, WHOLE, RECORDED, 0, 2_000, 3_000, 4_000, 5_000, 100, 100, 1]);
    for date in 0..DATES {
        row[date_start(date)..date_start(date + 1)].copy_from_slice(&[0, -100, 200, -200, 300]);
    }
    row
}

/// What an account holds of an asset.
#[derive(Clone, Copy)]
pub enum Held {
    Collateral { asset: usize, units: i64 },
    Claim { asset: usize, date: usize, units: i64 },
    Obligation { asset: usize, date: usize, units: i64 },
}
use Held::*;

pub struct Sum {
    pub name: &'static str,
    pub account_kind: i64,
    /// Assets 0 and up to this have row A, with the changes.
    pub assets: usize,
    pub changes: &'static [(usize, i64)],
    pub dates_are_zero: bool,
    pub holding: &'static [Held],
    /// Valuation, market, interest, discount, limit.
    pub figures: [i64; 5],
}

const PLAIN: Sum = Sum {
    name: "",
    account_kind: ORDINARY,
    assets: 1,
    changes: &[],
    dates_are_zero: false,
    holding: &[],
    figures: [0; 5],
};

const S2: &[Held] = &[Collateral { asset: 0, units: 40 }];
const S3: &[Held] = &[Collateral { asset: 0, units: 40 }, Obligation { asset: 0, date: 0, units: 30 }];
const S5: &[Held] = &[Claim { asset: 0, date: 1, units: 150 }];
const S10: &[Held] = &[
    Collateral { asset: 0, units: 40 },
    Claim { asset: 0, date: 1, units: 30 },
    Obligation { asset: 0, date: 2, units: 30 },
];
const S11: &[Held] = &[Claim { asset: 0, date: 1, units: 10 }, Obligation { asset: 1, date: 1, units: 10 }];
const S12_ROW: &[(usize, i64)] = &[(PRICE, 3), (FALL, 1), (RISE, 1), (RAISED_FALL, 1), (RAISED_RISE, 1)];

#[rustfmt::skip]
pub const SUMS: [Sum; 13] = [
    Sum { name: "s01", ..PLAIN },
    Sum { name: "s02", holding: S2, figures: [200_000, 40_000, 2_000, 0, 158_000], ..PLAIN },
    Sum { name: "s02-pool", account_kind: POOL, holding: S2, figures: [200_000, 40_000, 2_000, 0, 158_000], ..PLAIN },
    Sum { name: "s03", holding: S3, figures: [100_000, 20_000, 1_000, 0, 79_000], ..PLAIN },
    Sum { name: "s04", holding: &[Obligation { asset: 0, date: 2, units: 10 }],
        figures: [-100_000, 30_000, 2_000, 0, -132_000], ..PLAIN },
    Sum { name: "s05", holding: S5, figures: [1_500_000, 400_000, 20_000, 0, 1_080_000], ..PLAIN },
    Sum { name: "s06", account_kind: LISTED_POOL, holding: S2, figures: [400_000, 80_000, 4_000, 0, 316_000], ..PLAIN },
    Sum { name: "s07", changes: &[(COVERED_SALES, NOT_RECORDED)], holding: S3,
        figures: [-300_000, 90_000, 6_000, 0, -396_000], ..PLAIN },
    Sum { name: "s08", changes: &[(ACCEPTANCE_SHARE, 0), (COVERED_SALES, PARTIAL)], holding: S3,
        figures: [-300_000, 0, 0, 0, -300_000], ..PLAIN },
    Sum { name: "s09", changes: &[(KIND, CURRENCY), (ACCEPTANCE_SHARE, 0)],
        holding: &[Claim { asset: 0, date: 0, units: 10 }], figures: [0, 20_000, 1_000, 0, -21_000], ..PLAIN },
    Sum { name: "s10", changes: &[(SPECIAL_DELIVERY, 1)], holding: S10,
        figures: [0, 90_000, 3_000, 0, -93_000], ..PLAIN },
    Sum { name: "s11", assets: 2, holding: S11, figures: [0, 50_000, 3_000, 10_000, -43_000], ..PLAIN },
    Sum { name: "s12", changes: S12_ROW, dates_are_zero: true,
        holding: &[Claim { asset: 0, date: 1, units: 1 }], figures: [3, 1, 0, 0, 2], ..PLAIN },
];

impl Sum {
    pub fn row(&self) -> Row {
        let mut row = row_a();
        for &(number, value) in self.changes {
            row[number] = value;
        }
        if self.dates_are_zero {
            row[date_start(0)..].fill(0);
        }
        row
    }

    fn case(&self) -> Case {
        let mut script = Script::new(self.name);
        self.play(&mut script, &[0], &mut Rows::new());
        script.0
    }

    /// Holdings come in under rows that give every trade the value 0, so that no limit stops them; then the sum's own
    /// rows take their place.
    pub(super) fn play(&self, script: &mut Script, accounts: &[i64], rows: &mut Rows) {
        for &account in accounts {
            script.say(Frame::Open { account, kind: self.account_kind, code: 0 }, 0);
        }
        for asset in 0..self.assets {
            rows.lend(script, asset, &worthless(self.row()[KIND]));
        }
        for &account in accounts {
            for held in self.holding {
                script.say(held.frame(account), 0);
            }
        }
        script.set(group_place(0), GROUP_ONE);
        for asset in 0..self.assets {
            rows.lend(script, asset, &self.row());
        }
        for &account in accounts {
            script.report(account, self.figures);
        }
    }

    fn has_row_a(&self) -> bool {
        self.row() == row_a()
    }
}

impl Held {
    pub(super) fn frame(self, account: i64) -> Frame {
        let order = |asset: usize, date: usize, side, quantity| {
            Frame::Order(Order { account, asset: asset as i64, date: date as i64, side, quantity, money: 0 })
        };
        match self {
            Collateral { asset, units } => Frame::Move(Move { account, asset: asset as i64, amount: units }),
            Claim { asset, date, units } => order(asset, date, BUY, units),
            Obligation { asset, date, units } => order(asset, date, SELL, units),
        }
    }
}

/// The clearing rows as a script has lent them so far.
pub(super) struct Rows([Row; ASSETS]);

impl Rows {
    pub(super) fn new() -> Rows {
        Rows([[0; ROW]; ASSETS])
    }

    /// Writes the numbers that differ from the row lent before.
    pub(super) fn lend(&mut self, script: &mut Script, asset: usize, row: &Row) {
        for number in (0..ROW).filter(|&number| row[number] != self.0[asset][number]) {
            script.set(clearing_place(asset, number), row[number]);
        }
        self.0[asset] = *row;
    }
}

/// Price 1 and every number of dates −1: price + mid is 0, and there is no risk.
pub(super) fn worthless(kind: i64) -> Row {
    let mut row = [0; ROW];
    row[KIND] = kind;
    row[PRICE] = 1;
    row[date_start(0)..date_start(DATES)].fill(-1);
    row
}

/// Row A for asset 0.
pub fn lend_row_a(script: &mut Script) {
    script.set(group_place(0), GROUP_ONE);
    Rows::new().lend(script, 0, &row_a());
}

/// Opens an account with so much collateral, and buys 10 for 100,000 at date 1.
pub fn buy_ten(script: &mut Script, account: i64, rubles: i64, code: u8) {
    script.say(Frame::Open { account, kind: ORDINARY, code: 0 }, 0);
    script.say(deposit(account, rubles), 0);
    script.say(ten(account), code);
}

fn deposit(account: i64, amount: i64) -> Frame {
    Frame::Move(Move { account, asset: RUBLES, amount })
}

fn ten(account: i64) -> Frame {
    Frame::Order(Order { account, asset: 0, date: 1, side: BUY, quantity: 10, money: 100_000 })
}

/// What an account reports that bought ten with 21,000 kopecks, and one that could not with 20,999.
pub const BOUGHT: [i64; 5] = [21_000, 20_000, 1_000, 0, 0];
const NOT_BOUGHT: [i64; 5] = [20_999, 0, 0, 0, 20_999];

/// With 21,000 kopecks buying 10 for 100,000 at date 1 leaves 0 and is admitted; with 20,999 it is code 10.
fn two_orders() -> Case {
    let mut script = Script::new("two-orders");
    lend_row_a(&mut script);
    buy_ten(&mut script, 0, 21_000, 0);
    buy_ten(&mut script, 1, 20_999, 10);
    script.report(0, BOUGHT);
    script.report(1, NOT_BOUGHT);
    script.0
}

/// One session for all of it: a sum to an account, and the two orders in the last one, the second a kopeck later. When
/// every account has its holding, those under row A report once more, and nothing of the others' has touched them.
pub fn session() -> Case {
    let mut script = Script::new("sums");
    let mut rows = Rows::new();
    for (account, sum) in SUMS.iter().enumerate() {
        sum.play(&mut script, &[account as i64], &mut rows);
    }
    rows.lend(&mut script, 0, &row_a());
    let last = ACCOUNTS as i64 - 1;
    buy_ten(&mut script, last, 20_999, 10);
    script.report(last, NOT_BOUGHT);
    script.say(deposit(last, 1), 0);
    script.say(ten(last), 0);
    script.report(last, BOUGHT);
    for (account, sum) in SUMS.iter().enumerate().filter(|(_, sum)| sum.has_row_a()) {
        script.report(account as i64, sum.figures);
    }
    script.0
}

pub fn cases() -> Vec<Case> {
    SUMS.iter().map(Sum::case).chain([two_orders()]).collect()
}
