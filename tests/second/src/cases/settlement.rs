//! Document 02, #104, worked out by hand: the sums of document 01 over two accounts of one settlement code, and a session of
//! four accounts on one. What no session makes is in the script of settlement_calls.

use super::sums::{BOUGHT, Rows, lend_row_a, worthless};
use super::{Case, GROUP_ONE, Held, Script, row_a};
use crate::block::{LISTED_POOL, ORDINARY, POOL};
use crate::calls::{BUY, Move, Order, RUBLES, SELL};
use crate::frame::Frame;
use crate::row::{KIND, PRICE, SECURITY};
use crate::tables::{clearing_place, group_place};
use Held::*;

/// The code of every account here, unless said.
const CODE: i64 = 3;

pub fn cases() -> Vec<Case> {
    SHARED.iter().map(Shared::case).chain([session()]).collect()
}

/// What two accounts of one code hold under row A, and the figures that both report.
struct Shared {
    name: &'static str,
    /// So many assets have row A.
    assets: usize,
    holdings: [Held; 2],
    figures: [i64; 5],
}

const SHARED: [Shared; 3] = [
    // Twenty of the forty count and the thirty are owed: ten too few, at 3,000 and 200 each. Within one block it is S3.
    Shared {
        name: "shared-s03",
        assets: 1,
        holdings: [Collateral { asset: 0, units: 40 }, Obligation { asset: 0, date: 0, units: 30 }],
        figures: [-100_000, 30_000, 2_000, 0, -132_000],
    },
    // Of 120 claimed twenty are above both limits: 100 × 2,000 and 20 × 4,000, 100 × 100 and 20 × 200. Sixty alone are not.
    Shared {
        name: "shared-claims",
        assets: 1,
        holdings: [Claim { asset: 0, date: 1, units: 60 }, Claim { asset: 0, date: 1, units: 60 }],
        figures: [1_200_000, 280_000, 14_000, 0, 906_000],
    },
    // S11, and its discount, over two blocks.
    Shared {
        name: "shared-s11",
        assets: 2,
        holdings: [Claim { asset: 0, date: 1, units: 10 }, Obligation { asset: 1, date: 1, units: 10 }],
        figures: [0, 50_000, 3_000, 10_000, -43_000],
    },
];

impl Shared {
    /// As a sum is played: holdings come in under rows that give every trade the value 0.
    fn case(&self) -> Case {
        let mut script = Script::new(self.name);
        let mut rows = Rows::new();
        for account in [0, 1] {
            script.say(Frame::Open { account, kind: ORDINARY, code: CODE }, 0);
        }
        for asset in 0..self.assets {
            rows.lend(&mut script, asset, &worthless(SECURITY));
        }
        for (account, held) in (0..).zip(self.holdings) {
            script.say(held.frame(account), 0);
        }
        script.set(group_place(0), GROUP_ONE);
        for asset in 0..self.assets {
            rows.lend(&mut script, asset, &row_a());
        }
        for account in [0, 1] {
            script.report(account, self.figures);
        }
        script.0
    }
}

fn session() -> Case {
    let mut script = Script::new("settlement");
    lend_row_a(&mut script);
    openings(&mut script);
    judged_together(&mut script);
    rolled_apart(&mut script);
    stopped_together(&mut script);
    script.0
}

fn open(script: &mut Script, account: i64, kind: i64, code: i64, answer: u8) {
    script.say(Frame::Open { account, kind, code }, answer);
}

fn rubles(account: i64, amount: i64) -> Frame {
    Frame::Move(Move { account, asset: RUBLES, amount })
}

/// Ten of asset 0 at date 1.
fn ten(account: i64, side: i64, money: i64) -> Frame {
    Frame::Order(Order { account, asset: 0, date: 1, side, quantity: 10, money })
}

/// All four accounts of the code report the same.
fn reports(script: &mut Script, figures: [i64; 5]) {
    for account in 0..4 {
        script.report(account, figures);
    }
}

/// Accounts 0 to 3 come onto the code, 4 onto another, 5 onto none.
fn openings(script: &mut Script) {
    // The line without a code, and with a byte behind it.
    script.line(b"020001", "0c");
    script.line(b"0200010300", "0c");
    open(script, 0, ORDINARY, CODE, 0);
    open(script, 1, POOL, CODE, 7);
    for code in [16, 17, 255] {
        open(script, 1, ORDINARY, code, 7);
    }
    for account in 1..4 {
        open(script, account, ORDINARY, CODE, 0);
    }
    open(script, 4, ORDINARY, CODE, 7);
    open(script, 4, POOL, 15, 0);
    open(script, 5, LISTED_POOL, 0, 0);
    open(script, 3, LISTED_POOL, 16, 5);
    open(script, 16, ORDINARY, CODE, 3);
    script.no_report(6, 4);
}

/// Account 0 buys with the rubles of account 1, which cannot take them out then. Account 2 sells the same ten: of the
/// position nothing is left, and the rubles are free.
fn judged_together(script: &mut Script) {
    script.say(rubles(1, 21_000), 0);
    reports(script, [21_000, 0, 0, 0, 21_000]);
    script.report(4, [0; 5]);
    script.say(ten(4, BUY, 100_000), 10);
    script.say(ten(0, BUY, 100_001), 10);
    script.say(ten(0, BUY, 100_000), 0);
    reports(script, BOUGHT);
    script.say(rubles(1, -1), 10);
    script.say(ten(2, SELL, 100_000), 0);
    reports(script, [21_000, 0, 0, 0, 21_000]);
    // What it has not got itself is 9, whatever the code has.
    script.say(rubles(0, -1), 9);
    script.say(rubles(1, -21_000), 0);
    reports(script, [0; 5]);
}

/// A day passes for account 0 alone: ten claimed at date 0 and ten owed at date 1, 10 × 100 less 10 × 200. Ten more for
/// account 3 leave ten long, which raises the limit if they cost less than 80,000. Another day, and of the ten that came in
/// five count.
fn rolled_apart(script: &mut Script) {
    script.say(Frame::Roll { account: 0 }, 0);
    reports(script, [0, 0, 1_000, 0, -1_000]);
    script.say(ten(3, BUY, 80_000), 10);
    script.say(ten(3, BUY, 79_999), 0);
    reports(script, [20_001, 20_000, 1_000, 0, -999]);
    script.say(Frame::Roll { account: 0 }, 0);
    reports(script, AFTER_TWO_ROLLS);
}

/// Five at 10,000 and 100,000 owed in account 0, 20,001 made in account 3; 2,000 and 100 of risk for each of the five.
const AFTER_TWO_ROLLS: [i64; 5] = [-29_999, 10_000, 500, 0, -40_499];

/// Asset 1 leaves the list while account 2 has one of it: nobody of the code gets further, but a roll does. Under its row,
/// whose share is 0, it adds nothing.
fn stopped_together(script: &mut Script) {
    let listed = [(KIND, SECURITY), (PRICE, 10)];
    for (number, value) in listed {
        script.set(clearing_place(1, number), value);
    }
    script.say(Frame::Move(Move { account: 2, asset: 1, amount: 1 }), 0);
    reports(script, AFTER_TWO_ROLLS);
    for (number, _) in listed.into_iter().rev() {
        script.set(clearing_place(1, number), 0);
    }
    for account in 0..4 {
        script.no_report(account, 6);
        script.say(rubles(account, 1), 6);
        script.say(ten(account, BUY, 1), 6);
    }
    script.report(4, [0; 5]);
    script.say(Frame::Roll { account: 1 }, 0);
    for (number, value) in listed {
        script.set(clearing_place(1, number), value);
    }
    reports(script, AFTER_TWO_ROLLS);
}
