//! The day that docs/EXAMPLE.md tells: one ordinary account, from its opening to the roll. The figures are worked out by
//! hand, as the page shows.

use super::{Case, Script};
use crate::block::ORDINARY;
use crate::calls::{BUY, Move, Order, RUBLES, SELL};
use crate::frame::Frame;
use crate::row::*;
use crate::tables::clearing_place;
use crate::units::WHOLE;

const ACCOUNT: i64 = 0;
const SHARES: i64 = 0;

const MORNING: [(usize, i64); 10] = [
    (KIND, SECURITY),
    (PRICE, 10_000),
    (ACCEPTANCE_SHARE, 5_000),
    (POOL_SHARE, WHOLE),
    (FALL, 2_000),
    (RISE, 3_000),
    (RAISED_FALL, 4_000),
    (RAISED_RISE, 5_000),
    (MARKET_LIMIT, 100),
    (INTEREST_LIMIT, 200),
];

/// Low, up, outer low, outer up of dates 1 and 2; every mid is 0.
const DATES_AHEAD: [(usize, [i64; 4]); 2] = [(1, [-100, 100, -200, 200]), (2, [-200, 200, -400, 400])];

const UP: usize = 2;

/// The raised rates come before the base rates, which may not be above them.
fn second_set() -> [(usize, i64); 5] {
    [(RAISED_FALL, 5_000), (RAISED_RISE, 6_000), (FALL, 2_500), (RISE, 4_000), (date_start(2) + UP, 300)]
}

fn lend(script: &mut Script, numbers: impl IntoIterator<Item = (usize, i64)>) {
    for (number, value) in numbers {
        script.set(clearing_place(SHARES as usize, number), value);
    }
}

fn moved(script: &mut Script, asset: i64, amount: i64) {
    script.say(Frame::Move(Move { account: ACCOUNT, asset, amount }), 0);
}

/// At 100 rubles a share.
fn order(script: &mut Script, date: i64, side: i64, quantity: i64, code: u8) {
    let money = 10_000 * quantity;
    script.say(Frame::Order(Order { account: ACCOUNT, asset: SHARES, date, side, quantity, money }), code);
}

pub fn session() -> Case {
    let mut script = Script::new("day");
    let day = &mut script;
    lend(day, MORNING);
    for (date, numbers) in DATES_AHEAD {
        lend(day, (date_start(date) + 1..).zip(numbers));
    }
    day.say(Frame::Open { account: ACCOUNT, kind: ORDINARY, code: 0 }, 0);
    moved(day, RUBLES, 100_000);
    moved(day, SHARES, 40);
    day.report(ACCOUNT, [300_000, 40_000, 0, 0, 260_000]);
    order(day, 0, BUY, 10, 0);
    day.report(ACCOUNT, [300_000, 60_000, 0, 0, 240_000]);
    order(day, 1, SELL, 25, 0);
    day.report(ACCOUNT, [450_000, 40_000, 2_500, 0, 407_500]);
    order(day, 2, SELL, 45, 0);
    day.report(ACCOUNT, [500_000, 60_000, 11_500, 0, 428_500]);
    lend(day, second_set());
    day.report(ACCOUNT, [500_000, 80_000, 16_000, 0, 404_000]);
    moved(day, RUBLES, -15_001);
    order(day, 1, SELL, 90, 10);
    day.report(ACCOUNT, [484_999, 80_000, 16_000, 0, 388_999]);
    moved(day, RUBLES, 1);
    order(day, 1, SELL, 90, 0);
    day.report(ACCOUNT, [485_000, 460_000, 25_000, 0, 0]);
    day.say(Frame::Roll { account: ACCOUNT }, 0);
    day.report(ACCOUNT, [485_000, 460_000, 4_500, 0, 20_500]);
    script.0
}
