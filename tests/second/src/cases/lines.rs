//! Document 01, "Session lines" and the table of codes: its own session, lines of other forms, and each code by hand.

use super::{Case, Script, row_a};
use crate::calls::{BUY, Move, Order, RUBLES, SELL};
use crate::frame::Frame;
use crate::row::{KIND, PRICE, SECURITY};
use crate::tables::{clearing_place, group_place, own_place};

pub fn cases() -> Vec<Case> {
    vec![
        document(),
        literal("empty", "", ""),
        literal("newlines", "\n\n", "0c\n0c\n"),
        bare_end(),
        malformed(),
        codes(),
    ]
}

fn literal(name: &str, input: &str, output: &str) -> Case {
    Case { name: name.to_string(), input: input.into(), output: output.into() }
}

pub fn document() -> Case {
    literal(
        "document",
        "02000100\n0300ff00000000000186a0\n0600\n",
        "00\n00\n0000000000000186a000000000000000000000000000000000000000000000000000000000000186a0\n",
    )
}

/// The last line may lack its newline; its answer does not.
fn bare_end() -> Case {
    literal("bare-end", "02000200\n0500", "00\n00\n")
}

/// Lines of another form that a hand may well write.
pub const SLIPS: [&[u8]; 24] = [
    b"",
    b"0",
    // Without a settlement code, as the line was before #104, and with a byte more.
    b"020001",
    b"0200010000",
    b"0200010",
    b"020001001",
    b"0200",
    b"02",
    b"00",
    b"07",
    b"ff000100",
    b"0700",
    b"02000100\r",
    b"\r",
    b" 02000100",
    b"02000100 ",
    b"02 000100",
    b"0x000100",
    b"0200010g",
    b"0300FF0000000000000001",
    b"\x80000100",
    b"0200010\xff",
    b"02\0000100",
    b"+2000100",
];

fn malformed() -> Case {
    let mut script = Script::new("malformed");
    for line in SLIPS.into_iter().chain([&[b'0'; 5_000][..]]) {
        script.line(line, "0c");
    }
    // None of them opened the account.
    script.no_report(0, 4);
    script.line(b"02000100", "00");
    script.line(b"0300ff000000000000000a", "00");
    script.report(0, [10, 0, 0, 0, 10]);
    script.0
}

/// The calls of account 0 in the case of codes.
fn rubles(amount: i64) -> Frame {
    units(RUBLES, amount)
}

fn units(asset: i64, amount: i64) -> Frame {
    Frame::Move(Move { account: 0, asset, amount })
}

fn order(asset: i64, date: i64, side: i64, quantity: i64, money: i64) -> Frame {
    Frame::Order(Order { account: 0, asset, date, side, quantity, money })
}

/// Each code but 1, which a session cannot show, and some that meet.
fn codes() -> Case {
    let mut script = Script::new("codes");
    up_to_six(&mut script);
    seven_and_eight(&mut script);
    nine(&mut script);
    two_and_six(&mut script);
    ten(&mut script);
    script.0
}

/// Codes 2 to 5 and 7 before there is anything; asset 3 gets a price of 10.
fn up_to_six(script: &mut Script) {
    for place in [2056, 0xffff] {
        script.say(Frame::Set { place, number: 0 }, 7);
    }
    script.say(Frame::Open { account: 16, kind: 1, code: 0 }, 3);
    script.say(Frame::Open { account: 0, kind: 0, code: 0 }, 7);
    script.say(Frame::Open { account: 0, kind: 4, code: 0 }, 7);
    script.no_report(0, 4);
    script.say(Frame::Roll { account: 0 }, 4);
    script.say(Frame::Open { account: 0, kind: 1, code: 0 }, 0);
    script.say(Frame::Open { account: 0, kind: 9, code: 0 }, 5);
    script.set(clearing_place(3, KIND), SECURITY);
    script.no_report(255, 2);
    script.say(rubles(0), 2);
    script.say(Frame::Roll { account: 255 }, 3);
    script.set(clearing_place(3, PRICE), 10);
    script.no_report(255, 3);
}

fn seven_and_eight(script: &mut Script) {
    for (asset, amount) in [(4, 1), (16, 1), (254, 0)] {
        script.say(units(asset, amount), 7);
    }
    for (asset, date, side, quantity) in [(255, 0, BUY, 1), (3, 8, BUY, 0), (3, 0, 2, 1)] {
        script.say(order(asset, date, side, quantity, 1), 7);
    }
    for amount in [0, 1_000_001, -1_000_001, i64::MIN, i64::MAX] {
        script.say(units(3, amount), 8);
    }
    for amount in [0, 100_000_000_000_001, -100_000_000_000_001, i64::MIN, i64::MAX] {
        script.say(rubles(amount), 8);
    }
    for quantity in [0, -1, 1_000_001, i64::MIN, i64::MAX] {
        script.say(order(3, 0, BUY, quantity, 0), 8);
    }
    for money in [-1, 100_000_000_000_001, i64::MIN, i64::MAX] {
        script.say(order(3, 0, BUY, 1, money), 8);
    }
}

/// Bounds of moves, orders and a roll.
fn nine(script: &mut Script) {
    script.say(rubles(-1), 9);
    script.say(units(3, -1), 9);
    script.say(rubles(100_000_000_000_000), 0);
    script.say(rubles(1), 9);
    script.say(order(3, 7, BUY, 1_000_000, 0), 0);
    script.say(order(3, 7, BUY, 1, 100_000_000_000_000), 9);
    script.say(order(3, 7, SELL, 1, 100_000_000_000_000), 0);
    script.say(order(3, 7, SELL, 1, 1), 9);
    script.say(order(3, 0, SELL, 1, 1), 0);
    script.say(Frame::Roll { account: 0 }, 9);
    script.say(order(3, 0, BUY, 1, 1), 0);
    script.say(Frame::Roll { account: 0 }, 0);
    // 10^14 of rubles, 10^14 to come, 999,999 units at 10.
    script.report(0, [200_000_009_999_990, 0, 0, 0, 200_000_009_999_990]);
}

/// Asset 3 leaves the list while it is held; then an own row stands over it, and a percent is too great.
fn two_and_six(script: &mut Script) {
    script.set(clearing_place(3, PRICE), 0);
    script.set(clearing_place(3, KIND), 0);
    script.no_report(0, 6);
    script.say(rubles(0), 6);
    script.say(order(3, 0, BUY, 0, 0), 6);
    script.say(Frame::Roll { account: 0 }, 0);
    script.set(own_place(3, KIND), SECURITY);
    script.no_report(0, 2);
    script.set(own_place(3, KIND), 0);
    script.set(group_place(7), 51);
    script.no_report(1, 2);
    script.set(group_place(7), 50);
    script.no_report(1, 4);
}

/// Withdrawals from account 1, which has 40 units of an asset with row A, all sold.
fn ten(script: &mut Script) {
    let move_of = |asset, amount| Frame::Move(Move { account: 1, asset, amount });
    for (number, &value) in row_a().iter().enumerate().filter(|(_, value)| **value != 0) {
        script.set(clearing_place(0, number), value);
    }
    script.say(Frame::Open { account: 1, kind: 1, code: 0 }, 0);
    script.say(move_of(0, 40), 0);
    script.say(Frame::Order(Order { account: 1, asset: 0, date: 0, side: SELL, quantity: 40, money: 0 }), 0);
    script.report(1, [0, 0, 0, 0, 0]);
    // A unit without cover: 10,000 of value, 3,000 and 200 of risk.
    script.say(move_of(0, -1), 10);
    script.say(move_of(RUBLES, 13_200), 0);
    script.say(move_of(RUBLES, -1), 0);
    script.say(move_of(0, -1), 10);
    script.say(move_of(RUBLES, 1), 0);
    script.say(move_of(0, -1), 0);
    script.report(1, [3_200, 3_000, 200, 0, 0]);
    script.say(Frame::Roll { account: 1 }, 0);
    // Collateral −1: a withdrawal is 9, a deposit is done.
    script.say(move_of(0, -1), 9);
    script.say(move_of(0, 1), 0);
    script.report(1, [13_200, 0, 0, 0, 13_200]);
}
