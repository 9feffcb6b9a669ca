//! Coverage of document 02, #101: orders of an account whose limit is negative before them, by where they leave it, and
//! withdrawals, which keep the old rule. An answer against the rule is not expected and stops the count.

use std::cmp::Ordering;

use super::calls::{LIMIT_BELOW_ZERO, limit_after};
use super::{Step, tally::Tally};
use crate::calls::{BUY, Change, DONE, Order};
use crate::frame::Frame;
use crate::limit::figures;
use crate::units::MOST_RUBLES;

const BUYS: &str = "limit after a buy in trouble";
const SELLS: &str = "limit after a sell in trouble";
const ORDERS: [&str; 8] = [
    "lower by more, refused",
    "lower by a kopeck, refused",
    "as it was, refused",
    "higher by a kopeck, admitted",
    "higher by more, admitted",
    "-1, admitted",
    "0, admitted",
    "above 0, admitted",
];

const WITHDRAWN: &str = "limit after a withdrawal in trouble";
const WITHDRAWALS: [&str; 5] =
    ["lower, refused", "as it was, refused", "higher and negative, refused", "0, admitted", "above 0, admitted"];

pub fn expect(tally: &mut Tally) {
    tally.expect(BUYS, ORDERS);
    tally.expect(SELLS, ORDERS);
    tally.expect(WITHDRAWN, WITHDRAWALS);
}

pub fn count_order(step: &Step, order: &Order, changes: [Change; 2], tally: &mut Tally) {
    let account = order.account as usize;
    let Some(Judged { before, after, answer }) = judged_in_trouble(step, account, changes) else { return };
    let left = match after - before {
        ..-1 => "lower by more",
        -1 => "lower by a kopeck",
        0 => "as it was",
        _ if after > 0 => "above 0",
        _ if after == 0 => "0",
        1 => "higher by a kopeck",
        _ if after == -1 => "-1",
        _ => "higher by more",
    };
    let title = if order.side == BUY { BUYS } else { SELLS };
    tally.count(title, format!("{left}, {answer}"));
}

pub fn count_withdrawal(step: &Step, account: usize, change: Change, tally: &mut Tally) {
    let Some(Judged { before, after, answer }) = judged_in_trouble(step, account, [change]) else { return };
    let left = match after.cmp(&before) {
        Ordering::Less => "lower",
        Ordering::Equal => "as it was",
        Ordering::Greater if after < 0 => "higher and negative",
        Ordering::Greater if after == 0 => "0",
        Ordering::Greater => "above 0",
    };
    tally.count(WITHDRAWN, format!("{left}, {answer}"));
}

/// A call that came as far as code 10: the limits before and after it, and its answer.
struct Judged {
    before: i64,
    after: i64,
    answer: &'static str,
}

/// None where the limit before is not negative.
fn judged_in_trouble<const COUNT: usize>(step: &Step, account: usize, changes: [Change; COUNT]) -> Option<Judged> {
    let answer = answer(step.code)?;
    let before = figures(step.before.blocks(), account, &step.before.tables()).limit();
    (before < 0).then(|| Judged { before, after: limit_after(&step.before, account, changes), answer })
}

pub fn answer(code: u8) -> Option<&'static str> {
    match code {
        DONE => Some("admitted"),
        LIMIT_BELOW_ZERO => Some("refused"),
        _ => None,
    }
}

/// Where generated sessions do not come.
const FAR: &str = "orders from a limit below -10^14";
const SIDES: [&str; 2] = ["buy", "sell"];

pub fn expect_far(tally: &mut Tally) {
    tally.expect(FAR, SIDES.iter().flat_map(|side| [format!("{side}, refused"), format!("{side}, admitted")]));
}

pub fn count_far(step: &Step, tally: &mut Tally) {
    let (&Frame::Order(order), Some(answer)) = (step.frame, answer(step.code)) else { return };
    let before = figures(step.before.blocks(), order.account as usize, &step.before.tables()).limit();
    tally.count_if(before < -MOST_RUBLES, FAR, format!("{}, {answer}", SIDES[order.side as usize]));
}
