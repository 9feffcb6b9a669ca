//! Scenes of document 02, #101: an account below zero, orders a kopeck to either side of the limit it has, and its way
//! out; and withdrawals that raise a negative limit.

use super::maker::{self, Maker};
use super::rows::write;
use super::trades::towards;
use crate::block;
use crate::calls::{BUY, SELL};
use crate::frame::Frame;
use crate::row::*;
use crate::units::*;

/// An account in trouble or, where there is none, one that a second set of rates brings there.
pub fn orders(maker: &mut Maker) {
    match maker.account_with(|limit| limit < 0) {
        Some(account) => trade_out(maker, account),
        None => second_rates(maker),
    }
}

/// The rates rise under an account whose limit was at 0; it trades, and sometimes the first rates come back.
fn second_rates(maker: &mut Maker) {
    let (Some(account), Some(asset)) = (maker.account_with(|limit| limit >= 0), maker.asset(true)) else { return };
    if maker.positions(account, asset).iter().sum::<i64>() == 0 {
        let units = maker.random.up_to(1_000).max(1) * maker.random.pick(&[1, -1]);
        towards(maker, account, asset, 1, units);
    }
    withdraw_the_limit(maker, account);
    let row = maker.row_in_force(asset);
    let highest = row[RAISED_FALL].max(row[RAISED_RISE]);
    let rate = maker.random.between(highest, WHOLE);
    for number in [RAISED_FALL, RAISED_RISE, FALL, RISE] {
        maker.set_in_force(asset, number, rate);
    }
    if maker.limit(account).is_some_and(|limit| limit < 0) {
        trade_out(maker, account);
    }
    if maker.random.percent(50) {
        let start = maker.start_in_force(asset);
        write(maker, start, &row);
    }
}

/// Rubles withdrawn until the limit is 0, as far as they go.
pub fn withdraw_the_limit(maker: &mut Maker, account: usize) {
    let limit = maker.limit(account).unwrap_or_default();
    let rubles = limit.min(maker.block(account)[block::RUBLES]);
    if rubles > 0 {
        maker.move_rubles(account, -rubles);
    }
}

/// Orders around the limit on both sides; then, as often as not, a step up, one to −1 and one out of trouble.
fn trade_out(maker: &mut Maker, account: usize) {
    maker.report(account);
    for side in [BUY, SELL] {
        let Some(before) = maker.limit(account) else { return };
        let lower = before - maker.random.up_to(MOST_RUBLES).max(2);
        say_orders(maker, account, side, &[lower, before - 1, before, before + 1]);
    }
    if maker.random.percent(50) {
        let between = maker.limit(account).map(|before| maker.random.between(before.min(-1), -1));
        let out = maker.random.pick(&[0, 0, 1]);
        for after in between.into_iter().chain([-1, out]) {
            let side = maker.random.pick(&[BUY, SELL]);
            say_orders(maker, account, side, &[after]);
        }
    }
    maker.report(account);
}

/// One order for the money of each of these limits after it. None but the last is to be admitted: it moves the limits.
fn say_orders(maker: &mut Maker, account: usize, side: i64, limits: &[i64]) {
    let Some(asset) = maker.asset(true) else { return };
    let date = maker.random.below(DATES);
    let quantity = maker.random.up_to(1_000).max(1);
    let steered = maker.steered(maker::order(account, asset, date, side, quantity, 0));
    for order in limits.iter().filter_map(|&limit| steered.leaving(limit)) {
        maker.say(&Frame::Order(order));
    }
}

/// Collateral of a partial row has risk and no value (4.8), so that its deposit brings an account below zero. A
/// withdrawal of some of it raises the limit and is refused all the same; one of all of it passes.
pub fn withdrawals(maker: &mut Maker) {
    let (Some(account), Some(asset)) = (maker.ready_account(), maker.asset(true)) else { return };
    for (number, value) in [(COVERED_SALES, PARTIAL), (SPECIAL_DELIVERY, 0)] {
        maker.set_in_force(asset, number, value);
    }
    withdraw_the_limit(maker, account);
    // A kopeck back, and the limit will be above 0 in the end.
    if maker.random.percent(30) {
        maker.move_rubles(account, 1);
    }
    let units = maker.random.up_to(1_000).max(2);
    maker.move_units(account, asset, units);
    maker.report(account);
    let some = maker.random.between(1, units - 1);
    maker.move_units(account, asset, -some);
    maker.move_units(account, asset, -units);
    maker.report(account);
}
