//! Scenes at the edge of code 10: the limit after a call is steered to exactly −1, 0 and 1.

use super::maker::{self, Maker};
use crate::block::{self, COLLATERAL, holding_start};
use crate::calls::{BUY, SELL};
use crate::frame::Frame;
use crate::units::*;

/// An order that would leave the limit at −1, then the same one kopeck or two better. From below zero −1 could be
/// admitted: that is trouble's.
pub fn order(maker: &mut Maker) {
    if let Some(account) = maker.account_with(|limit| limit >= 0) {
        order_of(maker, account);
    }
}

pub fn order_of(maker: &mut Maker, account: usize) {
    let Some(asset) = maker.asset(true).filter(|_| maker.limit(account).is_some_and(|limit| limit >= 0)) else {
        return;
    };
    let date = maker.random.below(DATES);
    let quantity = maker.random.up_to(1_000).max(1);
    let admitted = maker.random.pick(&[0, 0, 1]);
    for side in [BUY, SELL] {
        let steered = maker.steered(maker::order(account, asset, date, side, quantity, 0));
        let [Some(first), Some(second)] = [-1, admitted].map(|after| steered.leaving(after)) else { continue };
        maker.say(&Frame::Order(first));
        maker.say(&Frame::Order(second));
        maker.report(account);
        return;
    }
    top_up(maker, account);
}

/// Rubles withdrawn until the limit would be −1, then until it is 0 or 1.
pub fn withdrawal_of_rubles(maker: &mut Maker) {
    if let Some(account) = maker.ready_account() {
        rubles_of(maker, account);
    }
}

pub fn rubles_of(maker: &mut Maker, account: usize) {
    let limit = maker.limit(account).unwrap_or_default();
    let held = maker.block(account)[block::RUBLES];
    if !(2..held).contains(&limit) {
        return top_up(maker, account);
    }
    maker.move_rubles(account, -(limit + 1));
    let left = maker.random.pick(&[0, 0, 1]);
    maker.move_rubles(account, left - limit);
    maker.report(account);
}

/// Rubles withdrawn until a withdrawal of units would leave −1; then one kopeck comes back.
pub fn withdrawal_of_units(maker: &mut Maker) {
    if let Some(account) = maker.ready_account() {
        units_of(maker, account);
    }
}

pub fn units_of(maker: &mut Maker, account: usize) {
    let Some(asset) = maker.asset(true).filter(|_| maker.limit(account).is_some()) else { return };
    let place = holding_start(asset) + COLLATERAL;
    if maker.block(account)[place] <= 0 {
        let units = maker.random.up_to(1_000).max(1);
        maker.move_units(account, asset, units);
    }
    let held = maker.block(account)[place];
    if held <= 0 {
        return;
    }
    let units = maker.random.between(1, held);
    let limit = maker.limit_after(account, |block| block[place] -= units);
    let rubles = maker.block(account)[block::RUBLES];
    if !(0..rubles).contains(&limit) {
        return top_up(maker, account);
    }
    maker.move_rubles(account, -(limit + 1));
    maker.move_units(account, asset, -units);
    maker.move_rubles(account, 1);
    maker.move_units(account, asset, -units);
    maker.report(account);
}

fn top_up(maker: &mut Maker, account: usize) {
    let rubles = maker.random.up_to(MOST_RUBLES).max(1);
    maker.move_rubles(account, rubles);
}
