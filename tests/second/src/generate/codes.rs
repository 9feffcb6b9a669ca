//! Scenes of document 02, #104: settlement codes that fill up and turn away, blocks of one code that trade against each
//! other, live on each other's collateral, and stop each other.

use super::edges;
use super::maker::{self, Maker};
use super::rows::write;
use super::trades::{self, towards};
use crate::block::{self, COLLATERAL, LISTED_POOL};
use crate::calls::{BUY, SELL};
use crate::frame::Frame;
use crate::row::*;
use crate::tables::clearing_place;
use crate::units::*;

/// A closed account opened on a code in use, with the kind there or another; on one that is no code; on any.
pub fn open_by_hand(maker: &mut Maker) {
    let (Some(account), Some(other)) = (maker.closed_account(), maker.open_account()) else { return };
    let (kind, code) = (maker.block(other)[block::KIND], maker.block(other)[block::CODE]);
    let any = maker.random.between(1, MOST_CODE);
    let code = maker.random.pick(&[code, code, code, any, MOST_CODE, MOST_CODE + 1, MOST_CODE + 1, 17, 255]);
    let another = 1 + kind % LISTED_POOL;
    let kind = maker.random.pick(&[kind, another, another, 0, LISTED_POOL + 1]);
    maker.open(account, kind, code);
    maker.report(account);
}

/// Accounts opened on one code until it has four, and one more.
pub fn fill(maker: &mut Maker) {
    let Some(first) = maker.open_account() else { return };
    let (kind, code) = (maker.block(first)[block::KIND], maker.block(first)[block::CODE]);
    if code == 0 || maker.random.percent(40) {
        return trades::open(maker);
    }
    for _ in maker.members(first).len()..=MEMBERS {
        let Some(account) = maker.closed_account() else { return };
        maker.open(account, kind, code);
        maker.report(account);
    }
}

/// One block buys what another of its code sells, or sells what the other has as collateral.
pub fn against(maker: &mut Maker) {
    let (Some([one, other]), Some(asset)) = (maker.shared(), maker.asset(true)) else { return open_beside(maker) };
    let (date, units) = (maker.random.below(DATES), maker.random.up_to(1_000).max(1));
    let near = units + maker.random.between(-1, 1);
    if maker.random.percent(50) {
        towards(maker, one, asset, date, units);
    } else {
        maker.move_units(one, asset, units);
    }
    maker.report(other);
    towards(maker, other, asset, date, -near.max(1));
    maker.report(one);
    if maker.random.percent(50) {
        let opposite = maker.random.below(DATES);
        towards(maker, other, asset, opposite, units);
        maker.report(other);
    }
}

/// A second account on a code of one, or a first code.
fn open_beside(maker: &mut Maker) {
    let (Some(first), Some(account)) = (maker.ready_account(), maker.closed_account()) else { return };
    let (kind, code) = (maker.block(first)[block::KIND], maker.block(first)[block::CODE]);
    let any = maker.random.between(1, MOST_CODE);
    maker.open(account, kind, if code == 0 { any } else { code });
}

/// A block whose own limit is negative trades and withdraws at the edge of the code's; or one with much of its own, whose
/// code has next to nothing.
pub fn live_on_others(maker: &mut Maker) {
    let Some([poor, rich]) = maker.shared() else { return open_beside(maker) };
    let rubles = maker.random.up_to(MOST_RUBLES).max(2);
    if maker.block(rich)[block::RUBLES] < rubles {
        maker.move_rubles(rich, rubles);
    }
    let held = maker.block(poor)[block::RUBLES];
    if held > 0 {
        maker.move_rubles(poor, -held);
    }
    if let Some(asset) = maker.asset(true) {
        let units = maker.random.up_to(1_000).max(1);
        maker.sell(poor, asset, 1, units, 0);
    }
    for account in [poor, rich] {
        match maker.random.below(3) {
            0 => edges::order_of(maker, account),
            1 => edges::rubles_of(maker, account),
            _ => edges::units_of(maker, account),
        }
    }
    maker.report(poor);
}

/// The code's limit is negative and one of its blocks has a limit of its own above that, or below: orders of either around
/// the code's.
pub fn in_trouble_together(maker: &mut Maker) {
    let Some([one, other]) = maker.shared() else { return open_beside(maker) };
    if maker.limit(one).is_some_and(|limit| limit >= 0) {
        let Some(asset) = maker.asset(true) else { return };
        let units = maker.random.up_to(1_000).max(1);
        let rate = maker.random.between(5_000, WHOLE);
        towards(maker, other, asset, 1, units);
        super::trouble::withdraw_the_limit(maker, other);
        super::trouble::withdraw_the_limit(maker, one);
        for number in [RAISED_FALL, RAISED_RISE, FALL, RISE] {
            maker.set_in_force(asset, number, rate.max(maker.row_in_force(asset)[RAISED_FALL]));
        }
    }
    for account in [one, other] {
        let (Some(before), Some(asset)) = (maker.limit(account).filter(|&limit| limit < 0), maker.asset(true)) else {
            return maker.report(account);
        };
        let side = maker.random.pick(&[BUY, SELL]);
        let date = maker.random.below(DATES);
        let steered = maker.steered(maker::order(account, asset, date, side, 1, 0));
        for order in [before - 1, before, before + 1].into_iter().filter_map(|limit| steered.leaving(limit)) {
            maker.say(&Frame::Order(order));
        }
        maker.report(account);
    }
}

/// What one block of a code holds leaves the list: every account of the code is turned away, but for rolls. Then it comes
/// back.
pub fn unlisted_in_another(maker: &mut Maker) {
    let Some([one, other]) = maker.shared() else { return open_beside(maker) };
    let Some(asset) = maker.asset(false) else { return };
    let kind = maker.random.between(SECURITY, COMMODITY);
    for (number, value) in [(KIND, kind), (PRICE, 7)] {
        maker.set(clearing_place(asset, number), value);
    }
    maker.move_units(other, asset, 5);
    let row = maker.tables().clearing[asset];
    write(maker, clearing_place(asset, 0), &[0; ROW]);
    maker.report(one);
    maker.move_rubles(one, 1);
    if let Some(listed) = maker.asset(true) {
        maker.buy(one, listed, 1, 1, 1);
    }
    maker.roll(one);
    maker.report(other);
    write(maker, clearing_place(asset, 0), &row);
    maker.report(one);
    let held = block::holdings(maker.block(other))[asset][COLLATERAL];
    maker.move_units(other, asset, -held);
}

/// One block's date passes, the others' do not.
pub fn roll_one(maker: &mut Maker) {
    let Some([one, other]) = maker.shared() else { return open_beside(maker) };
    if let Some(asset) = maker.asset(true) {
        let units = maker.random.up_to(1_000).max(1);
        for (account, units) in [(one, units), (other, -units)] {
            let date = maker.random.below(3);
            towards(maker, account, asset, date, units);
        }
    }
    maker.roll(one);
    maker.report(other);
    maker.roll(other);
    maker.report(one);
}
