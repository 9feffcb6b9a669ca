//! Scenes that take a block's numbers to their bounds and one past them: claims, obligations, ruble nets, and rolls.

use super::maker::Maker;
use crate::block::{self, COLLATERAL, LISTED_POOL, ORDINARY};
use crate::row::{ACCEPTANCE_SHARE, KIND, POOL_SHARE, PRICE, SECURITY};
use crate::tables::clearing_place;
use crate::units::*;

pub fn scene(maker: &mut Maker) {
    match maker.random.below(10) {
        0 => deep_below_zero(maker),
        1 | 2 => units_rolled_up(maker),
        3 | 4 => units_rolled_down(maker),
        5 => rubles_rolled_up(maker),
        6 | 7 => claims_and_obligations(maker),
        _ => nets(maker),
    }
}

/// A ready account with all the rubles it may have.
fn rich_account(maker: &mut Maker) -> Option<usize> {
    let account = maker.ready_account()?;
    let room = MOST_RUBLES - maker.block(account)[block::RUBLES];
    if room > 0 {
        maker.move_rubles(account, room.min(MOST_RUBLES));
    }
    Some(account)
}

fn held(maker: &Maker, account: usize, asset: usize) -> block::Holding {
    block::holdings(maker.block(account))[asset]
}

/// Collateral at 10^6 and one claim of date 0 more: refused, then just fitting.
fn units_rolled_up(maker: &mut Maker) {
    let (Some(account), Some(asset)) = (rich_account(maker), maker.asset(true)) else { return };
    let room = MOST_UNITS - held(maker, account, asset)[COLLATERAL];
    maker.move_units(account, asset, room.min(MOST_UNITS));
    maker.buy(account, asset, 0, 1, 0);
    maker.roll(account);
    maker.sell(account, asset, 0, 1, 0);
    maker.roll(account);
    maker.report(account);
}

/// Obligations of date 0 that take collateral to −10^6 and one past it.
fn units_rolled_down(maker: &mut Maker) {
    let (Some(account), Some(asset)) = (rich_account(maker), maker.asset(true)) else { return };
    let holding = held(maker, account, asset);
    let today = holding[COLLATERAL] + holding[block::CLAIMS.start] - holding[block::OBLIGATIONS.start];
    for units in [today.clamp(1, MOST_UNITS), MOST_UNITS] {
        maker.sell(account, asset, 0, units, 0);
        maker.roll(account);
    }
    maker.sell(account, asset, 0, 1, 0);
    maker.roll(account);
    maker.buy(account, asset, 0, 1, 0);
    maker.roll(account);
    maker.move_units(account, asset, 1);
    maker.move_units(account, asset, -1);
    maker.report(account);
}

/// Rubles at 10^14 and one kopeck more coming in at date 0.
fn rubles_rolled_up(maker: &mut Maker) {
    let (Some(account), Some(asset)) = (rich_account(maker), maker.asset(true)) else { return };
    let net = maker.block(account)[block::NETS.start];
    maker.sell(account, asset, 0, 1, 1 - net.min(0));
    maker.roll(account);
    let past = maker.block(account)[block::NETS.start].max(0);
    maker.buy(account, asset, 0, 1, past);
    maker.roll(account);
    maker.report(account);
}

/// Claims and obligations of one date to 10^6, and one more.
fn claims_and_obligations(maker: &mut Maker) {
    let (Some(account), Some(asset)) = (rich_account(maker), maker.asset(true)) else { return };
    let date = maker.random.below(DATES);
    let holding = held(maker, account, asset);
    let claims = MOST_UNITS - holding[block::CLAIMS.start + date];
    let obligations = MOST_UNITS - holding[block::OBLIGATIONS.start + date];
    maker.buy(account, asset, date, claims, 0);
    maker.buy(account, asset, date, 1, 0);
    maker.sell(account, asset, date, obligations, 0);
    let any = maker.random.pick(&[0, MOST_RUBLES]);
    maker.sell(account, asset, date, 1, any);
    maker.report(account);
}

/// A ruble net to 10^14 and to −10^14, and one kopeck more.
fn nets(maker: &mut Maker) {
    let (Some(account), Some(asset)) = (rich_account(maker), maker.asset(true)) else { return };
    let (high, low) = (maker.random.below(DATES), maker.random.below(DATES));
    let net = |maker: &Maker, date: usize| maker.block(account)[block::NETS.start + date];
    let in_steps = |amount: i64| [amount / 2, amount - amount / 2];
    for money in in_steps(MOST_RUBLES - net(maker, high)) {
        maker.sell(account, asset, high, 1, money);
    }
    maker.sell(account, asset, high, 1, 1);
    for money in in_steps(MOST_RUBLES + net(maker, low)) {
        maker.buy(account, asset, low, 1, money);
    }
    maker.buy(account, asset, low, 1, 1);
    maker.report(account);
}

/// Rubles rolled to −10^14, which takes assets worth more than that, and one kopeck past it.
fn deep_below_zero(maker: &mut Maker) {
    let (Some(account), Some(first)) = (maker.closed_account(), maker.asset(false)) else { return };
    maker.set(clearing_place(first, KIND), SECURITY);
    let Some(second) = maker.asset(false) else { return };
    maker.set(clearing_place(second, KIND), SECURITY);
    for asset in [first, second] {
        for (number, value) in [(PRICE, MOST_PRICE), (ACCEPTANCE_SHARE, WHOLE), (POOL_SHARE, WHOLE)] {
            maker.set(clearing_place(asset, number), value);
        }
    }
    let kind = maker.random.between(ORDINARY, LISTED_POOL);
    maker.open(account, kind, 0);
    for date in 0..DATES {
        maker.buy(account, first, date, MOST_UNITS - 1, 0);
        maker.buy(account, second, date, MOST_UNITS - 1, 0);
    }
    maker.buy(account, first, 0, 1, MOST_RUBLES);
    maker.roll(account);
    maker.buy(account, first, 0, 1, 1);
    maker.roll(account);
    maker.sell(account, first, 0, 1, 1);
    maker.move_rubles(account, 1);
    maker.move_rubles(account, -1);
    maker.report(account);
    maker.roll(account);
}
