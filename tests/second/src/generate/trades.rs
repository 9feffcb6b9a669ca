//! Scenes of ordinary use: accounts opened, collateral moved, trades aimed at the concentration limits, rolls.

use super::faults;
use super::maker::Maker;
use crate::block::{self, COLLATERAL, LISTED_POOL, ORDINARY};
use crate::row::{self, INTEREST_LIMIT, MARKET_LIMIT, PRICE};
use crate::units::*;

/// One call, to see the state the tables are in.
pub fn probe(maker: &mut Maker) {
    let Some(account) = maker.open_account() else { return };
    let asset = maker.random.below(ASSETS);
    match maker.random.below(10) {
        0 => maker.move_rubles(account, 1),
        1 => maker.move_rubles(account, -1),
        2 => maker.move_units(account, asset, 1),
        3 => maker.buy(account, asset, 0, 1, 0),
        4 | 5 => faults::call(maker),
        _ => maker.report(account),
    }
}

/// A new account with rubles in it: on a settlement code that is in use, on any, or on none.
pub fn open(maker: &mut Maker) {
    let account = maker.random.below(ACCOUNTS);
    let kind = maker.random.between(ORDINARY, LISTED_POOL);
    let any = maker.random.between(1, MOST_CODE);
    let (kind, code) = match (maker.open_account(), maker.random.below(10)) {
        (Some(other), 0..4) => (maker.block(other)[block::KIND], maker.block(other)[block::CODE]),
        (_, 0..7) => (kind, any),
        _ => (kind, 0),
    };
    maker.open(account, kind, code);
    if maker.block(account)[block::RUBLES] == 0 {
        let rubles = maker.random.pick(&[1_000_000, 1_000_000_000_000, MOST_RUBLES]);
        maker.move_rubles(account, rubles);
    }
}

/// Of rubles or units: some, up to the bound, or one past it.
pub fn deposit(maker: &mut Maker) {
    let Some(account) = maker.ready_account() else { return };
    if maker.random.percent(40) {
        let room = MOST_RUBLES - maker.block(account)[block::RUBLES];
        let some = maker.random.up_to(MOST_RUBLES);
        let amount = maker.random.pick(&[some, some, 1, room, room + 1]);
        maker.move_rubles(account, amount);
    } else if let Some(asset) = maker.asset(true) {
        let room = MOST_UNITS - collateral(maker, account, asset);
        let some = maker.random.up_to(1_000);
        let amount = maker.random.pick(&[some, some, some, some, 1, room, room + 1]);
        maker.move_units(account, asset, amount);
    }
    maker.report(account);
}

fn collateral(maker: &Maker, account: usize, asset: usize) -> i64 {
    block::holdings(maker.block(account))[asset][COLLATERAL]
}

/// Of rubles or units: some, all, or one more than all.
pub fn withdraw(maker: &mut Maker) {
    let Some(account) = maker.ready_account() else { return };
    let asset = maker.asset(true).filter(|_| maker.random.percent(60));
    let held = asset.map_or(maker.block(account)[block::RUBLES], |asset| collateral(maker, account, asset));
    let some = maker.random.between(0, held.max(1));
    let amount = -maker.random.pick(&[some, some, 1, held, held + 1]);
    match asset {
        Some(asset) => maker.move_units(account, asset, amount),
        None => maker.move_rubles(account, amount),
    }
}

/// A trade towards a position of interest, about at its value.
pub fn trade(maker: &mut Maker) {
    let (Some(account), Some(asset)) = (maker.ready_account(), maker.asset(true)) else { return };
    let date = if maker.random.percent(35) { 0 } else { maker.random.below(DATES) };
    let positions = maker.positions(account, asset);
    let of_date = maker.random.percent(50);
    let position = if of_date { positions[date] } else { positions.iter().sum() };
    let limit = maker.row_in_force(asset)[if of_date { INTEREST_LIMIT } else { MARKET_LIMIT }];
    let aim = maker.random.pick(&[limit - 1, limit, limit + 1, limit + 50]) * maker.random.pick(&[1, -1]);
    let some = maker.random.up_to(MOST_UNITS) * maker.random.pick(&[1, -1]);
    let target = maker.random.pick(&[aim, aim, aim, 0, -position, position + some]);
    towards(maker, account, asset, date, target - position);
    if maker.random.percent(60) {
        maker.report(account);
    }
}

/// Buys where `units` is above 0, else sells; for about the value, nothing, or any money.
pub fn towards(maker: &mut Maker, account: usize, asset: usize, date: usize, units: i64) {
    let row = maker.row_in_force(asset);
    let quantity = units.abs().clamp(1, MOST_UNITS);
    let value = quantity * (row[PRICE] + row::date(&row, date).mid);
    let any = maker.random.up_to(MOST_RUBLES);
    let money = maker.random.pick(&[value, value, value, value + 1, 0, any]).min(MOST_RUBLES);
    if units > 0 {
        maker.buy(account, asset, date, quantity, money);
    } else {
        maker.sell(account, asset, date, quantity, money);
    }
}

pub fn roll(maker: &mut Maker) {
    let Some(account) = maker.open_account() else { return };
    maker.roll(account);
    maker.report(account);
}
