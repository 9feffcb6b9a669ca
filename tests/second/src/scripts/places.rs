//! Every place of the tables broken first: one past its bounds, and at either end of 64 bits.

use super::books::draw_tables;
use super::maker::Maker;
use crate::calls::{BUY, Move, Order, RUBLES};
use crate::generate::{bounds_at, settle};
use crate::row::{Bounds, KIND};
use crate::script::{Buffer, Command};
use crate::tables::{PLACES, group_place};
use crate::units::*;

/// Each clearing row is listed and has an own row over it.
pub fn every_row_there(maker: &mut Maker) {
    let tables = draw_tables(&mut maker.random, 100, 100);
    maker.lend(&tables);
    maker.call(Command::Check);
    for place in maker.share(PLACES) {
        let Bounds { lowest, highest } = bounds(maker, place);
        for value in [lowest - 1, highest + 1, i64::MIN, i64::MAX] {
            check_with(maker, place, value);
        }
        for value in [lowest, highest] {
            check_at_bound(maker, place, value);
        }
    }
}

/// No row is there: a number of the clearing table breaks at its place, one of the own table at its row's number 0.
pub fn no_row_there(maker: &mut Maker) {
    for place in maker.share(2 * TABLE) {
        let extreme = maker.random.pick(&[i64::MIN, i64::MAX]);
        for value in [-1, extreme, 1] {
            check_with(maker, place, value);
        }
    }
}

/// What a number may be, the others as they are.
fn bounds(maker: &Maker, place: usize) -> Bounds {
    if place >= group_place(0) {
        return Bounds { lowest: 0, highest: MOST_DISCOUNT };
    }
    bounds_at(&maker.buffers().tables().expect("right lengths"), place)
}

/// Asks for the check under one number; now and then another call that is lent the tables; and mends the number.
fn check_with(maker: &mut Maker, place: usize, value: i64) {
    let (buffer, number) = Buffer::of_place(place);
    let before = maker.buffers().numbers(buffer)[number];
    maker.set(buffer, number, value);
    maker.call(Command::Check);
    if maker.random.percent(15) {
        let call = some_call(maker);
        maker.call(call);
    }
    maker.set(buffer, number, before);
}

/// Asks for the check with one number at its bound, and the numbers after it following; mends them.
fn check_at_bound(maker: &mut Maker, place: usize, value: i64) {
    let (buffer, number) = Buffer::of_place(place);
    let before = maker.buffers().clone();
    maker.set(buffer, number, value);
    if buffer != Buffer::Groups && number % ROW != KIND {
        let mut wanted = maker.buffers().clone();
        let (rows, []) = wanted.numbers_mut(buffer).as_chunks_mut() else { unreachable!("right lengths") };
        settle(&mut rows[number / ROW]);
        maker.lend(&wanted);
    }
    maker.call(Command::Check);
    maker.lend(&before);
}

/// A call that is lent tables.
pub fn some_call(maker: &mut Maker) -> Command {
    let account = maker.random.between(-1, ACCOUNTS as i64);
    let asset = maker.random.between(0, ASSETS as i64);
    let order = Order { account, asset, date: 0, side: BUY, quantity: 1, money: 0 };
    let moved = Move { account, asset: RUBLES, amount: 1 };
    let app = Command::App { account };
    maker.random.pick(&[Command::Report { account }, app, Command::Move(moved), Command::Order(order)])
}
