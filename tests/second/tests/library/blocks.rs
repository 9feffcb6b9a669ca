//! Blocks: damaged ones are code 6, a roll and an order change what they should, and the greatest figures do not wrap.

use second::calls::{BUY, Order, SELL};
use second::cases::row_a;
use second::units::*;

use crate::world::{Call, World, calls_of, claim, collateral, obligation};

/// Each number of a block with values just past its bounds.
fn damages() -> Vec<(usize, i64)> {
    let mut damages = vec![(0, -1), (0, 4)];
    damages.extend((1..10).flat_map(|place| [(place, 100_000_000_000_001), (place, -100_000_000_000_001)]));
    damages.extend([10, 11, 12, 14, 15].into_iter().flat_map(|place| [(place, 1), (place, -1)]));
    damages.extend([(13, 16), (13, 17), (13, 255), (13, -1)]);
    damages.extend((16..BLOCK).flat_map(|place| match (place - 16) % 17 {
        0 => [(place, 1_000_001), (place, -1_000_001)],
        _ => [(place, 1_000_001), (place, -1)],
    }));
    damages.extend((0..BLOCK).flat_map(|place| [(place, i64::MIN), (place, i64::MAX)]));
    damages
}

#[test]
fn damaged_blocks_are_code_6() {
    for (place, value) in damages() {
        let mut world = World::new();
        world.list(1, &row_a());
        world.block(7)[0] = 1;
        world.block(7)[place] = value;
        for call in &calls_of(7)[1..] {
            assert_eq!(world.call(*call), 6, "{value} at {place}");
        }
        let open = if place == 0 { 6 } else { 5 };
        assert_eq!(world.call(Call::Open(7, 1)), open);
        assert_eq!(world.call(Call::Open(8, 1)), 0, "another account's block does not matter");
        assert_eq!(world.call(Call::Report(8)), 0);
    }
}

#[test]
fn a_closed_block_is_all_zero() {
    for place in 1..BLOCK {
        let mut world = World::new();
        world.block(7)[place] = 1;
        for call in calls_of(7) {
            assert_eq!(world.call(call), 6);
        }
    }
}

#[test]
fn an_unlisted_holding_stops_all_but_roll() {
    for place in 16 + 17 * 4..16 + 17 * 5 {
        let mut world = World::new();
        world.block(7)[0] = 2;
        world.block(7)[place] = 1;
        for call in &calls_of(7)[1..] {
            let roll = matches!(call, Call::Roll(_));
            assert_eq!(world.clone().call(*call), if roll { 0 } else { 6 });
        }
    }
}

#[test]
fn a_roll_moves_every_date_or_nothing() {
    let mut world = World::new();
    let block = world.block(2);
    block[..10].copy_from_slice(&[1, 5, 1, 2, 3, 4, 5, 6, 7, 8]);
    for asset in 0..ASSETS {
        block[collateral(asset)] = -3;
        for date in 0..DATES {
            block[claim(asset, date)] = 10 + date as i64;
            block[obligation(asset, date)] = 20 + 2 * date as i64;
        }
    }
    let mut rolled = *world.block(2);
    rolled[..10].copy_from_slice(&[1, 6, 2, 3, 4, 5, 6, 7, 8, 0]);
    for asset in 0..ASSETS {
        rolled[collateral(asset)] = -3 + 10 - 20;
        for date in 0..DATES - 1 {
            rolled[claim(asset, date)] = 11 + date as i64;
            rolled[obligation(asset, date)] = 22 + 2 * date as i64;
        }
        rolled[claim(asset, DATES - 1)] = 0;
        rolled[obligation(asset, DATES - 1)] = 0;
    }
    let mut stuck = world.clone();
    stuck.block(2)[collateral(15)] = -999_991;
    assert_eq!(stuck.call(Call::Roll(2)), 9, "one asset out of bounds leaves all as it was");
    assert_eq!(world.call(Call::Roll(2)), 0);
    assert!(*world.block(2) == rolled);
}

/// The greatest block under the greatest row, on either side: no figure wraps.
#[test]
fn the_greatest_figures() {
    let mut row = row_a();
    row[1] = 10_000_000;
    row[2] = 10_000;
    row[6..12].copy_from_slice(&[10_000, 10_000, 10_000, 10_000, 0, 0]);
    for date in 0..DATES {
        row[16 + 5 * date..21 + 5 * date].copy_from_slice(&[0, -10_000_000, 10_000_000, -10_000_000, 10_000_000]);
    }
    for (sign, trades) in [(1, claim as fn(usize, usize) -> usize), (-1, obligation)] {
        let mut world = World::new();
        world.groups[0] = 50;
        world.block(2)[0] = 1;
        world.block(2)[1..10].fill(sign * 100_000_000_000_000);
        for asset in 0..ASSETS {
            world.list(asset, &row);
            world.block(2)[collateral(asset)] = sign * 1_000_000;
            for date in 0..DATES {
                world.block(2)[trades(asset, date)] = 1_000_000;
            }
        }
        let figures = world.report(2).expect("a report");
        // 16 assets of 9 × 10^6 units at 10^7, and 9 × 10^14 of rubles.
        let units = 16 * 9_000_000 * 10_000_000;
        assert_eq!(figures.valuation, sign * (units + 900_000_000_000_000));
        assert_eq!((figures.market_risk, figures.interest_risk, figures.discount), (units, units, 0));
    }
}

#[test]
fn sells_and_buys_book_both_numbers() {
    let mut world = World::new();
    world.block(2)[0] = 1;
    world.block(2)[1] = 1_000_000;
    let order = Order { account: 2, asset: 0, date: 3, side: SELL, quantity: 7, money: 70_001 };
    assert_eq!(world.call(Call::Order(order)), 0);
    assert_eq!(world.call(Call::Order(Order { side: BUY, quantity: 4, money: 5, ..order })), 0);
    let block = world.block(2);
    assert_eq!((block[obligation(0, 3)], block[claim(0, 3)], block[2 + 3]), (7, 4, 69_996));
}
