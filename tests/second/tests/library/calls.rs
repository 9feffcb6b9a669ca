//! Calls with damaged blocks, wrong lengths and numbers of any size: the codes in their order, and no buffer altered.

use crate::world::{Call, World, calls_of, claim, collateral, obligation};
use second::calls::{BUY, Move, Order};
use second::cases::row_a;
use second::units::*;

const WRONG_ACCOUNTS: [i64; 4] = [-1, 16, i64::MIN, i64::MAX];

/// Mends one fault after another; each must have been the one named.
fn staircase(world: &mut World, call: Call, steps: &[(u8, &dyn Fn(&mut World))]) {
    for (code, mend) in steps {
        assert_eq!(world.call(call), *code);
        mend(world);
    }
    assert_eq!(world.call(call), 0);
}

/// Everything wrong with the tables, the book and block 2.
fn wreck() -> World {
    let mut world = World::new();
    world.book.push(0);
    world.clearing[0] = 9;
    world.own[..ROW].copy_from_slice(&row_a());
    world.own[2] = 9_000;
    world.block(2)[claim(0, 1)] = -1;
    world
}

fn right_length(world: &mut World) {
    world.book.truncate(BOOK);
}

fn right_tables(world: &mut World) {
    world.clearing[0] = 1;
}

fn right_share(world: &mut World) {
    world.own[2] = 5_000;
}

fn all_zero(world: &mut World) {
    world.block(2).fill(0);
}

fn opened(world: &mut World) {
    assert_eq!(world.call(Call::Open(2, 1)), 0);
}

#[test]
fn codes_of_report_in_order() {
    let steps: [(u8, &dyn Fn(&mut World)); 5] =
        [(1, &right_length), (2, &right_tables), (13, &right_share), (6, &all_zero), (4, &opened)];
    staircase(&mut wreck(), Call::Report(2), &steps);
}

#[test]
fn codes_of_order_in_order() {
    // It costs more than the units are worth, so that the limit falls by it.
    let order = Order { account: 2, asset: 1, date: 1, side: BUY, quantity: 1_000_000, money: 100_000_000_000_000 };
    let list = |world: &mut World| {
        world.list(1, &row_a());
        world.block(2)[claim(1, 1)] = 1;
    };
    let room = |world: &mut World| world.block(2)[claim(1, 1)] = 0;
    let limit = |world: &mut World| world.block(2)[1] = 100_000_000_000_000;
    let unlisted = |world: &mut World| world.block(2)[obligation(5, 3)] = 1;
    let listed = |world: &mut World| world.block(2)[obligation(5, 3)] = 0;
    let steps: [(u8, &dyn Fn(&mut World)); 10] = [
        (1, &right_length),
        (2, &right_tables),
        (13, &right_share),
        (6, &all_zero),
        (4, &opened),
        (7, &unlisted),
        (6, &listed),
        (7, &list),
        (9, &room),
        (10, &limit),
    ];
    staircase(&mut wreck(), Call::Order(order), &steps);
    let eight = Call::Order(Order { quantity: 1_000_001, ..order });
    let mut world = wreck();
    for mend in [right_length, right_tables, right_share, all_zero, opened, list] {
        mend(&mut world);
    }
    assert_eq!(world.call(eight), 8, "before 9");
    assert_eq!(world.call(Call::Order(Order { asset: 2, quantity: 0, money: -1, ..order })), 7, "before 8");
}

#[test]
fn codes_of_move_in_order() {
    let wanted = Move { account: 2, asset: 0, amount: -2 };
    let one_unit = |world: &mut World| world.block(2)[collateral(0)] = 1;
    let two_units = |world: &mut World| {
        world.block(2)[collateral(0)] = 2;
        world.block(2)[2] = -1_000_000;
    };
    let limit = |world: &mut World| world.block(2)[2] = 0;
    let steps: [(u8, &dyn Fn(&mut World)); 8] = [
        (1, &right_length),
        (2, &right_tables),
        (13, &right_share),
        (6, &all_zero),
        (4, &opened),
        (9, &one_unit),
        (9, &two_units),
        (10, &limit),
    ];
    staircase(&mut wreck(), Call::Move(wanted), &steps);
}

#[test]
fn codes_of_open_in_order() {
    let first = |world: &mut World| world.block(2)[0] = 3;
    let steps: [(u8, &dyn Fn(&mut World)); 3] = [(1, &right_length), (6, &first), (5, &all_zero)];
    staircase(&mut wreck(), Call::Open(2, 3), &steps);
    for kind in [i64::MIN, -1, 0, 4, i64::MAX] {
        assert_eq!(World::new().call(Call::Open(2, kind)), 7);
        let mut open = World::new();
        opened(&mut open);
        assert_eq!(open.call(Call::Open(2, kind)), 5);
    }
    for first in [i64::MIN, -1, 4, i64::MAX] {
        let mut world = World::new();
        world.block(2)[0] = first;
        assert_eq!(world.call(Call::Open(2, 1)), 6);
    }
}

#[test]
fn codes_of_roll_in_order() {
    let full = |world: &mut World| {
        opened(world);
        world.block(2)[1] = 100_000_000_000_000;
        world.block(2)[2] = 1;
    };
    let room = |world: &mut World| world.block(2)[2] = 0;
    let steps: [(u8, &dyn Fn(&mut World)); 4] = [(1, &right_length), (6, &all_zero), (4, &full), (9, &room)];
    staircase(&mut wreck(), Call::Roll(2), &steps);
}

#[test]
fn every_length_is_looked_at_first() {
    let lengths: [&dyn Fn(&mut World); 8] = [
        &|world| world.book.truncate(BOOK - 1),
        &|world| world.book.resize(BOOK + BLOCK, 0),
        &|world| world.clearing.push(0),
        &|world| world.clearing.clear(),
        &|world| world.own.truncate(TABLE - ROW),
        &|world| world.own.resize(2 * TABLE, 0),
        &|world| world.groups.push(0),
        &|world| world.groups.truncate(7),
    ];
    for (number, damage) in lengths.iter().enumerate() {
        let mut world = World::new();
        world.clearing[1] = -1;
        damage(&mut world);
        for call in calls_of(-1) {
            // Open and roll are lent the book alone.
            let book_alone = matches!(call, Call::Open(..) | Call::Roll(_));
            assert_eq!(world.call(call), if book_alone && number >= 2 { 3 } else { 1 });
        }
    }
}

#[test]
fn accounts_are_0_to_15() {
    for account in WRONG_ACCOUNTS {
        for call in calls_of(account) {
            assert_eq!(World::new().call(call), 3);
        }
    }
    for account in 0..16 {
        let mut world = World::new();
        for call in calls_of(account) {
            let mut before = world.clone();
            // A unit bought for nothing is worth more than its risk.
            assert_eq!(world.call(call), 0);
            for other in (0..16).filter(|&other| other != account as usize) {
                assert!(world.block(other) == before.block(other), "another account's block changed");
            }
        }
    }
}

#[test]
fn choices_and_amounts_of_any_size() {
    let mut world = World::new();
    opened(&mut world);
    let good = Order { account: 2, asset: 0, date: 0, side: BUY, quantity: 1, money: 0 };
    let wide = [i64::MIN, -1, i64::MAX];
    for wrong in wide.into_iter().chain([1, 16, 255]) {
        assert_eq!(world.call(Call::Order(Order { asset: wrong, ..good })), 7);
    }
    for wrong in wide.into_iter().chain([8]) {
        assert_eq!(world.call(Call::Order(Order { date: wrong, ..good })), 7);
    }
    for wrong in wide.into_iter().chain([2]) {
        assert_eq!(world.call(Call::Order(Order { side: wrong, ..good })), 7);
    }
    for wrong in wide.into_iter().chain([0, 1_000_001]) {
        assert_eq!(world.call(Call::Order(Order { quantity: wrong, ..good })), 8);
    }
    for wrong in wide.into_iter().chain([100_000_000_000_001]) {
        assert_eq!(world.call(Call::Order(Order { money: wrong, ..good })), 8);
    }
    for wrong in wide.into_iter().chain([1, 16, 254, 256]) {
        assert_eq!(world.call(Call::Move(Move { account: 2, asset: wrong, amount: 0 })), 7);
    }
    for (asset, most) in [(0, 1_000_000), (255, 100_000_000_000_000)] {
        for amount in [i64::MIN, i64::MAX, 0, most + 1, -most - 1] {
            assert_eq!(world.call(Call::Move(Move { account: 2, asset, amount })), 8);
        }
        assert_eq!(world.call(Call::Move(Move { account: 2, asset, amount: most })), 0);
        assert_eq!(world.call(Call::Move(Move { account: 2, asset, amount: 1 })), 9);
    }
}
