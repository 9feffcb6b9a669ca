//! The table check with the place: every number of row A against bounds written by hand, in both tables, and the rest.

use crate::world::World;
use second::cases::row_a;
use second::units::*;

/// Lowest and highest value of each number of row A, the others as they are.
fn hand_bounds(number: usize) -> (i64, i64) {
    match number {
        1 => (1, 10_000_000),
        2 | 3 | 6 | 7 => (0, 10_000),
        4 => (0, 2),
        5 => (0, 1),
        8 => (2_000, 10_000),
        9 => (3_000, 10_000),
        10 | 11 => (0, 10_000_000),
        12 => (0, 8),
        16..56 => match (number - 16) % 5 {
            0 => (-10_000, 9_990_000),
            1 => (-10_000_000, 0),
            2 => (0, 10_000_000),
            3 => (-10_000_000, -100),
            _ => (200, 10_000_000),
        },
        _ => (0, 0),
    }
}

fn check(change: impl FnOnce(&mut World)) -> (u8, usize) {
    let mut world = World::new();
    change(&mut world);
    world.check_tables()
}

#[test]
fn each_number_of_a_listed_row() {
    for number in 1..ROW {
        let (lowest, highest) = hand_bounds(number);
        let clearing = |value| check(|world| world.clearing[number] = value);
        let own = |value| {
            check(|world| {
                world.own[..ROW].copy_from_slice(&row_a());
                world.own[number] = value;
            })
        };
        for value in [lowest - 1, highest + 1, i64::MIN, i64::MAX] {
            assert_eq!(clearing(value), (2, number));
            assert_eq!(own(value), (2, 1024 + number));
        }
        for value in [lowest, highest] {
            // A later number may break by it, this one does not.
            let (code, place) = clearing(value);
            assert!(code == 0 && place == 0 || place > number, "{number}: {value} breaks at {place}");
            // An own one may be laxer than row A's by it, which is 13 and no broken number.
            let (code, place) = own(value);
            assert!(code != 2 || place > 1024 + number, "own {number}: {value} breaks at {place}");
        }
    }
}

#[test]
fn rules_over_two_numbers_break_at_the_later() {
    assert_eq!(check(|world| world.clearing[6] = 4_001), (2, 8));
    assert_eq!(check(|world| world.clearing[7] = 5_001), (2, 9));
    assert_eq!(check(|world| world.clearing[16] = 201), (2, 18));
    assert_eq!(check(|world| world.clearing[16] = -101), (2, 17));
    assert_eq!(check(|world| world.clearing[17] = -201), (2, 19));
    assert_eq!(check(|world| world.clearing[18] = 301), (2, 20));
    assert_eq!(check(|world| world.clearing[16] = -100), (0, 0));
    // The price and every mid: mid 0 is good at any price.
    assert_eq!(check(|world| world.clearing[1] = 10_000_000), (0, 0));
}

#[test]
fn kinds() {
    for kind in [i64::MIN, -1, 4, i64::MAX] {
        assert_eq!(check(|world| world.clearing[0] = kind), (2, 0));
    }
    assert_eq!(check(|world| world.clearing[0] = 0), (2, 1), "unlisted, so the price must be zero");
    assert_eq!(check(|world| world.clearing[0] = 2), (0, 0));
    assert_eq!(check(|world| world.clearing[0] = 3), (2, 7), "rates are equal for kind 3");
    let commodity = |world: &mut World, raised_rise| {
        world.clearing[0] = 3;
        world.clearing[7] = 2_000;
        world.clearing[9] = raised_rise;
    };
    assert_eq!(check(|world| commodity(world, 5_000)), (2, 9));
    assert_eq!(check(|world| commodity(world, 4_000)), (0, 0));
}

#[test]
fn unlisted_rows_are_zero() {
    for number in 1..ROW {
        for value in [1, -1, i64::MIN, i64::MAX] {
            assert_eq!(check(|world| world.clearing[15 * ROW + number] = value), (2, 15 * ROW + number));
        }
    }
}

#[test]
fn own_rows() {
    for number in 0..ROW {
        let place = 1024 + 3 * ROW;
        assert_eq!(check(|world| world.own[3 * ROW + number] = 1), (2, place), "over an unlisted row");
        assert_eq!(check(|world| world.own[number] = 1).0, 2, "less than a row");
    }
    assert_eq!(check(|world| world.own[5] = 1), (2, 1024), "kind 0 over kind 1");
    for kind in [2, 3, 4, -1] {
        let own = |world: &mut World| {
            world.own[..ROW].copy_from_slice(&row_a());
            world.own[0] = kind;
        };
        assert_eq!(check(own), (2, 1024));
    }
    assert_eq!(check(|world| world.own[..ROW].copy_from_slice(&row_a())), (0, 0));
}

#[test]
fn groups_and_the_order_of_all() {
    for group in 0..GROUPS {
        for percent in [-1, 51, i64::MIN, i64::MAX] {
            assert_eq!(check(|world| world.groups[group] = percent), (2, 2048 + group));
        }
        assert_eq!(check(|world| world.groups[group] = 50), (0, 0));
    }
    let mut world = World::new();
    world.groups[0] = 51;
    world.own[1023] = 1;
    world.clearing[1023] = 1;
    assert_eq!(world.check_tables(), (2, 1023));
    world.clearing[1023] = 0;
    assert_eq!(world.check_tables(), (2, 1024 + 960));
    world.own[1023] = 0;
    assert_eq!(world.check_tables(), (2, 2048));
}

#[test]
fn the_row_in_force_is_lent_from_its_table() {
    let mut world = World::new();
    let tables = world.lent().tables().expect("right lengths");
    assert!(std::ptr::eq(tables.row_in_force(0), &tables.clearing[0]));
    world.own[63] = 1;
    let tables = world.lent().tables().expect("right lengths");
    assert!(std::ptr::eq(tables.row_in_force(0), &tables.own[0]));
    assert!(std::ptr::eq(tables.row_in_force(1), &tables.clearing[1]));
}

#[test]
fn wrong_lengths() {
    assert_eq!(check(|world| world.clearing.truncate(1023)), (1, 0));
    assert_eq!(check(|world| world.own.push(0)), (1, 0));
    assert_eq!(check(|world| world.groups.clear()), (1, 0));
    assert_eq!(check(|world| world.clearing.resize(1024 + ROW, 0)), (1, 0));
    let broken_and_short = |world: &mut World| {
        world.clearing[0] = 9;
        world.own.truncate(960);
    };
    assert_eq!(check(broken_and_short), (1, 0));
}
