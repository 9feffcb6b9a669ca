//! Document 02, #104, turned away: openings on a settlement code, accounts that another block of their code stops, and the
//! record for the phone app from 2^53 on.

use second::calls;
use second::cases::row_a;
use second::row::KIND;
use second::units::{BLOCK, ROW};

use crate::world::{CODE, Call, World, calls_of, claim, collateral};

#[test]
fn opening_writes_the_code() {
    for code in 0..=15 {
        let mut world = World::new();
        assert_eq!(world.call(Call::OpenOn(5, 2, code)), 0);
        let mut wanted = [0; BLOCK];
        (wanted[0], wanted[CODE]) = (2, code);
        assert!(*world.block(5) == wanted);
    }
}

#[test]
fn codes_outside_0_to_15_are_7() {
    for code in [-1, 16, 17, 255, 256, 257, i64::MIN, i64::MAX] {
        assert_eq!(World::new().call(Call::OpenOn(5, 1, code)), 7);
    }
}

#[test]
fn the_fifth_on_a_code_is_7() {
    let mut world = World::new();
    for account in 0..4 {
        assert_eq!(world.call(Call::OpenOn(account, 1, 9)), 0);
    }
    assert_eq!(world.call(Call::OpenOn(4, 1, 9)), 7);
    assert_eq!(world.call(Call::OpenOn(4, 1, 10)), 0);
    assert_eq!(world.call(Call::OpenOn(0, 1, 9)), 5, "its own block comes first");
}

#[test]
fn another_kind_on_the_code_is_7() {
    let mut world = World::new();
    assert_eq!(world.call(Call::OpenOn(0, 2, 9)), 0);
    for (kind, code) in [(1, 7), (3, 7), (0, 7), (4, 7), (2, 0)] {
        assert_eq!(world.call(Call::OpenOn(1, kind, 9)), code);
    }
}

#[test]
fn a_block_of_the_code_that_breaks_the_rules_is_7_for_a_new_one() {
    for (number, value) in [(0, 4), (1, i64::MAX), (10, 1), (16, 1_000_001), (287, -1)] {
        let mut world = World::on_one_code(&[&[(number, value)]]);
        assert_eq!(world.call(Call::OpenOn(1, 1, 3)), 7);
        assert_eq!(world.call(Call::OpenOn(1, 1, 4)), 0);
    }
    let mut closed = World::new();
    closed.block(0)[CODE] = 3;
    assert_eq!(closed.call(Call::OpenOn(1, 1, 3)), 7);
    // An unlisted holding does not: open is lent no tables.
    let mut unlisted = World::on_one_code(&[&[(collateral(4), 1)]]);
    assert_eq!(unlisted.call(Call::OpenOn(1, 1, 3)), 0);
    assert_eq!(unlisted.call(Call::Report(1)), 6);
}

/// The codes of the calls of account 0, without open.
fn codes(world: &World) -> [u8; 4] {
    let calls = calls_of(0);
    [1, 2, 3, 4].map(|call| world.clone().call(calls[call]))
}

/// A world in which account 0 could do anything.
fn rich(others: usize) -> World {
    let rubles: &[(usize, i64)] = &[(1, 1_000_000)];
    World::on_one_code(&vec![rubles; 1 + others])
}

#[test]
fn each_fault_of_another_block_is_6() {
    assert_eq!(codes(&rich(3)), [0; 4], "four");
    assert_eq!(codes(&rich(4)), [6; 4], "five");
    let spoiled = |number: usize, value: i64| {
        let mut world = rich(1);
        world.block(1)[number] = value;
        codes(&world)
    };
    for kind in [0, 2, 3, 4, -1] {
        assert_eq!(spoiled(0, kind), [6; 4], "kind {kind}");
    }
    for (number, value) in [(1, 100_000_000_000_001), (9, i64::MIN), (12, 1), (14, -1), (16, -1_000_001), (17, -1)] {
        assert_eq!(spoiled(number, value), [6; 4], "{value} at {number}");
    }
    for code in [0, 4, 16, -1] {
        assert_eq!(spoiled(CODE, code), [0; 4], "on another code");
    }
    // Move, order, roll, report: a roll is lent no tables.
    assert_eq!(spoiled(collateral(9), 1), [6, 6, 0, 6], "an unlisted holding");
}

#[test]
fn a_block_that_is_not_open_and_has_the_code_is_6_for_all_of_it() {
    let mut world = rich(0);
    world.block(8)[CODE] = 3;
    assert_eq!(codes(&world), [6; 4]);
    for call in calls_of(8) {
        assert_eq!(world.call(call), 6);
    }
}

#[test]
fn numbers_that_are_no_codes_are_6() {
    for code in [-1, 16, 255, i64::MIN, i64::MAX] {
        let mut world = rich(1);
        for account in 0..2 {
            world.block(account)[CODE] = code;
        }
        assert_eq!(codes(&world), [6; 4]);
    }
}

/// A row without risk at 10^7: nine million units of each asset are 1.44 × 10^15 a block, and nine times 10^14 of rubles
/// can go with them.
fn four_full_blocks(short_of: i64) -> World {
    let mut world = World::on_one_code(&[&[], &[], &[], &[]]);
    let mut row = [0; ROW];
    row[..4].copy_from_slice(&[1, 10_000_000, 10_000, 10_000]);
    for asset in 0..16 {
        world.list(asset, &row);
        for account in 0..4 {
            world.block(account)[collateral(asset)] = 1_000_000;
            for date in 0..8 {
                world.block(account)[claim(asset, date)] = 1_000_000;
            }
        }
    }
    // 4 × 1.44 × 10^15 are 5,760,000,000,000,000; 2^53 is 9,007,199,254,740,992.
    let mut rubles = 3_247_199_254_740_992 - short_of;
    for account in 0..4 {
        for number in 1..10 {
            world.block(account)[number] = rubles.min(100_000_000_000_000);
            rubles -= world.block(account)[number];
        }
    }
    world
}

#[test]
fn the_record_answers_9_from_2_to_the_53_on_and_the_report_does_not() {
    for (short_of, code) in [(1, 0), (0, 9), (-1, 9)] {
        let world = four_full_blocks(short_of);
        let valuation = 9_007_199_254_740_992 - short_of;
        assert_eq!(world.code_figures(4), [valuation, 0, 0, 0, valuation]);
        for account in 0..4 {
            let mut feed = [1, 2, 3, 4, 5];
            let answer = calls::app(&world.book, &world.lent(), account, &mut feed);
            assert_eq!(calls::code(&answer), code);
            assert_eq!(feed == [1, 2, 3, 4, 5], code == 9, "a refusal leaves the feed");
        }
    }
}

#[test]
fn nine_comes_after_every_code_of_a_report() {
    let code = |change: &dyn Fn(&mut World)| {
        let mut world = four_full_blocks(0);
        change(&mut world);
        calls::code(&calls::app(&world.book, &world.lent(), 0, &mut [0; 5]))
    };
    assert_eq!(code(&|_| ()), 9);
    assert_eq!(code(&|world| world.groups.push(0)), 1);
    assert_eq!(code(&|world| world.groups[7] = 51), 2);
    assert_eq!(code(&|world| world.own[..ROW].copy_from_slice(&row_a())), 13);
    assert_eq!(code(&|world| world.block(3)[10] = 1), 6);
    assert_eq!(code(&|world| world.clearing[15 * ROW..].fill(0)), 6);
    assert_eq!(code(&|world| world.clearing[KIND] = 4), 2);
}
