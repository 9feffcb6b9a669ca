//! Document 02, #103: an own row may only be stricter. Each number on either side of the clearing row's against a rule
//! written by hand, the places, and 13 among the other codes.

use second::calls::{self, Move, Order};
use second::cases::row_a;
use second::generate::{Random, draw_over, draw_row};
use second::row::{Row, SPECIAL_DELIVERY, first_broken};
use second::stricter::first_laxer;
use second::units::*;

use crate::world::{Call, World, calls_of, claim, collateral};

/// A sign for each number: the same, no greater, no smaller, not compared.
const SIGNS: &[u8; ROW] = b".=<<=>>>>><<=...=<><>=<><>=<><>=<><>=<><>=<><>=<><>=<><>........";

/// Not at a bound with any number but special delivery.
fn roomy(special: i64) -> Row {
    let mut row = [0; ROW];
    row[..13].copy_from_slice(&[2, 5_000_000, 4_000, 6_000, 1, special, 2_000, 3_000, 4_000, 5_000, 100, 200, 4]);
    for date in 0..DATES {
        row[16 + 5 * date..21 + 5 * date].copy_from_slice(&[10, -100, 200, -200, 300]);
    }
    row
}

/// An asset with this clearing row and this own row, beside asset 0 with row A.
fn lent(asset: usize, clearing: &Row, own: &Row) -> World {
    let mut world = World::new();
    world.list(asset, clearing);
    world.own[ROW * asset..ROW * (asset + 1)].copy_from_slice(own);
    world
}

fn check(asset: usize, clearing: &Row, own: &Row) -> (u8, usize) {
    lent(asset, clearing, own).check_tables()
}

#[test]
fn each_number_on_either_side_of_the_clearing_rows() {
    for (number, sign) in SIGNS.iter().enumerate() {
        for (step, laxer) in [(-1, b"=>"), (0, b"!!"), (1, b"=<")] {
            let clearing = roomy(i64::from(step < 0));
            let mut own = clearing;
            own[number] += step;
            for asset in [1, 15] {
                let wanted = match sign {
                    b'.' if step != 0 => (2, 1024 + ROW * asset + number),
                    sign if laxer.contains(sign) => (13, 1024 + ROW * asset + number),
                    _ => (0, 0),
                };
                assert_eq!(check(asset, &clearing, &own), wanted, "number {number}, step {step}");
            }
        }
    }
}

#[test]
fn a_share_of_9_000_over_5_000() {
    let mut own = row_a();
    for (share, answer) in [(9_000, (13, 1026)), (5_001, (13, 1026)), (5_000, (0, 0)), (4_999, (0, 0)), (0, (0, 0))] {
        own[2] = share;
        assert_eq!(check(0, &row_a(), &own), answer);
    }
}

#[test]
fn special_delivery_is_kept_where_set() {
    for (clearing, own, answer) in [(0, 0, (0, 0)), (0, 1, (0, 0)), (1, 1, (0, 0)), (1, 0, (13, 1024 + 5))] {
        let [mut of_clearing, mut of_own] = [row_a(); 2];
        (of_clearing[SPECIAL_DELIVERY], of_own[SPECIAL_DELIVERY]) = (clearing, own);
        assert_eq!(check(0, &of_clearing, &of_own), answer);
    }
}

#[test]
fn absent_own_rows_are_not_compared() {
    for asset in 0..ASSETS {
        assert_eq!(check(asset, &roomy(1), &[0; ROW]), (0, 0));
    }
}

/// Rates of a commodity are equal, so that both are laxer where one is.
#[test]
fn commodities() {
    let mut clearing = row_a();
    (clearing[0], clearing[7], clearing[9]) = (3, 2_000, 4_000);
    for (fall, raised, answer) in [
        (2_000, 4_000, (0, 0)),
        (2_001, 4_000, (0, 0)),
        (2_000, 4_001, (0, 0)),
        (1_999, 4_000, (13, 1024 + 6)),
        (2_000, 3_999, (13, 1024 + 8)),
        (3_000, 3_000, (13, 1024 + 8)),
    ] {
        let mut own = clearing;
        own[6..10].copy_from_slice(&[fall, fall, raised, raised]);
        assert_eq!(check(0, &clearing, &own), answer);
    }
}

#[test]
fn the_first_by_rising_place() {
    let mut world = lent(4, &roomy(0), &roomy(0));
    world.list(7, &roomy(0));
    world.own[ROW * 7..ROW * 8].copy_from_slice(&roomy(0));
    let faults = [(7, 12, 5), (7, 1, 4_999_999), (4, 55, 299), (4, 51, 11), (4, 18, 199), (4, 3, 6_001)];
    for (asset, number, laxer) in faults {
        world.own[ROW * asset + number] = laxer;
        assert_eq!(world.check_tables(), (13, 1024 + ROW * asset + number));
    }
    for (asset, number, _) in faults.into_iter().rev() {
        assert_eq!(world.check_tables(), (13, 1024 + ROW * asset + number));
        world.own[ROW * asset + number] = roomy(0)[number];
    }
    assert_eq!(world.check_tables(), (0, 0));
}

#[test]
fn a_broken_number_anywhere_comes_first() {
    let mut own = roomy(0);
    own[6] = 1_999;
    let laxer = lent(4, &roomy(0), &own);
    let broken = |change: &dyn Fn(&mut World)| {
        let mut world = laxer.clone();
        change(&mut world);
        assert_eq!(world.call(Call::Report(16)), 2);
        world.check_tables()
    };
    assert_eq!(laxer.check_tables(), (13, 1024 + 4 * ROW + 6));
    assert_eq!(broken(&|world| world.clearing[0] = 4), (2, 0));
    assert_eq!(broken(&|world| world.clearing[15 * ROW + 63] = 1), (2, 1023));
    assert_eq!(broken(&|world| world.own[63] = 1), (2, 1024));
    assert_eq!(broken(&|world| world.own[4 * ROW] = 1), (2, 1024 + 4 * ROW));
    assert_eq!(broken(&|world| world.own[4 * ROW + 6] = -1), (2, 1024 + 4 * ROW + 6));
    assert_eq!(broken(&|world| world.own[4 * ROW + 63] = 1), (2, 1024 + 4 * ROW + 63));
    assert_eq!(broken(&|world| world.own[15 * ROW + 1] = 1), (2, 1024 + 15 * ROW));
    assert_eq!(broken(&|world| world.groups[7] = 51), (2, 2055));
}

#[test]
fn every_call_that_is_lent_tables_answers_13_before_3() {
    let mut own = row_a();
    own[2] = 9_000;
    let mut world = lent(0, &row_a(), &own);
    for account in [2, 16, -1, i64::MIN, i64::MAX] {
        for call in calls_of(account) {
            let wanted = match call {
                Call::Open(..) if account == 2 => 0,
                Call::Roll(_) if account == 2 => 0,
                Call::Open(..) | Call::Roll(_) => 3,
                _ => 13,
            };
            assert_eq!(world.call(call), wanted);
        }
        let mut feed = [1, 2, 3, 4, 5];
        let answer = calls::app(&world.book, &world.lent(), account, &mut feed);
        assert_eq!((calls::code(&answer), feed), (13, [1, 2, 3, 4, 5]));
    }
    world.groups.push(0);
    assert_eq!(world.call(Call::Report(2)), 1);
}

#[test]
fn a_laxer_row_of_another_asset_comes_before_7_to_10() {
    let mut world = lent(9, &roomy(1), &roomy(0));
    world.block(2)[0] = 1;
    let order = Order { account: 2, asset: 0, date: 1, side: 0, quantity: 1, money: 0 };
    for order in [order, Order { date: 8, ..order }, Order { quantity: 0, ..order }, Order { money: 20_000, ..order }] {
        assert_eq!(world.call(Call::Order(order)), 13);
    }
    for (asset, amount) in [(0, 1), (16, 1), (0, 0), (0, -1)] {
        assert_eq!(world.call(Call::Move(Move { account: 2, asset, amount })), 13);
    }
}

/// S5: of 150 claimed at date 1, fifty are above both limits.
#[test]
fn a_stricter_row_is_in_force() {
    let limit = |number: usize, value: i64| {
        let mut own = row_a();
        own[number] = value;
        let mut world = lent(0, &row_a(), &own);
        world.block(0)[0] = 1;
        world.block(0)[claim(0, 1)] = 150;
        world.report(0).expect("a report").limit()
    };
    assert_eq!(limit(1, 10_000), 1_080_000, "the clearing row's own numbers");
    assert_eq!(limit(6, 2_001), 1_080_000 - 100);
    assert_eq!(limit(8, 4_001), 1_080_000 - 50);
    assert_eq!(limit(10, 99), 1_080_000 - 2_000);
    assert_eq!(limit(11, 99), 1_080_000 - 100);
    assert_eq!(limit(16 + 5 + 1, -101), 1_080_000 - 100);
    assert_eq!(limit(16 + 5 + 3, -201), 1_080_000 - 50);
}

/// #103 promises the comparison of numbers, not a lower limit: of collateral −10 nothing counts under special delivery.
#[test]
fn a_stricter_row_can_raise_a_limit() {
    for (special, limit) in [(0, -132_000), (1, 0)] {
        let mut own = row_a();
        own[SPECIAL_DELIVERY] = special;
        let mut world = lent(0, &row_a(), &own);
        world.block(0)[0] = 1;
        world.block(0)[collateral(0)] = -10;
        assert_eq!(world.report(0).expect("a report").limit(), limit);
    }
}

/// Nor a smaller share in force: in a pool, a pool share below the whole stands for the acceptance share.
#[test]
fn a_stricter_row_can_raise_a_share() {
    for (pool_share, limit) in [(10_000, 158_000), (9_999, 308_100), (9_000, 284_400), (5_000, 158_000), (0, 0)] {
        let mut own = row_a();
        own[3] = pool_share;
        let mut world = lent(0, &row_a(), &own);
        world.block(0)[0] = 2;
        world.block(0)[collateral(0)] = 40;
        assert_eq!(world.report(0).expect("a report").limit(), limit);
    }
}

#[test]
fn what_is_drawn_over_a_row_is_stricter() {
    let mut random = Random::new(1);
    let (mut equal, mut stricter) = (0, 0);
    for turn in 0..3_000 {
        let clearing = draw_row(&mut random, 1 + turn % 3, 1);
        let own = draw_over(&mut random, &clearing);
        assert_eq!((first_broken(&own), first_laxer(&own, &clearing)), (None, None));
        *(if own == clearing { &mut equal } else { &mut stricter }) += 1;
    }
    assert!(equal > 300 && stricter > 1_000, "{equal} equal, {stricter} stricter");
}
