//! Document 02, #104: several accounts under one settlement code. Figures worked out by hand under row A, and calls judged
//! by the code's limit.

use second::calls::{BUY, Move, Order, SELL};
use second::cases::row_a;
use second::row::{COVERED_SALES, PARTIAL, SPECIAL_DELIVERY};

use crate::world::{CODE, Call, World, claim, collateral, obligation};

/// Twenty of the forty count, thirty are owed: ten are left over to the market, at 3,000 and 200 each. Had the forty and
/// the thirty met before adjusting, it would be S3.
#[test]
fn collateral_is_adjusted_within_each_block() {
    let world = World::on_one_code(&[&[(collateral(0), 40)], &[(obligation(0, 0), 30)]]);
    assert_eq!(world.code_figures(2), [-100_000, 30_000, 2_000, 0, -132_000]);
    let together = World::on_one_code(&[&[(collateral(0), 40), (obligation(0, 0), 30)], &[]]);
    assert_eq!(together.code_figures(2), [100_000, 20_000, 1_000, 0, 79_000]);
}

/// Twenty of them are above both limits. Each sixty alone is within them: 120,000 and 6,000 twice.
#[test]
fn positions_are_added_before_risk() {
    let world = World::on_one_code(&[&[(claim(0, 1), 60)], &[(claim(0, 1), 60)]]);
    assert_eq!(world.code_figures(2), [1_200_000, 280_000, 14_000, 0, 906_000]);
}

#[test]
fn opposite_positions_of_a_date_leave_nothing() {
    let world = World::on_one_code(&[&[(claim(0, 1), 60)], &[(obligation(0, 1), 60)]]);
    assert_eq!(world.code_figures(2), [0; 5]);
    // Of two dates interest risk is left: 60 × 200 less 60 × 100.
    let world = World::on_one_code(&[&[(claim(0, 1), 60)], &[(obligation(0, 2), 60)]]);
    assert_eq!(world.code_figures(2), [0, 0, 6_000, 0, -6_000]);
}

#[test]
fn the_discount_is_over_the_codes_positions() {
    let mut world = World::on_one_code(&[&[(claim(0, 1), 10)], &[(obligation(1, 1), 10)]]);
    world.list(1, &row_a());
    assert_eq!(world.code_figures(2), [0, 50_000, 3_000, 10_000, -43_000], "S11");
    // Both blocks have a spread of their own, and against each other they have none.
    world.block(0)[obligation(1, 1)] = 10;
    world.block(1)[obligation(1, 1)] = 0;
    world.block(1)[obligation(0, 1)] = 10;
    world.block(1)[claim(1, 1)] = 10;
    assert_eq!(world.code_figures(2), [0; 5]);
}

#[test]
fn rubles_are_added() {
    let world = World::on_one_code(&[&[(1, 5), (2, 6)], &[(1, -2)], &[(9, 100)], &[]]);
    assert_eq!(world.code_figures(4), [109, 0, 0, 0, 109]);
}

/// Under a partial row ten of twenty count for risk and not for value in one block; five short of it do for both in another.
#[test]
fn collateral_is_valued_within_each_block() {
    let mut world = World::on_one_code(&[&[(collateral(0), 20)], &[(collateral(0), -5)]]);
    world.clearing[COVERED_SALES] = PARTIAL;
    assert_eq!(world.code_figures(2), [-50_000, 10_000, 500, 0, -60_500]);
}

/// The greater of ten claimed at 2,000 and ten owed at 3,000: the same date's ten cancel out first.
#[test]
fn special_delivery_by_the_codes_dates() {
    let mut world = World::on_one_code(&[
        &[(claim(0, 1), 20), (collateral(0), 9)],
        &[(obligation(0, 1), 10), (obligation(0, 2), 10)],
    ]);
    world.clearing[SPECIAL_DELIVERY] = 1;
    assert_eq!(world.code_figures(2), [0, 30_000, 1_000, 0, -31_000]);
}

#[test]
fn only_the_blocks_of_the_code_count() {
    let mut world = World::on_one_code(&[&[(1, 5)], &[(1, 7)]]);
    for (account, code) in [(2, 4), (3, 0), (4, 15)] {
        world.block(account)[0] = 2;
        world.block(account)[CODE] = code;
        world.block(account)[1] = 1_000;
    }
    assert_eq!(world.code_figures(2), [12, 0, 0, 0, 12]);
    assert_eq!(world.report(3).expect("a report").limit(), 1_000);
    world.block(4)[1] = i64::MAX;
    assert_eq!(world.code_figures(2), [12, 0, 0, 0, 12], "another code's damage does not matter");
}

#[test]
fn code_0_is_never_shared() {
    let mut world = World::new();
    for account in 0..16 {
        assert_eq!(world.call(Call::Open(account, 1 + account % 3)), 0);
        world.block(account as usize)[1] = account;
    }
    world.block(9)[10] = 1;
    for account in (0..16).filter(|&account| account != 9) {
        assert_eq!(world.report(account).expect("a report").limit(), account);
    }
}

/// 10 for 100,000 at date 1 take 21,000 of the limit.
fn buy_ten(account: i64, money: i64) -> Call {
    Call::Order(Order { account, asset: 0, date: 1, side: BUY, quantity: 10, money })
}

#[test]
fn an_order_is_judged_by_the_codes_limit() {
    for (rubles, code) in [(20_998, 10), (20_999, 0)] {
        let mut world = World::on_one_code(&[&[(1, 1)], &[(1, rubles)]]);
        assert_eq!(world.call(buy_ten(0, 100_000)), code);
    }
    // It has enough of its own, and the other owes it.
    let mut world = World::on_one_code(&[&[(1, 21_000)], &[(1, -1)]]);
    assert_eq!(world.call(buy_ten(0, 100_000)), 10);
}

#[test]
fn an_order_is_booked_in_its_own_block() {
    let mut world = World::on_one_code(&[&[], &[(1, 21_000)]]);
    let mut wanted = world.clone();
    wanted.block(0)[claim(0, 1)] = 10;
    wanted.block(0)[2 + 1] = -100_000;
    assert_eq!(world.call(buy_ten(0, 100_000)), 0);
    assert!(world == wanted);
}

#[test]
fn a_withdrawal_is_judged_by_the_codes_limit() {
    let withdraw =
        |world: &mut World, amount: i64| world.call(Call::Move(Move { account: 0, asset: 255, amount: -amount }));
    let mut world = World::on_one_code(&[&[(1, 10_000), (2, -7_000)], &[(1, 5_000)]]);
    assert_eq!(withdraw(&mut world.clone(), 8_001), 10);
    assert_eq!(withdraw(&mut world.clone(), 10_001), 9, "its own collateral comes first");
    assert_eq!(withdraw(&mut world, 8_000), 0);
    assert_eq!((world.block(0)[1], world.block(1)[1]), (2_000, 5_000));
    let mut owing = World::on_one_code(&[&[(1, 10_000)], &[(1, -10_000)]]);
    assert_eq!(withdraw(&mut owing, 1), 10, "though it has all of it");
}

#[test]
fn a_deposit_asks_its_own_bounds_and_no_limit() {
    let mut world = World::on_one_code(&[&[], &[(1, -100_000_000_000_000)], &[(1, 100_000_000_000_000)]]);
    let deposit = |account, amount| Call::Move(Move { account, asset: 255, amount });
    assert_eq!(world.call(deposit(0, 1)), 0);
    assert_eq!(world.call(deposit(2, 1)), 9);
}

/// S4 in one block; the ten bought back in another leave no position, and the money paid.
#[test]
fn the_second_ground_is_of_the_codes_limits() {
    let s4 = || World::on_one_code(&[&[], &[(obligation(0, 2), 10)]]);
    let buy = |money| Call::Order(Order { account: 0, asset: 0, date: 2, side: BUY, quantity: 10, money });
    for (money, code) in [(132_001, 10), (132_000, 10), (131_999, 0), (1, 0), (0, 0)] {
        assert_eq!(s4().call(buy(money)), code);
    }
    // The own block's limit would rise: five sold cover its five.
    let mut world = World::on_one_code(&[&[(claim(0, 2), 5), (4, -60_000)], &[(obligation(0, 2), 10)]]);
    let sell = Order { account: 0, asset: 0, date: 2, side: SELL, quantity: 5, money: 50_000 };
    assert_eq!(world.call(Call::Order(sell)), 10);
    assert_eq!(world.call(Call::Order(Order { money: 66_001, ..sell })), 0);
}

#[test]
fn a_roll_is_of_one_block() {
    let mut world = World::on_one_code(&[&[(claim(0, 1), 7)], &[(claim(0, 1), 8)]]);
    let mut wanted = world.clone();
    wanted.block(0)[claim(0, 1)] = 0;
    wanted.block(0)[claim(0, 0)] = 7;
    assert_eq!(world.call(Call::Roll(0)), 0);
    assert!(world == wanted);
}
