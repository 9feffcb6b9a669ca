//! Document 02, #101: an order passes if the limit after it is zero or more, or strictly greater than before it;
//! withdrawals keep the old rule. The account is S4's, with a limit of −132,000, unless said.

use second::calls::{BUY, Move, Order, SELL};
use second::row::{COVERED_SALES, PARTIAL};

use crate::world::{Call, World, claim, collateral, obligation};

/// Ten of asset 0 owed at date 2.
fn s4() -> World {
    let mut world = World::new();
    world.block(0)[0] = 1;
    world.block(0)[obligation(0, 2)] = 10;
    assert_eq!(limit(&world), -132_000);
    world
}

fn limit(world: &World) -> i64 {
    world.report(0).expect("a report").limit()
}

/// The ten bought back, which leaves no position and the money paid.
fn buy_back(money: i64) -> Order {
    Order { account: 0, asset: 0, date: 2, side: BUY, quantity: 10, money }
}

fn order(world: &mut World, order: Order) -> u8 {
    world.call(Call::Order(order))
}

#[test]
fn an_order_that_raises_a_negative_limit_is_admitted_and_booked() {
    for (money, after) in [(131_999, -131_999), (100_000, -100_000), (2, -2), (1, -1)] {
        let mut world = s4();
        assert_eq!(order(&mut world, buy_back(money)), 0);
        let block = world.block(0);
        assert_eq!((block[claim(0, 2)], block[obligation(0, 2)], block[2 + 2]), (10, 10, -money));
        assert_eq!(limit(&world), after);
    }
}

#[test]
fn an_order_that_leaves_a_negative_limit_where_it_was_is_refused() {
    assert_eq!(order(&mut s4(), buy_back(132_000)), 10);
}

#[test]
fn an_order_that_lowers_a_negative_limit_is_refused() {
    for money in [132_001, 200_000, 100_000_000_000_000] {
        assert_eq!(order(&mut s4(), buy_back(money)), 10);
    }
}

#[test]
fn an_order_out_of_trouble_may_leave_0_or_more() {
    for (rubles, after) in [(0, 0), (1, 1), (500, 500)] {
        let mut world = s4();
        world.block(0)[1] = rubles;
        assert_eq!(order(&mut world, buy_back(0)), 0);
        assert_eq!(limit(&world), after);
    }
}

/// One more sold has 10,000 of value and 3,200 of risk against it.
#[test]
fn a_sell_out_of_trouble_is_judged_as_a_buy_is() {
    for (money, code) in [(13_199, 10), (13_200, 10), (13_201, 0), (145_199, 0), (145_200, 0)] {
        let mut world = s4();
        let sell = Order { side: SELL, quantity: 1, ..buy_back(money) };
        assert_eq!(order(&mut world, sell), code);
        let sold = if code == 0 { 1 } else { 0 };
        assert_eq!((world.block(0)[obligation(0, 2)], world.block(0)[2 + 2]), (10 + sold, money * sold));
        assert_eq!(limit(&world), -132_000 + sold * (money - 13_200));
    }
}

#[test]
fn the_limit_of_an_account_out_of_trouble_may_fall_to_0_and_no_further() {
    for (rubles, code) in [(13_199, 10), (13_200, 0), (13_201, 0)] {
        let mut world = World::new();
        world.block(0)[0] = 1;
        world.block(0)[1] = rubles;
        assert_eq!(order(&mut world, Order { side: SELL, quantity: 1, ..buy_back(0) }), code);
    }
}

#[test]
fn the_limit_before_is_of_the_same_account() {
    let mut world = s4();
    world.block(1)[0] = 1;
    world.block(1)[1] = -1;
    assert_eq!(world.report(1).expect("a report").limit(), -1);
    assert_eq!(order(&mut world, buy_back(131_999)), 0, "though the other's is higher");
    world.block(1)[1] = -1_000_000;
    assert_eq!(order(&mut world, Order { quantity: 1, ..buy_back(100_000) }), 10, "though the other's is lower");
}

#[test]
fn the_limit_before_is_under_the_tables_of_this_call() {
    let mut world = s4();
    // A rise rate of 0 in place of 3,000: the limit before is −102,000.
    world.clearing[7] = 0;
    assert_eq!(limit(&world), -102_000);
    assert_eq!(order(&mut world, buy_back(102_000)), 10);
    assert_eq!(order(&mut world, buy_back(101_999)), 0);
}

#[test]
fn codes_before_10_are_given_in_trouble_too() {
    let mut world = s4();
    assert_eq!(order(&mut world, Order { account: 16, ..buy_back(0) }), 3);
    assert_eq!(order(&mut world, Order { account: 1, ..buy_back(0) }), 4);
    assert_eq!(order(&mut world, Order { date: 8, ..buy_back(0) }), 7);
    assert_eq!(order(&mut world, Order { quantity: 0, ..buy_back(0) }), 8);
    world.block(0)[claim(0, 2)] = 999_991;
    world.block(0)[1] = -100_000_000_000_000;
    assert_eq!(order(&mut world, buy_back(0)), 9);
}

/// Document 02: demand 3's last clause covers only orders whose limit after them is zero or more.
#[test]
fn a_deposit_can_lose_an_order_of_the_second_ground() {
    let mut world = s4();
    assert_eq!(order(&mut world.clone(), buy_back(100_000)), 0);
    assert_eq!(world.call(Call::Move(Move { account: 0, asset: 0, amount: 10 })), 0);
    assert_eq!(limit(&world), -1_000);
    assert_eq!(order(&mut world, buy_back(100_000)), 10);
}

/// Forty units that count for risk and not for value: half of them, by the acceptance share.
fn partial() -> World {
    let mut world = World::new();
    world.clearing[COVERED_SALES] = PARTIAL;
    world.block(0)[0] = 1;
    world.block(0)[collateral(0)] = 40;
    assert_eq!(limit(&world), -42_000);
    world
}

fn withdraw(world: &mut World, asset: i64, amount: i64) -> u8 {
    world.call(Call::Move(Move { account: 0, asset, amount: -amount }))
}

#[test]
fn a_withdrawal_that_raises_a_negative_limit_and_leaves_it_negative_is_refused() {
    for units in [1, 2, 20, 38] {
        let mut without = partial();
        without.block(0)[collateral(0)] -= units;
        assert!((-42_000..0).contains(&limit(&without)));
        assert_eq!(withdraw(&mut partial(), 0, units), 10);
    }
}

#[test]
fn a_withdrawal_that_raises_a_negative_limit_to_0_is_done() {
    let mut world = partial();
    assert_eq!(withdraw(&mut world, 0, 40), 0);
    assert_eq!(limit(&world), 0);
}

#[test]
fn a_withdrawal_that_leaves_a_negative_limit_where_it_was_is_refused() {
    let mut world = s4();
    // Nothing of a special asset counts (4.10), and ten are owed of it.
    world.clearing[5] = 1;
    world.block(0)[collateral(0)] = 3;
    let before = limit(&world);
    assert!(before < 0);
    assert_eq!(withdraw(&mut world, 0, 1), 10);
    world.block(0)[collateral(0)] = 2;
    assert_eq!(limit(&world), before);
}
