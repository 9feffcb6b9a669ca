//! Document 01, "Sums to be met", asked of the library: S1 to S12, the two orders, the cover test.

use crate::world::{Call, World, claim};
use second::calls::{BUY, Order};
use second::cases::{SUMS, row_a};
use second::cover::passes_cover_test;
use second::row::{KIND, PRICE, RAISED_FALL, Row, date_start};
use second::units::ROW;

#[test]
fn every_sum_is_met() {
    for sum in &SUMS {
        let world = World::of_sum(sum);
        let figures = world.report(0).expect(sum.name);
        let [valuation, market, interest, discount, limit] = sum.figures;
        assert_eq!(figures.valuation, valuation, "{}", sum.name);
        assert_eq!(figures.market_risk, market, "{}", sum.name);
        assert_eq!(figures.interest_risk, interest, "{}", sum.name);
        assert_eq!(figures.discount, discount, "{}", sum.name);
        assert_eq!(figures.limit(), limit, "{}", sum.name);
    }
}

#[test]
fn an_order_is_admitted_at_a_limit_of_0_and_not_below() {
    for (rubles, code) in [(21_000, 0), (20_999, 10)] {
        let mut world = World::new();
        world.block(0)[0] = 1;
        world.block(0)[1] = rubles;
        let order = Order { account: 0, asset: 0, date: 1, side: BUY, quantity: 10, money: 100_000 };
        assert_eq!(world.call(Call::Order(order)), code);
        let booked = if code == 0 { (10, -100_000) } else { (0, 0) };
        assert_eq!((world.block(0)[claim(0, 1)], world.block(0)[2 + 1]), booked);
    }
}

fn with(number: usize, value: i64) -> Row {
    let mut row = row_a();
    row[number] = value;
    row
}

#[test]
fn cover_test_of_row_a() {
    assert!(passes_cover_test(&row_a()));
    assert!(passes_cover_test(&with(RAISED_FALL, 9_700)));
    assert!(!passes_cover_test(&with(RAISED_FALL, 9_800)));
}

#[test]
fn cover_test_of_other_rows() {
    assert!(!passes_cover_test(&[0; ROW]), "an unlisted row fails");
    assert!(!passes_cover_test(&with(KIND, 0)));
    // 10,000 × (10,000 + mid − 300) ≥ 9,800 × 10,000 from mid 100 on, the outer numbers moving along.
    for (mid, passes) in [(99, false), (100, true)] {
        let mut row = with(RAISED_FALL, 9_800);
        for (number, value) in [0, -100, 200, -200, 300].into_iter().enumerate() {
            row[date_start(0) + number] = value + mid;
        }
        assert_eq!(passes_cover_test(&row), passes);
    }
    // Outer low is the farther one.
    assert!(!passes_cover_test(&with(date_start(0) + 3, -6_001)));
    assert!(passes_cover_test(&with(date_start(0) + 3, -6_000)));
    // An unsound row may hold any number: a sum of it does not wrap.
    for (number, passes) in [(PRICE, [false, true]), (date_start(0), [false, true]), (RAISED_FALL, [true, false])] {
        assert_eq!([i64::MIN, i64::MAX].map(|extreme| passes_cover_test(&with(number, extreme))), passes, "{number}");
    }
}
