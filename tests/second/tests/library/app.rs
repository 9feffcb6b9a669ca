//! Document 02, #102: the figures of a report as floats, with the gauge. Bits are written out by hand or compared by whole
//! numbers; the machine's division is not asked what it should give.

use second::calls::{self, App};
use second::cases::{QUOTIENTS, Quotient, SUMS, bits_of_whole, row_a};
use second::gauge::Gauge;
use second::record::exact;

use crate::world::{World, claim, collateral, obligation};

/// What the feed holds before a call: neither zeros nor a record.
const HELD: [i64; 5] = [7, -7, i64::MIN, i64::MAX, 1];

/// The call on a feed that holds something; where it is turned away that must still be there.
fn app(world: &World, account: i64) -> Result<App, u8> {
    let mut feed = HELD;
    let answer = calls::app(&world.book, &world.lent(), account, &mut feed);
    match answer {
        Ok(app) => assert_eq!(feed, app.record.bits(), "the record goes out"),
        Err(_) => assert_eq!(feed, HELD, "a refusal altered the feed"),
    }
    answer.map_err(|refusal| refusal as u8)
}

/// An ordinary account 0 with these numbers.
fn account(numbers: &[(usize, i64)]) -> World {
    let mut world = World::new();
    world.block(0)[0] = 1;
    for &(number, value) in numbers {
        world.block(0)[number] = value;
    }
    world
}

fn gauge(world: &World) -> Gauge {
    app(world, 0).expect("a report").gauge
}

fn used(world: &World) -> u64 {
    match gauge(world) {
        Gauge::Used(quotient) => quotient.to_bits(),
        other => panic!("{other:?}"),
    }
}

#[test]
fn whole_numbers_by_hand() {
    for (number, bits) in [
        (0, 0),
        (1, 0x3ff0_0000_0000_0000),
        (-1, 0xbff0_0000_0000_0000),
        (2, 0x4000_0000_0000_0000),
        (3, 0x4008_0000_0000_0000),
        // 30D40 in sixteens: 2^17, and 10D40 behind it.
        (200_000, 0x4108_6a00_0000_0000),
        // 9C40: 2^15, and 1C40 behind it.
        (40_000, 0x40e3_8800_0000_0000),
        // 203A0: 2^17, and 3A0 behind it.
        (-132_000, 0xc100_1d00_0000_0000),
        // The greatest below 2^53, and the least above −2^53.
        ((1 << 53) - 1, 0x433f_ffff_ffff_ffff),
        (1 - (1 << 53), 0xc33f_ffff_ffff_ffff),
    ] {
        assert_eq!(bits_of_whole(number), bits, "{number}");
        assert_eq!(exact(number).to_bits(), bits, "{number}");
    }
}

#[test]
#[should_panic(expected = "2^53 or more in size")]
fn a_figure_of_2_to_the_53_stops() {
    exact(-(1 << 53));
}

#[test]
fn the_quotients_by_hand_are_the_nearest() {
    for (quotient, bits) in QUOTIENTS {
        assert!(quotient.is_nearest(bits), "{bits:x}");
        assert!(!quotient.is_nearest(bits - 1) && !quotient.is_nearest(bits + 1), "{bits:x}");
    }
    let none = Quotient { dividend: 0, divisor: 5 };
    assert!(none.is_nearest(0) && !none.is_nearest(1) && !none.is_nearest(1 << 63));
}

#[test]
fn the_sums_of_the_document() {
    for sum in &SUMS {
        let App { record, gauge } = app(&World::of_sum(sum), 0).expect("a report");
        assert_eq!(record.bits(), sum.figures.map(|figure| bits_of_whole(figure).cast_signed()), "{}", sum.name);
        let [valuation, market, interest, discount, limit] = sum.figures;
        match gauge {
            // Nothing of S1 to S12 has a valuation above zero and a negative limit.
            Gauge::Empty => assert!(valuation <= 0, "{}", sum.name),
            Gauge::Over(_) => panic!("{}", sum.name),
            Gauge::Used(shown) => {
                assert!(valuation > 0 && limit >= 0, "{}", sum.name);
                let quotient = Quotient { dividend: market + interest - discount, divisor: valuation };
                assert!(quotient.is_nearest(shown.to_bits()), "{}", sum.name);
            }
        }
    }
}

/// S4 with rubles: risk takes 32,000 of the valuation.
fn s4(rubles: i64) -> World {
    account(&[(1, rubles), (obligation(0, 2), 10)])
}

#[test]
fn nothing_to_show_comes_first() {
    for rubles in [0, 99_999, 100_000] {
        assert_eq!(gauge(&s4(rubles)), Gauge::Empty, "though the limit is negative");
    }
    assert_eq!(gauge(&account(&[])), Gauge::Empty);
    assert_eq!(gauge(&account(&[(1, -1)])), Gauge::Empty);
}

#[test]
fn over_carries_the_shortfall() {
    for (rubles, shortfall) in [(100_001, 31_999.0), (110_000, 22_000.0), (131_998, 2.0), (131_999, 1.0)] {
        assert_eq!(gauge(&s4(rubles)), Gauge::Over(shortfall));
    }
}

#[test]
fn used_begins_at_a_limit_of_0() {
    assert_eq!(used(&s4(132_000)), 0x3ff0_0000_0000_0000, "1");
    assert_eq!(used(&s4(132_001)), 0x3fef_ffbe_774e_eae3, "32,000 / 32,001");
    assert_eq!(used(&s4(164_000)), 0x3fe0_0000_0000_0000, "a half");
    assert_eq!(used(&s4(196_000)), 0x3fd5_5555_5555_5555, "a third");
}

#[test]
fn no_risk_is_a_quotient_of_plus_0() {
    for rubles in [1, 2, 100_000_000_000_000] {
        assert_eq!(used(&account(&[(1, rubles)])), 0);
    }
}

/// S11 with rubles: 50,000 and 3,000 of risk, 10,000 of discount.
#[test]
fn the_discount_is_taken_off() {
    let s11 = |rubles| {
        let mut world = account(&[(1, rubles), (claim(0, 1), 10), (obligation(1, 1), 10)]);
        world.list(1, &row_a());
        world
    };
    assert_eq!(gauge(&s11(42_999)), Gauge::Over(1.0));
    assert_eq!(used(&s11(43_000)), 0x3ff0_0000_0000_0000);
    assert_eq!(used(&s11(86_000)), 0x3fe0_0000_0000_0000);
}

/// Nine million units of each of sixteen assets at 10^7 each, 1.44 × 10^15, and nine times 10^14 of rubles; each risk
/// is as much as the units are worth. Half long and half short in one group of 50 percent, half of the market risk comes
/// back.
#[test]
fn the_greatest_figures_are_exact() {
    const UNITS: i64 = 1_440_000_000_000_000;
    const RUBLES: i64 = 900_000_000_000_000;
    let figures = |world: &World| app(world, 0).expect("a report").record.bits();
    let bits = |figures: [i64; 5]| figures.map(|figure| bits_of_whole(figure).cast_signed());
    let all_claimed = greatest(|_| true, RUBLES / 9);
    let shortfall = 2 * UNITS - (UNITS + RUBLES);
    assert_eq!(figures(&all_claimed), bits([UNITS + RUBLES, UNITS, UNITS, 0, -shortfall]));
    assert_eq!(gauge(&all_claimed), Gauge::Over(540_000_000_000_000.0));
    let all_owed = greatest(|_| false, -RUBLES / 9);
    assert_eq!(figures(&all_owed), bits([-UNITS - RUBLES, UNITS, UNITS, 0, -5_220_000_000_000_000]));
    assert_eq!(gauge(&all_owed), Gauge::Empty);
    let half = greatest(|asset| asset < 8, RUBLES / 9);
    assert_eq!(figures(&half), bits([RUBLES, UNITS, UNITS, UNITS / 2, RUBLES - 3 * UNITS / 2]));
    assert_eq!(gauge(&half), Gauge::Over(1_260_000_000_000_000.0));
}

fn greatest(is_claimed: impl Fn(usize) -> bool, rubles: i64) -> World {
    const MOST: i64 = 10_000_000;
    let mut row = [0; 64];
    row[..13].copy_from_slice(&[1, MOST, 10_000, 10_000, 0, 0, 10_000, 10_000, 10_000, 10_000, 0, 0, 1]);
    for date in 0..8 {
        row[16 + 5 * date..21 + 5 * date].copy_from_slice(&[0, -MOST, MOST, -MOST, MOST]);
    }
    let mut world = account(&[]);
    world.groups[0] = 50;
    for asset in 0..16 {
        world.list(asset, &row);
        let units = if is_claimed(asset) { 1_000_000 } else { -1_000_000 };
        world.block(0)[collateral(asset)] = units;
        for date in 0..8 {
            let number = if units > 0 { claim(asset, date) } else { obligation(asset, date) };
            world.block(0)[number] = 1_000_000;
        }
    }
    world.block(0)[1..10].fill(rubles);
    world
}

#[test]
fn refusals_are_the_reports() {
    let mut world = s4(0);
    assert_eq!(app(&world, 15), Err(4));
    world.block(15)[10] = 1;
    assert_eq!(app(&world, 15), Err(6));
    world.block(0)[collateral(3)] = 1;
    assert_eq!(app(&world, 0), Err(6), "an unlisted holding");
    for account in [16, -1, i64::MIN, i64::MAX] {
        assert_eq!(app(&world, account), Err(3));
    }
    world.own[..64].copy_from_slice(&row_a());
    world.own[2] = 9_000;
    assert_eq!(app(&world, 16), Err(13));
    world.groups[7] = 51;
    assert_eq!(app(&world, 16), Err(2));
    world.own.push(0);
    assert_eq!(app(&world, 16), Err(1));
}

#[test]
fn the_count_of_the_feed_is_asked_before_all_else() {
    let good = s4(0);
    let mut broken = s4(0);
    broken.groups[7] = 51;
    for (world, account) in [(&good, 0), (&good, 15), (&good, 16), (&broken, 0)] {
        for count in [0, 1, 4, 6, 10, 288] {
            let mut feed = vec![-9; count];
            let answer = calls::app(&world.book, &world.lent(), account, &mut feed);
            assert_eq!((calls::code(&answer), feed), (1, vec![-9; count]));
        }
    }
}

#[test]
fn what_goes_out_is_read_back() {
    for rubles in [0, 110_000, 132_001, 99_999_999_999_999] {
        let record = app(&s4(rubles), 0).expect("a report").record;
        assert_eq!(calls::unapp(&record.bits()), Ok(record));
    }
}
