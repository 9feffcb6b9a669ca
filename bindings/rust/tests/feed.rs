//! The app's feed: figures as floats and their bits, each gauge, figures too large, reading back and refusals.

use single_limit::book::block_at;
use single_limit::names::*;
use single_limit::{Book, Floats, Gauge, Refusal, Tables, calls};

const INFINITY: u64 = 0x7ff0_0000_0000_0000;
const MINUS: u64 = 1 << 63;

/// Account 0 with so many kopecks and, at date 1, a claim of 10 of asset 0 and an obligation of 10 of asset 1: document 01's S11.
fn spread(rubles: i64) -> (Book, Tables) {
    let (mut book, mut tables) = (Book::default(), Tables::default());
    for asset in 0..2 {
        let row = &mut tables.clearing[asset];
        row[..ROW_SPARE].copy_from_slice(&[1, 10_000, 5_000, 10_000, 0, 0, 2_000, 3_000, 4_000, 5_000, 100, 100, 1]);
        for date in row[ROW_DATES..ROW_REST].chunks_mut(DATE_LENGTH) {
            date.copy_from_slice(&[0, -100, 200, -200, 300]);
        }
    }
    tables.groups[0] = 25;
    book.open(0, ACCOUNT_ORDINARY, 0).expect("opens");
    let numbers = book.numbers_mut();
    numbers[BLOCK_RUBLE_COLLATERAL] = rubles;
    numbers[single_limit::book::claim_at(0, 0, 1)] = 10;
    numbers[single_limit::book::obligation_at(0, 1, 1)] = 10;
    (book, tables)
}

#[test]
fn the_figures_and_their_bits() {
    let (book, tables) = spread(100_000);
    let feed = book.app(&tables, 0).expect("feeds");
    let wanted = Floats { valuation: 1e5, market_risk: 5e4, interest_risk: 3e3, discount: 1e4, limit: 5.7e4 };
    assert_eq!(feed.figures, wanted);
    assert_eq!(feed.bits, wanted.bits());
    assert_eq!(feed.bits[FIGURE_VALUATION], 0x40f8_6a00_0000_0000);
    assert_eq!(calls::app_read(&feed.bits), Ok(wanted));
}

#[test]
fn each_gauge() {
    let gauges = [
        (100_000, Gauge::Used(0.43)),
        (43_000, Gauge::Used(1.0)),
        (42_999, Gauge::Over(1.0)),
        (1, Gauge::Over(42_999.0)),
        (0, Gauge::Empty),
        (-1, Gauge::Empty),
    ];
    for (rubles, gauge) in gauges {
        let (book, tables) = spread(rubles);
        assert_eq!(book.app(&tables, 0).expect("feeds").gauge, gauge, "{rubles} kopecks");
    }
}

#[test]
fn zeros() {
    let (mut book, tables) = (Book::default(), Tables::default());
    book.open(0, ACCOUNT_ORDINARY, 0).expect("opens");
    assert_eq!(book.app(&tables, 0).expect("feeds").bits, [0; 5], "not -0.0");
}

#[test]
fn a_refused_feed() {
    let (book, mut tables) = spread(0);
    assert_eq!(book.app(&tables, 16), Err(Refusal::NoAccount));
    assert_eq!(book.app(&tables, 1), Err(Refusal::NotOpen));
    assert_eq!(calls::app(&[0; 5], tables.lent(), 16), Err(Refusal::WrongLength));
    tables.groups[7] = 51;
    assert_eq!(book.app(&tables, 0), Err(Refusal::BrokenNumber));
}

/// Accounts on one settlement code, each with as much as a block can hold, 2,340,000,000,000,000 kopecks: four of them come beyond 2^53.
#[test]
fn figures_too_large() {
    let (mut book, mut tables) = (Book::default(), Tables::default());
    for asset in 0..ASSETS {
        tables.clearing[asset][..ROW_POOL_SHARE].copy_from_slice(&[ASSET_SECURITY, MOST_PRICE, WHOLE]);
    }
    for account in 0..4 {
        book.open(account, ACCOUNT_ORDINARY, 1).expect("opens");
        let block = &mut book.numbers_mut()[block_at(account as usize, 0)..][..BLOCK_LENGTH];
        block[BLOCK_RUBLE_COLLATERAL..BLOCK_SPARE].fill(MOST_RUBLES);
        for holding in block[BLOCK_HOLDINGS..].chunks_mut(HOLDING_LENGTH) {
            holding[..HOLDING_OBLIGATIONS].fill(MOST_UNITS);
        }
        let valuation = 2_340_000_000_000_000 * (account + 1);
        assert_eq!(book.report(&tables, 0).expect("reports").valuation, valuation);
        let fed = book.app(&tables, 0).map(|feed| feed.figures.valuation);
        assert_eq!(fed, if valuation < 1 << 53 { Ok(valuation as f64) } else { Err(Refusal::OutOfBounds) });
    }
}

#[test]
fn reading_back() {
    let bits = [1, MINUS, INFINITY, MINUS | INFINITY, 0];
    assert_eq!(calls::app_read(&bits).map(Floats::bits), Ok(bits), "any pattern but a NaN's");
    for at in 0..bits.len() {
        for nan in [INFINITY + 1, u64::MAX] {
            let mut other = bits;
            other[at] = nan;
            assert_eq!(calls::app_read(&other), Err(Refusal::OutOfBounds));
        }
    }
    for length in [0, 4, 6] {
        assert_eq!(calls::app_read(&[u64::MAX; 6][..length]), Err(Refusal::WrongLength));
    }
}
