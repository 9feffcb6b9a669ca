//! Document 01's session, its sums S1 to S12, the orders at the edge, the cover test, settlement codes and refusals, by the crate's types.

use single_limit::book::{block_at, claim_at, collateral_at, obligation_at, ruble_net_at};
use single_limit::names::*;
use single_limit::tables::date_at;
use single_limit::{Book, Figures, Order, Refusal, Row, Tables, Unsound, calls};

fn row_a() -> Row {
    let mut row = [0; ROW_LENGTH];
    let head = [ASSET_SECURITY, 10_000, 5_000, 10_000, SALES_RECORDED, 0, 2_000, 3_000, 4_000, 5_000, 100, 100, 1];
    row[..head.len()].copy_from_slice(&head);
    for date in 0..DATES {
        let five = [0, -100, 200, -200, 300];
        row[date_at(date, DATE_MID)..][..DATE_LENGTH].copy_from_slice(&five);
    }
    row
}

/// An open account of a kind, asset 0 with row A, group 1 at 25 percent.
fn start(kind: i64) -> (Book, Tables) {
    let (mut book, mut tables) = (Book::default(), Tables::default());
    tables.clearing[0] = row_a();
    tables.groups[0] = 25;
    book.open(0, kind, 0).expect("opens");
    (book, tables)
}

fn five(figures: Figures) -> [i64; 5] {
    let Figures { valuation, market_risk, interest_risk, discount, limit } = figures;
    [valuation, market_risk, interest_risk, discount, limit]
}

/// A sum: the account's kind, numbers of row A that are otherwise, numbers of the book, and the figures.
fn sum(name: &str, kind: i64, otherwise: &[(usize, i64)], held: &[(usize, i64)], figures: [i64; 5]) {
    let (mut book, mut tables) = start(kind);
    for &(number, value) in otherwise {
        tables.clearing[0][number] = value;
    }
    for &(place, value) in held {
        book.numbers_mut()[place] = value;
    }
    assert_eq!(book.report(&tables, 0).map(five), Ok(figures), "{name}");
}

#[test]
fn the_session() {
    let (mut book, tables) = (Book::default(), Tables::default());
    assert_eq!(book.open(0, ACCOUNT_ORDINARY, 0), Ok(()));
    assert_eq!(book.move_collateral(&tables, 0, RUBLES, 100_000), Ok(()));
    assert_eq!(book.report(&tables, 0).map(five), Ok([100_000, 0, 0, 0, 100_000]));
}

#[test]
fn sums_of_collateral() {
    let (forty, sold) = ((collateral_at(0, 0), 40), (obligation_at(0, 0, 0), 30));
    let s2 = [200_000, 40_000, 2_000, 0, 158_000];
    sum("S1", ACCOUNT_ORDINARY, &[], &[], [0; 5]);
    sum("S2", ACCOUNT_ORDINARY, &[], &[forty], s2);
    sum("S2 in a pool", ACCOUNT_POOL, &[], &[forty], s2);
    sum("S3", ACCOUNT_ORDINARY, &[], &[forty, sold], [100_000, 20_000, 1_000, 0, 79_000]);
    sum("S6", ACCOUNT_POOL_OF_THE_LIST, &[], &[forty], [400_000, 80_000, 4_000, 0, 316_000]);
    let not_recorded = [(ROW_COVERED_SALES, SALES_NOT_RECORDED)];
    sum("S7", ACCOUNT_ORDINARY, &not_recorded, &[forty, sold], [-300_000, 90_000, 6_000, 0, -396_000]);
    let partial = [(ROW_ACCEPTANCE_SHARE, 0), (ROW_COVERED_SALES, SALES_PARTIAL)];
    sum("S8", ACCOUNT_ORDINARY, &partial, &[forty, sold], [-300_000, 0, 0, 0, -300_000]);
    let special = [(ROW_SPECIAL_DELIVERY, 1)];
    let both = [forty, (claim_at(0, 0, 1), 30), (obligation_at(0, 0, 2), 30)];
    sum("S10", ACCOUNT_ORDINARY, &special, &both, [0, 90_000, 3_000, 0, -93_000]);
}

#[test]
fn sums_of_trades() {
    sum("S4", ACCOUNT_ORDINARY, &[], &[(obligation_at(0, 0, 2), 10)], [-100_000, 30_000, 2_000, 0, -132_000]);
    sum("S5", ACCOUNT_ORDINARY, &[], &[(claim_at(0, 0, 1), 150)], [1_500_000, 400_000, 20_000, 0, 1_080_000]);
    let currency = [(ROW_KIND, ASSET_CURRENCY_OR_METAL), (ROW_ACCEPTANCE_SHARE, 0)];
    sum("S9", ACCOUNT_ORDINARY, &currency, &[(claim_at(0, 0, 0), 10)], [0, 20_000, 1_000, 0, -21_000]);
    let mut small = vec![(ROW_PRICE, 3), (ROW_FALL, 1), (ROW_RISE, 1), (ROW_RAISED_FALL, 1), (ROW_RAISED_RISE, 1)];
    small.extend((ROW_DATES..ROW_REST).map(|number| (number, 0)));
    sum("S12", ACCOUNT_ORDINARY, &small, &[(claim_at(0, 0, 1), 1)], [3, 1, 0, 0, 2]);
}

#[test]
fn a_spread() {
    let (mut book, mut tables) = start(ACCOUNT_ORDINARY);
    tables.clearing[1] = row_a();
    book.numbers_mut()[claim_at(0, 0, 1)] = 10;
    book.numbers_mut()[obligation_at(0, 1, 1)] = 10;
    assert_eq!(book.report(&tables, 0).map(five), Ok([0, 50_000, 3_000, 10_000, -43_000]), "S11");
}

#[test]
fn orders_at_the_edge() {
    let (mut book, tables) = start(ACCOUNT_ORDINARY);
    let ten = Order { asset: 0, date: 1, side: BUY, quantity: 10, money: 100_000 };
    assert_eq!(book.move_collateral(&tables, 0, RUBLES, 20_999), Ok(()));
    let before = book.clone();
    assert_eq!(book.order(&tables, 0, &ten), Err(Refusal::NegativeLimit));
    assert!(book == before, "a refusal leaves the book as it was");
    assert_eq!(book.move_collateral(&tables, 0, RUBLES, 1), Ok(()));
    assert_eq!(book.order(&tables, 0, &ten), Ok(()));
    assert_eq!(book.report(&tables, 0).expect("reports").limit, 0);
    assert_eq!(book.numbers()[ruble_net_at(0, 1)], -100_000);
    assert_eq!(book.roll(0), Ok(()));
    assert_eq!(book.numbers()[claim_at(0, 0, 0)], 10);
}

#[test]
fn the_cover_test() {
    let (_, mut tables) = start(ACCOUNT_ORDINARY);
    for (raised_fall, passes) in [(4_000, true), (9_700, true), (9_800, false)] {
        tables.clearing[0][ROW_RAISED_FALL] = raised_fall;
        assert_eq!(tables.covers(0), passes, "raised fall {raised_fall}");
    }
    assert!(!tables.covers(1) && !tables.covers(16));
}

/// Accounts 1 and 2 on one settlement code, account 0 on none: 40 units in one and an obligation of 30 in the other. Collateral is adjusted within
/// each block, so 20 of the 40 count, as in S2, and the code is short of 10, as in S4; in one block the 40 would cover the sale, as in S3.
#[test]
fn two_accounts_on_one_settlement_code() {
    let (mut book, tables) = start(ACCOUNT_ORDINARY);
    for account in 1..3 {
        assert_eq!(book.open(account, ACCOUNT_ORDINARY, LAST_SETTLEMENT_CODE), Ok(()));
        assert_eq!(book.numbers()[block_at(account as usize, BLOCK_SETTLEMENT_CODE)], 15);
    }
    book.numbers_mut()[collateral_at(1, 0)] = 40;
    book.numbers_mut()[obligation_at(2, 0, 0)] = 30;
    for account in 1..3 {
        assert_eq!(book.report(&tables, account).map(five), Ok([-100_000, 30_000, 2_000, 0, -132_000]));
    }
    assert_eq!(book.move_collateral(&tables, 1, RUBLES, 132_000), Ok(()));
    assert_eq!(book.report(&tables, 2).map(|figures| figures.limit), Ok(0));
    assert_eq!(book.move_collateral(&tables, 1, RUBLES, -1), Err(Refusal::NegativeLimit));
    assert_eq!(book.report(&tables, 0).map(five), Ok([0; 5]));
}

#[test]
fn settlement_codes_that_cannot_be_shared() {
    let (mut book, tables) = start(ACCOUNT_ORDINARY);
    for code in [-1, LAST_SETTLEMENT_CODE + 1] {
        assert_eq!(book.open(1, ACCOUNT_ORDINARY, code), Err(Refusal::WrongChoice));
    }
    for account in 1..5 {
        assert_eq!(book.open(account, ACCOUNT_POOL, 7), Ok(()));
    }
    let before = book.clone();
    assert_eq!(book.open(5, ACCOUNT_POOL, 7), Err(Refusal::WrongChoice), "a fifth");
    assert!(book == before, "a refusal leaves the book as it was");
    book.numbers_mut()[block_at(4, BLOCK_KIND)] = ACCOUNT_ORDINARY;
    for account in 1..5 {
        assert_eq!(book.report(&tables, account), Err(Refusal::BrokenBlock), "two kinds");
    }
    assert_eq!(book.report(&tables, 0).map(five), Ok([0; 5]));
}

#[test]
fn refusals() {
    let (mut book, mut tables) = start(ACCOUNT_ORDINARY);
    let order = |date, quantity| Order { asset: 0, date, side: BUY, quantity, money: 0 };
    assert_eq!(calls::roll(&mut [0; 5], 0), Err(Refusal::WrongLength));
    assert_eq!(book.roll(16), Err(Refusal::NoAccount));
    assert_eq!(book.report(&tables, 1), Err(Refusal::NotOpen));
    assert_eq!(book.open(0, ACCOUNT_POOL, 0), Err(Refusal::AlreadyOpen));
    assert_eq!(book.order(&tables, 0, &order(8, 1)), Err(Refusal::WrongChoice));
    assert_eq!(book.order(&tables, 0, &order(7, 0)), Err(Refusal::WrongAmount));
    assert_eq!(book.move_collateral(&tables, 0, 0, -1), Err(Refusal::OutOfBounds));
    book.numbers_mut()[block_at(2, BLOCK_SPARE)] = 1;
    assert_eq!(book.roll(2), Err(Refusal::BrokenBlock));
    assert_eq!(tables.check(), Ok(()));
    tables.own[3][ROW_KIND] = ASSET_COMMODITY;
    let place = PLACE_OWN + 3 * ROW_LENGTH;
    assert_eq!(tables.check(), Err(Unsound { refusal: Refusal::BrokenNumber, place }));
    assert_eq!(book.report(&tables, 0), Err(Refusal::BrokenNumber));
}

#[test]
fn an_own_row_may_only_be_stricter() {
    let (book, mut tables) = start(ACCOUNT_ORDINARY);
    tables.own[0] = tables.clearing[0];
    assert_eq!(tables.check(), Ok(()));
    tables.own[0][ROW_ACCEPTANCE_SHARE] = 9_000;
    let laxer = Unsound { refusal: Refusal::LaxerOwnRow, place: PLACE_OWN + ROW_ACCEPTANCE_SHARE };
    assert_eq!(tables.check(), Err(laxer));
    assert_eq!(laxer.to_string(), "the table check finds an own row that is laxer than its clearing row, place 1026");
    assert_eq!(book.report(&tables, 16), Err(Refusal::LaxerOwnRow));
    tables.groups[7] = 51;
    assert_eq!(book.report(&tables, 16), Err(Refusal::BrokenNumber));
}

#[test]
fn a_refusal_in_words() {
    assert_eq!(
        Refusal::NegativeLimit.to_string(),
        "limit after a withdrawal would be negative, or after an order negative and not raised by it"
    );
    let codes: Vec<u8> = Refusal::ALL.iter().map(|refusal| refusal.code()).collect();
    assert_eq!(codes, [1, 2, 3, 4, 5, 6, 7, 8, 9, 10, 13]);
}
