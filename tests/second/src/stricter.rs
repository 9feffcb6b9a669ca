//! Document 02, #103: our own rows may only be stricter. How each number of an own row may stand to the clearing row's,
//! and the first that does not stand so.

use Stand::*;

use crate::row::*;
use crate::units::ROW;

/// How an own number may stand to the clearing row's.
#[derive(Clone, Copy, Debug, PartialEq)]
pub enum Stand {
    Same,
    NoGreater,
    NoSmaller,
    /// The kind, and what is zero in every row: their rules leave nothing to compare.
    Free,
}

/// The same price, covered-sales mark and group; shares and concentration limits no greater; rates no smaller. Special
/// delivery is 0 or 1, and kept where set.
#[rustfmt::skip]
pub fn stand(number: usize) -> Stand {
    match number {
        PRICE => rule!(Same; PriceFree => Free, PriceNoGreater => NoGreater, PriceNoSmaller => NoSmaller),
        ACCEPTANCE_SHARE => rule!(NoGreater; ShareFree => Free, ShareSame => Same, ShareNoSmaller => NoSmaller),
        POOL_SHARE => rule!(NoGreater; PoolShareFree => Free, PoolShareSame => Same, PoolShareNoSmaller => NoSmaller),
        COVERED_SALES => rule!(Same; SalesFree => Free, SalesNoGreater => NoGreater, SalesNoSmaller => NoSmaller),
        SPECIAL_DELIVERY => rule!(NoSmaller; SpecialFree => Free, SpecialSame => Same, SpecialNoGreater => NoGreater),
        FALL => rule!(NoSmaller; FallFree => Free, FallSame => Same, FallNoGreater => NoGreater),
        RISE => rule!(NoSmaller; RiseFree => Free, RiseSame => Same, RiseNoGreater => NoGreater),
        RAISED_FALL => rule!(NoSmaller;
            RaisedFallFree => Free, RaisedFallSame => Same, RaisedFallNoGreater => NoGreater),
        RAISED_RISE => rule!(NoSmaller;
            RaisedRiseFree => Free, RaisedRiseSame => Same, RaisedRiseNoGreater => NoGreater),
        MARKET_LIMIT => rule!(NoGreater; MarketFree => Free, MarketSame => Same, MarketNoSmaller => NoSmaller),
        INTEREST_LIMIT => rule!(NoGreater; InterestFree => Free, InterestSame => Same, InterestNoSmaller => NoSmaller),
        GROUP => rule!(Same; GroupFree => Free, GroupNoGreater => NoGreater, GroupNoSmaller => NoSmaller),
        _ => rule!(stand_of_date(number);
            FirstDateAloneCompared => if number < date_start(1) { stand_of_date(number) } else { Free },
            LastDateNotCompared => if number < date_start(7) { stand_of_date(number) } else { Free }),
    }
}

/// The same mid; lows no higher, ups no lower, the outer ones too.
#[rustfmt::skip]
fn stand_of_date(number: usize) -> Stand {
    let Some((_, of_five)) = date_of(number) else { return Free };
    match of_five {
        MID => rule!(Same; MidFree => Free, MidNoGreater => NoGreater, MidNoSmaller => NoSmaller),
        LOW => rule!(NoGreater; LowFree => Free, LowSame => Same, LowNoSmaller => NoSmaller),
        UP => rule!(NoSmaller; UpFree => Free, UpSame => Same, UpNoGreater => NoGreater),
        OUTER_LOW => rule!(NoGreater; OuterLowFree => Free, OuterLowSame => Same, OuterLowNoSmaller => NoSmaller),
        _ => rule!(NoSmaller; OuterUpFree => Free, OuterUpSame => Same, OuterUpNoGreater => NoGreater),
    }
}

/// The numbers that are compared: 1 to 12 and 16 to 55.
pub fn compared() -> impl Iterator<Item = usize> {
    (0..ROW).filter(|&number| stand(number) != Free)
}

/// What an own number may be over the clearing row's, its rule within the row left aside.
pub fn bounds(number: usize, clearing: i64) -> Bounds {
    let (lowest, highest) = match stand(number) {
        Same => (clearing, clearing),
        NoGreater => (i64::MIN, rule!(clearing; EqualIsGreater => clearing.saturating_sub(1))),
        NoSmaller => (rule!(clearing; EqualIsSmaller => clearing.saturating_add(1)), i64::MAX),
        Free => (i64::MIN, i64::MAX),
    };
    Bounds { lowest, highest }
}

/// The first number, by rising number, in which an own row is laxer.
pub fn first_laxer(own: &Row, clearing: &Row) -> Option<usize> {
    let is_laxer = |&number: &usize| !bounds(number, clearing[number]).contain(own[number]);
    rule!((); EqualRowIsLaxer => if own == clearing { return Some(PRICE) });
    rule!((0..ROW).find(is_laxer);
        SharesAloneCompared => [ACCEPTANCE_SHARE, POOL_SHARE].into_iter().find(is_laxer),
        NumbersFromTheLast => (0..ROW).rev().find(is_laxer),
        DatesBeforeTheRest => (date_start(0)..ROW).chain(0..ROW).find(is_laxer),
        NumbersAsTheRequestNamesThem => as_the_request_names_them().find(is_laxer))
}

/// For a mutant: price, mids, covered sales, group; shares, limits; rates; lows, ups; special delivery.
#[cfg(test)]
fn as_the_request_names_them() -> impl Iterator<Item = usize> {
    let of_dates = |of_five: &'static [usize]| {
        (0..ROW).filter(move |&number| date_of(number).is_some_and(|(_, which)| of_five.contains(&which)))
    };
    let head = |numbers: &'static [usize]| numbers.iter().copied();
    head(&[PRICE])
        .chain(of_dates(&[MID]))
        .chain(head(&[COVERED_SALES, GROUP, ACCEPTANCE_SHARE, POOL_SHARE, MARKET_LIMIT, INTEREST_LIMIT]))
        .chain(head(&[FALL, RISE, RAISED_FALL, RAISED_RISE]))
        .chain(of_dates(&[LOW, OUTER_LOW]))
        .chain(of_dates(&[UP, OUTER_UP]))
        .chain(head(&[SPECIAL_DELIVERY]))
}
