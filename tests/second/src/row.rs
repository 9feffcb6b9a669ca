//! Document 01, "Row": the 64 numbers of an asset in a table, and the rule of each.

use crate::units::*;

pub type Row = [i64; ROW];

/// Row kinds, number 0 of a row.
pub const UNLISTED: i64 = 0;
pub const SECURITY: i64 = 1;
/// Currency or metal.
pub const CURRENCY: i64 = 2;
pub const COMMODITY: i64 = 3;

pub const KIND: usize = 0;
pub const PRICE: usize = 1;
pub const ACCEPTANCE_SHARE: usize = 2;
pub const POOL_SHARE: usize = 3;
pub const COVERED_SALES: usize = 4;
pub const SPECIAL_DELIVERY: usize = 5;
pub const FALL: usize = 6;
pub const RISE: usize = 7;
pub const RAISED_FALL: usize = 8;
pub const RAISED_RISE: usize = 9;
pub const MARKET_LIMIT: usize = 10;
pub const INTEREST_LIMIT: usize = 11;
pub const GROUP: usize = 12;
const FIRST_DATE: usize = 16;

/// Number 4, covered sales.
pub const RECORDED: i64 = 0;
pub const NOT_RECORDED: i64 = 1;
pub const PARTIAL: i64 = 2;

/// The five numbers of a date.
#[derive(Clone, Copy)]
pub struct Date {
    pub mid: i64,
    pub low: i64,
    pub up: i64,
    pub outer_low: i64,
    pub outer_up: i64,
}

/// Numbers of a date, and which of them is which.
pub const DATE: usize = 5;
pub const MID: usize = 0;
pub const LOW: usize = 1;
pub const UP: usize = 2;
pub const OUTER_LOW: usize = 3;
pub const OUTER_UP: usize = 4;
const AFTER_DATES: usize = FIRST_DATE + DATE * DATES;

/// Where a date's five numbers start: 16 + 5d.
pub fn date_start(date: usize) -> usize {
    FIRST_DATE + DATE * date
}

pub fn date(row: &Row, date: usize) -> Date {
    let start = date_start(date);
    Date {
        mid: row[start + MID],
        low: row[start + LOW],
        up: row[start + UP],
        outer_low: row[start + OUTER_LOW],
        outer_up: row[start + OUTER_UP],
    }
}

/// Which date a number of the row is of, and which of its five it is.
pub fn date_of(number: usize) -> Option<(usize, usize)> {
    (FIRST_DATE..AFTER_DATES).contains(&number).then(|| ((number - FIRST_DATE) / DATE, (number - FIRST_DATE) % DATE))
}

/// The least and the greatest value a number may have.
#[derive(Clone, Copy)]
pub struct Bounds {
    pub lowest: i64,
    pub highest: i64,
}

impl Bounds {
    const ZERO: Bounds = Bounds::new(0, 0);

    const fn new(lowest: i64, highest: i64) -> Bounds {
        Bounds { lowest, highest }
    }

    pub fn contain(self, number: i64) -> bool {
        self.lowest <= number && number <= self.highest
    }
}

/// What each number before the dates may be in a listed row, given the numbers before it. Every rule is of this form: a
/// rule over two numbers is asked at the later one. Where an earlier number is broken, the bounds after it mean nothing.
fn head_bounds(row: &Row) -> [Bounds; FIRST_DATE] {
    let mut bounds = [Bounds::ZERO; FIRST_DATE];
    bounds[KIND] = Bounds::new(SECURITY, COMMODITY);
    bounds[PRICE] = Bounds::new(1, MOST_PRICE);
    bounds[ACCEPTANCE_SHARE] = Bounds::new(0, WHOLE);
    bounds[POOL_SHARE] = Bounds::new(0, WHOLE);
    bounds[COVERED_SALES] = Bounds::new(RECORDED, PARTIAL);
    bounds[SPECIAL_DELIVERY] = Bounds::new(0, 1);
    bounds[FALL] = Bounds::new(0, WHOLE);
    bounds[RISE] = Bounds::new(0, WHOLE);
    bounds[RAISED_FALL] = Bounds::new(rule!(row[FALL]; RaisedFallBelowBase => 0), WHOLE);
    bounds[RAISED_RISE] = Bounds::new(row[RISE], WHOLE);
    if rule!(row[KIND] == COMMODITY; CommodityRatesUnequal => false) {
        bounds[RISE] = Bounds::new(row[FALL], row[FALL]);
        // Number 8 is at least number 6, which is number 7, so the equality says all.
        bounds[RAISED_RISE] = Bounds::new(row[RAISED_FALL], row[RAISED_FALL]);
    }
    bounds[MARKET_LIMIT] = Bounds::new(0, MOST_CONCENTRATION);
    bounds[INTEREST_LIMIT] = Bounds::new(0, MOST_CONCENTRATION);
    bounds[GROUP] = Bounds::new(0, GROUPS as i64);
    bounds
}

/// The same for the five numbers of a date. Saturating, because an unchecked price or mid may be any number; a sound one
/// never comes near 64 bits.
fn date_bounds(price: i64, date: &Date) -> [Bounds; DATE] {
    let lowest = date.mid.saturating_sub(WIDEST);
    let highest = date.mid.saturating_add(WIDEST);
    [
        Bounds::new(0i64.saturating_sub(price), MOST_PRICE.saturating_sub(price)),
        Bounds::new(lowest, date.mid),
        Bounds::new(date.mid, highest),
        Bounds::new(lowest, rule!(date.low; OuterLowAboveLow => date.mid)),
        Bounds::new(date.up, highest),
    ]
}

/// The same for every number of a listed row.
pub fn bounds(row: &Row) -> [Bounds; ROW] {
    let mut bounds = [Bounds::ZERO; ROW];
    bounds[..FIRST_DATE].copy_from_slice(&head_bounds(row));
    for number in 0..DATES {
        let five = date_bounds(row[PRICE], &date(row, number));
        bounds[date_start(number)..date_start(number + 1)].copy_from_slice(&five);
    }
    bounds
}

/// The first number of a row that breaks its rule, the row taken by itself.
pub fn first_broken(row: &Row) -> Option<usize> {
    if row[KIND] == UNLISTED {
        return row.iter().position(|&number| number != 0);
    }
    let of_date = |number| {
        let of_five = first_outside(&row[date_start(number)..], &date_bounds(row[PRICE], &date(row, number)))?;
        Some(date_start(number) + of_five)
    };
    let of_zeros = || Some(AFTER_DATES + first_outside(&row[AFTER_DATES..], &[Bounds::ZERO; ROW - AFTER_DATES])?);
    first_outside(row, &head_bounds(row)).or_else(|| (0..DATES).find_map(of_date)).or_else(of_zeros)
}

/// Of as many numbers as there are bounds.
fn first_outside(numbers: &[i64], bounds: &[Bounds]) -> Option<usize> {
    numbers.iter().zip(bounds).position(|(&number, bounds)| !bounds.contain(number))
}
