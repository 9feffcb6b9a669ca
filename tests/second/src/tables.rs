//! Document 01, "Units and sizes": the lent tables and groups, the row in force, and the places that the table check
//! names; with #103 of document 02.

use crate::block::is_zero;
use crate::row::{self, Row};
use crate::stricter;
use crate::units::*;

/// Tables and groups as a caller lends them, of any length.
#[derive(Clone, Copy)]
pub struct Lent<'a> {
    pub clearing: &'a [i64],
    pub own: &'a [i64],
    pub groups: &'a [i64],
}

/// Tables and groups of the right lengths, cut into rows.
#[derive(Clone, Copy)]
pub struct Tables<'a> {
    pub clearing: &'a [Row; ASSETS],
    pub own: &'a [Row; ASSETS],
    /// The discount percent of groups 1 to 8.
    pub groups: &'a [i64; GROUPS],
}

impl<'a> Lent<'a> {
    /// None where a length is wrong.
    pub fn tables(&self) -> Option<Tables<'a>> {
        let clearing = rule!(self.clearing; LongClearingPasses => cut(self.clearing, TABLE));
        let own = rule!(self.own; LongOwnPasses => cut(self.own, TABLE));
        let groups = rule!(self.groups; LongGroupsPass => cut(self.groups, GROUPS));
        Some(Tables { clearing: rows(clearing)?, own: rows(own)?, groups: groups.try_into().ok()? })
    }
}

/// For mutants: what stands beyond the right length is not looked at.
#[cfg(test)]
fn cut(numbers: &[i64], length: usize) -> &[i64] {
    &numbers[..numbers.len().min(length)]
}

fn rows(table: &[i64]) -> Option<&[Row; ASSETS]> {
    match table.as_chunks() {
        (rows, []) => rows.try_into().ok(),
        _ => None,
    }
}

impl<'a> Tables<'a> {
    /// The row in force: the own row where present, else the clearing row.
    pub fn row_in_force(&self, asset: usize) -> &'a Row {
        let (own, clearing) = (&self.own[asset], &self.clearing[asset]);
        if is_present(own) {
            rule!(own;
                OwnRowIgnored => clearing,
                OwnShareIgnored => mixed(own, clearing, |number| number == row::ACCEPTANCE_SHARE),
                OwnPoolShareIgnored => mixed(own, clearing, |number| number == row::POOL_SHARE),
                OwnSpecialIgnored => mixed(own, clearing, |number| number == row::SPECIAL_DELIVERY),
                OwnFallIgnored => mixed(own, clearing, |number| number == row::FALL),
                OwnRiseIgnored => mixed(own, clearing, |number| number == row::RISE),
                OwnRaisedFallIgnored => mixed(own, clearing, |number| number == row::RAISED_FALL),
                OwnRaisedRiseIgnored => mixed(own, clearing, |number| number == row::RAISED_RISE),
                OwnMarketLimitIgnored => mixed(own, clearing, |number| number == row::MARKET_LIMIT),
                OwnInterestLimitIgnored => mixed(own, clearing, |number| number == row::INTEREST_LIMIT),
                OwnLowsIgnored => mixed(own, clearing, |number| is_of_date(number, row::LOW)),
                OwnUpsIgnored => mixed(own, clearing, |number| is_of_date(number, row::UP)),
                OwnOuterLowsIgnored => mixed(own, clearing, |number| is_of_date(number, row::OUTER_LOW)),
                OwnOuterUpsIgnored => mixed(own, clearing, |number| is_of_date(number, row::OUTER_UP)))
        } else {
            clearing
        }
    }

    /// On sound tables the own row is present over a listed clearing row only.
    pub fn is_listed(&self, asset: usize) -> bool {
        self.clearing[asset][row::KIND] != row::UNLISTED
    }

    /// The place of the first broken number. Clearing 0 to 1023, own 1024 to 2047, groups 2048 to 2055, in that order.
    pub fn first_broken(&self) -> Option<usize> {
        let clearing = (0..ASSETS).find_map(|asset| {
            let number = row::first_broken(&self.clearing[asset])?;
            Some(clearing_place(asset, number))
        });
        let own = || {
            (0..ASSETS).find_map(|asset| {
                let number = first_broken_own(&self.own[asset], &self.clearing[asset])?;
                Some(own_place(asset, number))
            })
        };
        let group = || {
            let number = self.groups.iter().position(|percent| !(0..=MOST_DISCOUNT).contains(percent))?;
            Some(group_place(number))
        };
        clearing.or_else(own).or_else(group)
    }

    /// #103: the place of the first number in which an own row is laxer than the clearing row. Absent rows are not
    /// compared.
    pub fn first_laxer(&self) -> Option<usize> {
        let laxer = |asset: usize| {
            let (own, clearing) = (&self.own[asset], &self.clearing[rule!(asset; FirstClearingRowCompared => 0)]);
            if rule!(!is_present(own); AbsentRowCompared => false) {
                return None;
            }
            Some(own_place(asset, stricter::first_laxer(own, clearing)?))
        };
        rule!((0..ASSETS).find_map(laxer);
            FirstOwnRowAloneCompared => laxer(0),
            LastOwnRowNotCompared => (0..ASSETS - 1).find_map(laxer),
            OwnRowsFromTheLast => (0..ASSETS).rev().find_map(laxer))
    }
}

/// For mutants: the own row with some of the clearing row's numbers. Each that comes up is kept for good, once.
#[cfg(test)]
fn mixed(own: &Row, clearing: &Row, is_clearings: impl Fn(usize) -> bool) -> &'static Row {
    use std::cell::RefCell;
    use std::collections::HashSet;
    thread_local! {
        static KEPT: RefCell<HashSet<&'static Row>> = RefCell::default();
    }
    let row = std::array::from_fn(|number| if is_clearings(number) { clearing[number] } else { own[number] });
    KEPT.with_borrow_mut(|kept| {
        if !kept.contains(&row) {
            kept.insert(Box::leak(Box::new(row)));
        }
        *kept.get(&row).expect("kept")
    })
}

#[cfg(test)]
fn is_of_date(number: usize, wanted: usize) -> bool {
    row::date_of(number).is_some_and(|(_, of_five)| of_five == wanted)
}

/// An own row is absent if all zero.
pub fn is_present(own: &Row) -> bool {
    !is_zero(own)
}

/// A present own row has the kind of the listed clearing row; else it breaks at own number 0.
fn first_broken_own(own: &Row, clearing: &Row) -> Option<usize> {
    if !is_present(own) {
        return None;
    }
    let kind = clearing[row::KIND];
    if kind == row::UNLISTED || rule!(own[row::KIND] != kind; OwnKindNotCompared => false) {
        return Some(row::KIND);
    }
    row::first_broken(own)
}

/// Numbers of the three together: places 0 to 2055.
pub const PLACES: usize = 2 * TABLE + GROUPS;

pub fn clearing_place(asset: usize, number: usize) -> usize {
    ROW * asset + number
}

pub fn own_place(asset: usize, number: usize) -> usize {
    TABLE + ROW * asset + number
}

/// `number` counts from 0, for group 1.
pub fn group_place(number: usize) -> usize {
    2 * TABLE + number
}
