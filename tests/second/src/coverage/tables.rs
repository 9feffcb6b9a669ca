//! Coverage of the table check: each number found broken first, and each bound seen from both sides.

use super::{stricter, tally::Tally};
use crate::generate::bounds_at;
use crate::row::{Bounds, KIND, UNLISTED};
use crate::tables::{Tables, group_place, own_place};
use crate::units::*;

const CLEARING: &str = "listed clearing row: number found broken first";
const OWN: &str = "own row: number found broken first";
const UNLISTED_ROW: &str = "unlisted clearing row: number found broken first";
const OVER_UNLISTED: &str = "own row over an unlisted one: number that is not zero";
const GROUP: &str = "group whose percent is found broken first";
const PERCENT: &str = "percent of a group";
const CLEARING_BOUNDS: &str = "clearing row: bounds, from both sides";
const OWN_BOUNDS: &str = "own row: bounds, from both sides";

/// Where a number can stand to its bounds.
const SIDES: [&str; 4] =
    ["one below the lowest of number", "lowest of number", "highest of number", "one above the highest of number"];
const PERCENTS: [i64; 4] = [-1, 0, MOST_DISCOUNT, MOST_DISCOUNT + 1];

pub fn expect(tally: &mut Tally) {
    tally.expect(CLEARING, 0..ROW);
    tally.expect(OWN, 0..ROW);
    tally.expect(UNLISTED_ROW, KIND + 1..ROW);
    tally.expect(OVER_UNLISTED, 0..ROW);
    tally.expect(GROUP, 1..=GROUPS);
    tally.expect(PERCENT, PERCENTS);
    for family in [CLEARING_BOUNDS, OWN_BOUNDS] {
        tally.expect(family, SIDES.iter().flat_map(|side| (0..ROW).map(move |number| format!("{side} {number}"))));
    }
    stricter::expect(tally);
}

/// Looks at the places set since the tables were last looked at.
pub fn count(tables: &Tables, touched: &[usize], tally: &mut Tally) {
    stricter::count(tables, touched, tally);
    let broken = tables.first_broken();
    if let Some(place) = broken {
        count_broken(tables, place, tally);
    }
    for &place in touched.iter().filter(|&&place| broken.is_none_or(|broken| broken == place)) {
        count_bounds(tables, place, tally);
    }
}

fn count_broken(tables: &Tables, place: usize, tally: &mut Tally) {
    let (asset, number) = (place % TABLE / ROW, place % ROW);
    if place >= group_place(0) {
        tally.count(GROUP, place - group_place(0) + 1);
    } else if place >= own_place(0, 0) {
        tally.count(OWN, number);
        let own = &tables.own[asset];
        let number = own.iter().position(|&number| number != 0);
        tally.count_if(!tables.is_listed(asset), OVER_UNLISTED, number.unwrap_or_default());
    } else {
        let unlisted = tables.clearing[asset][KIND] == UNLISTED;
        tally.count(if unlisted { UNLISTED_ROW } else { CLEARING }, number);
    }
}

/// A number at a bound of a sound row, or one past it where that broke the tables.
fn count_bounds(tables: &Tables, place: usize, tally: &mut Tally) {
    if place >= group_place(0) {
        let percent = tables.groups[place - group_place(0)];
        tally.count_if(PERCENTS.contains(&percent), PERCENT, percent);
        return;
    }
    let (asset, number) = (place % TABLE / ROW, place % ROW);
    let own = place >= own_place(0, 0);
    let row = if own { &tables.own[asset] } else { &tables.clearing[asset] };
    if row[KIND] == UNLISTED && number != KIND {
        return;
    }
    let family = if own { OWN_BOUNDS } else { CLEARING_BOUNDS };
    let Bounds { lowest, highest } = bounds_at(tables, place);
    for (side, value) in SIDES.into_iter().zip([lowest - 1, lowest, highest, highest + 1]) {
        tally.count_if(row[number] == value, family, format!("{side} {number}"));
    }
}
