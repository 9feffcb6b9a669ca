//! Coverage of document 02, #103: each number of an own row on either side of the clearing row's, laxer numbers beside
//! broken ones, and own numbers that decide figures. An answer against the rule is not expected and stops the count.

use super::tally::Tally;
use crate::block::Block;
use crate::interest::interest_risk;
use crate::joint::Joint;
use crate::market::market_risk;
use crate::row::{Row, SPECIAL_DELIVERY};
use crate::tables::{Tables, group_place, is_present, own_place};
use crate::units::*;

const FIRST: &str = "own row: number found laxer first";
const STAND: &str = "own number and the clearing row's, one below, equal, one above";
const SPECIAL: &str = "special delivery of the clearing row and of the own row";
const BESIDE: &str = "laxer number, and where the broken one beside it stands";
const PLACE: &str = "place that check answers with 13";
const SECOND: &str = "laxer number, and where a second one stands";
const ROWS: &str = "own row in force in a report";
const DECIDES: &str = "own number that decides a figure of a report";

const SIDES: [&str; 3] = ["one below", "equal", "one above"];
const ANSWERS: [&str; 2] = ["passes", "13"];
const SPECIALS: [&str; 4] = ["0 and 0: passes", "0 and 1: passes", "1 and 0: 13", "1 and 1: passes"];
const PLACES_BESIDE: [&str; 7] = [
    "clearing table",
    "own row before",
    "same row, lower number",
    "same number",
    "same row, higher number",
    "own row behind",
    "groups",
];
const SECONDS: [&str; 2] = ["same row", "own row behind"];

/// Whether a number one below the clearing row's, equal to it and one above it is laxer; written out by number. None
/// where nothing is compared.
fn is_laxer(number: usize) -> Option<[bool; 3]> {
    let same = [true, false, true];
    let no_greater = [false, false, true];
    let no_smaller = [true, false, false];
    let stands = match number {
        1 | 4 | 12 => same,
        2 | 3 | 10 | 11 => no_greater,
        5..=9 => no_smaller,
        16..56 => [same, no_greater, no_smaller, no_greater, no_smaller][(number - 16) % 5],
        _ => return None,
    };
    Some(stands)
}

fn title(number: usize, side: usize, is_laxer: bool) -> String {
    format!("{number}, {}: {}", SIDES[side], ANSWERS[usize::from(is_laxer)])
}

/// Numbers in which an own row may differ.
fn may_differ() -> impl Iterator<Item = usize> {
    (0..ROW).filter(|&number| is_laxer(number).is_some_and(|laxer| laxer != [true, false, true]))
}

pub fn expect(tally: &mut Tally) {
    let compared = || (0..ROW).filter_map(|number| Some((number, is_laxer(number)?)));
    tally.expect(FIRST, compared().map(|(number, _)| number));
    tally.expect(STAND, compared().flat_map(|(number, laxer)| [0, 1, 2].map(|side| title(number, side, laxer[side]))));
    tally.expect(SPECIAL, SPECIALS);
    tally.expect(BESIDE, PLACES_BESIDE);
    tally.expect(ROWS, ["equal", "stricter"]);
    tally.expect(DECIDES, may_differ());
}

/// Looks at the places set since the tables were last looked at.
pub fn count(tables: &Tables, touched: &[usize], tally: &mut Tally) {
    let laxer = tables.first_laxer();
    match (tables.first_broken(), laxer) {
        (Some(broken), Some(laxer)) => return tally.count(BESIDE, beside(broken, laxer)),
        (Some(_), None) => return,
        (None, Some(place)) => tally.count(FIRST, place % ROW),
        (None, None) => {}
    }
    for &place in touched.iter().filter(|&&place| place < group_place(0)) {
        let (asset, number) = (place % TABLE / ROW, place % ROW);
        let at_place = laxer == Some(own_place(asset, number));
        if is_present(&tables.own[asset]) && (at_place || laxer.is_none()) {
            count_stand(tables.own[asset][number], tables.clearing[asset][number], number, at_place, tally);
        }
    }
}

fn beside(broken: usize, laxer: usize) -> &'static str {
    let at = if broken < own_place(0, 0) {
        0
    } else if broken >= group_place(0) {
        6
    } else if broken / ROW == laxer / ROW {
        2 + (broken.cmp(&laxer) as i8 + 1) as usize
    } else if broken < laxer {
        1
    } else {
        5
    };
    PLACES_BESIDE[at]
}

fn count_stand(own: i64, clearing: i64, number: usize, laxer: bool, tally: &mut Tally) {
    let side = match own - clearing {
        by @ -1..=1 if is_laxer(number).is_some() => (by + 1) as usize,
        _ => return,
    };
    tally.count(STAND, title(number, side, laxer));
    let answer = ANSWERS[usize::from(laxer)];
    tally.count_if(number == SPECIAL_DELIVERY, SPECIAL, format!("{clearing} and {own}: {answer}"));
}

/// What call scripts alone show: the places that are named.
pub fn expect_places(tally: &mut Tally) {
    let numbers = || (0..ROW).filter(|&number| is_laxer(number).is_some());
    tally.expect(PLACE, (0..ASSETS).flat_map(|asset| numbers().map(move |number| own_place(asset, number))));
    tally.expect(SECOND, SECONDS);
}

/// Of a check that answers 13: its place, and what is still laxer when the own number there is the clearing row's.
pub fn count_place(tables: &Tables, place: usize, tally: &mut Tally) {
    tally.count(PLACE, place);
    let (asset, number) = (place % TABLE / ROW, place % ROW);
    let mut own = *tables.own;
    own[asset][number] = tables.clearing[asset][number];
    let Some(second) = (Tables { own: &own, ..*tables }).first_laxer() else { return };
    tally.count(SECOND, SECONDS[usize::from(second / ROW != place / ROW)]);
}

/// Of an asset with an own row in a report that is done: what would be otherwise with one number of the clearing row.
pub fn count_in_force(blocks: &[&Block], asset: usize, own: &Row, clearing: &Row, tally: &mut Tally) {
    tally.count(ROWS, if own == clearing { "equal" } else { "stricter" });
    let figures = |row: &Row| {
        Joint::of(blocks, asset, row)
            .map(|joint| [joint.valuation, market_risk(&joint.asset), interest_risk(&joint.asset)])
    };
    let right = figures(own);
    for number in may_differ().filter(|&number| own[number] != clearing[number]) {
        let mut row = *own;
        row[number] = clearing[number];
        tally.count_if(figures(&row) != right, DECIDES, number);
    }
}
