//! Coverage of the cover test: its edge from both sides, by either width, in either table, with mids of either sign.

use super::tally::Tally;
use crate::cover::passes_cover_test;
use crate::row::{self, Date, KIND, PRICE, RAISED_FALL, Row, UNLISTED, date_start};
use crate::script::{Buffers, Command};
use crate::tables::is_present;
use crate::units::{ASSETS, WHOLE};

const ASKED: &str = "cover test asked of";
const EDGE: &str = "cover test at its edge";

/// Outer low and outer up of date 0.
const OUTER: [(&str, usize); 2] = [("outer low", 3), ("outer up", 4)];
const NO_ASSET: &str = "no asset";
const NO_ROW: &str = "an unlisted row";
const ROWS: [&str; 2] = ["a clearing row", "an own row"];
const MIDS: [&str; 3] = ["a mid below 0", "a mid of 0", "a mid above 0"];
const EQUAL: &str = "both sides equal";

pub fn expect(tally: &mut Tally) {
    tally.expect(ASKED, ROWS.into_iter().chain(MIDS).chain([NO_ASSET, NO_ROW]));
    let sides = |(name, _): &(&str, usize)| [format!("{name}: passes by one"), format!("{name}: fails by one")];
    tally.expect(EDGE, OUTER.iter().flat_map(sides).chain([EQUAL.to_string()]));
}

/// Of tables of the right lengths.
pub fn count(command: &Command, answer: u8, before: &Buffers, tally: &mut Tally) {
    let Command::Cover { asset } = *command else { return };
    let tables = before.tables().expect("right lengths");
    let faults = (tables.first_broken(), tables.first_laxer());
    assert_eq!(faults, (None, None), "the cover test is asked of tables that pass the check");
    let Some(asset) = usize::try_from(asset).ok().filter(|&asset| asset < ASSETS) else {
        return tally.count(ASKED, NO_ASSET);
    };
    let row = tables.row_in_force(asset);
    if row[KIND] == UNLISTED {
        return tally.count(ASKED, NO_ROW);
    }
    let Date { mid, outer_low, outer_up, .. } = row::date(row, 0);
    tally.count(ASKED, ROWS[usize::from(is_present(&tables.own[asset]))]);
    tally.count(ASKED, MIDS[(mid.signum() + 1) as usize]);
    let width = (mid - outer_low).max(outer_up - mid);
    tally.count_if(WHOLE * (row[PRICE] + mid - width) == row[RAISED_FALL] * row[PRICE], EDGE, EQUAL);
    for (name, number) in OUTER {
        // Outer low goes down by one, outer up goes up.
        let wider = if number == OUTER[0].1 { -1 } else { 1 };
        let moved = |by: i64| passes_cover_test(&with(row, number, by * wider));
        tally.count_if(answer == 1 && !moved(1), EDGE, format!("{name}: passes by one"));
        tally.count_if(answer == 0 && moved(-1), EDGE, format!("{name}: fails by one"));
    }
}

fn with(row: &Row, number: usize, change: i64) -> Row {
    let mut row = *row;
    row[date_start(0) + number] += change;
    row
}
