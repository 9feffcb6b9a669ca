//! Document 01, "Interest risk" (6.3, 6.4) of an asset.

use crate::asset::Asset;
use crate::market::stepped;
use crate::row::{self, Date};
use crate::units::DATES;

/// The absolute value of the sum over dates.
pub fn interest_risk(asset: &Asset) -> i64 {
    let limit = asset.row[row::INTEREST_LIMIT];
    (0..DATES)
        .map(|date| {
            let limit = rule!(limit; InterestLimitOverDates => left_by(&asset.positions[..date], limit));
            amount(asset.positions[date], limit, row::date(asset.row, date))
        })
        .map(|amount| rule!(amount; InterestAbsoluteByDate => amount.abs()))
        .sum::<i64>()
        .abs()
}

/// One date's amount: a positive position runs the risk of mid − low, a negative one that of up − mid; the part above
/// the limit, which is per date (6.4), goes to the outer low or up.
fn amount(position: i64, limit: i64, date: Date) -> i64 {
    let mid = date.mid;
    if position < 0 {
        -stepped(-position, limit, date.up - mid, rule!(date.outer_up; UpForOuterUp => date.up) - mid)
    } else {
        stepped(position, limit, mid - date.low, mid - rule!(date.outer_low; LowForOuterLow => date.low))
    }
}

/// For a mutant: one limit for all dates, of which earlier dates leave this.
#[cfg(test)]
fn left_by(earlier: &[i64], limit: i64) -> i64 {
    (limit - earlier.iter().map(|position| position.abs()).sum::<i64>()).max(0)
}
