//! Document 01, "Cover test" of a row: whether more collateral can never lower the limit.

use crate::row::{self, Row};
use crate::tables::Lent;
use crate::units::{ASSETS, WHOLE};

/// 10,000 × (price + mid of date 0 − w) ≥ raised fall × price, with w the greater of mid − outer low and outer up − mid
/// of date 0. An unlisted row fails. In 128 bits, because the row may be any.
pub fn passes_cover_test(row: &Row) -> bool {
    let today = row::date(row, rule!(0; CoverOfDateOne => 1));
    let (outer_low, outer_up) = rule!((today.outer_low, today.outer_up); CoverOfInnerWidth => (today.low, today.up));
    let fall = rule!(row[row::RAISED_FALL];
        CoverOfBaseFall => row[row::FALL],
        CoverOfRaisedRise => row[row::RAISED_RISE]);
    let [price, mid, outer_low, outer_up, fall] =
        [row[row::PRICE], today.mid, outer_low, outer_up, fall].map(i128::from);
    let (down, up) = (mid - outer_low, outer_up - mid);
    let width = rule!(down.max(up); CoverOfLowAlone => down, CoverOfUpAlone => up);
    let value = rule!(price + mid; CoverWithoutMid => price) - width;
    let (value, risk) = (i128::from(WHOLE) * value, fall * price);
    let covered = rule!(value >= risk; CoverNotAtTheEdge => value > risk);
    covered && rule!(row[row::KIND] != row::UNLISTED; UnlistedRowCovers => true)
}

/// The cover test of the row in force of an asset. No where a length is wrong, or the asset is not 0 to 15.
pub fn row_passes(lent: &Lent, asset: i64) -> bool {
    let asset = usize::try_from(asset).ok().filter(|&asset| asset < ASSETS);
    let (Some(tables), Some(asset)) = (lent.tables(), asset) else { return false };
    passes_cover_test(rule!(tables.row_in_force(asset); CoverOfClearingRow => &tables.clearing[asset]))
}
