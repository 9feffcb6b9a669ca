//! Document 01, "From collateral to limit": an asset's working record, with its regime and its positions by date.

use crate::block::{CLAIMS, COLLATERAL, Holding, OBLIGATIONS};
use crate::collateral::{Regime, share_in_force};
use crate::row::{self, Row};
use crate::units::DATES;

pub struct Asset<'a> {
    pub row: &'a Row,
    pub regime: Regime,
    /// N: collateral and the trades of all dates.
    pub net: i64,
    /// C'.
    pub adjusted: i64,
    /// Position of each date: claims less obligations, with C' added at date 0.
    pub positions: [i64; DATES],
    /// The position of date 0 as the valuation sees it: with C'' for C', and without what 4.9 leaves out.
    pub valued_today: i64,
    /// Claims of date 0 that 4.9 leaves out of the valuation.
    pub left_out: i64,
}

impl<'a> Asset<'a> {
    pub fn new(account_kind: i64, row: &'a Row, holding: &Holding) -> Asset<'a> {
        let share = share_in_force(account_kind, row);
        let regime = Regime::of(row, share);
        let collateral = holding[COLLATERAL];
        let (claims, obligations) = (&holding[CLAIMS], &holding[OBLIGATIONS]);
        let mut positions: [i64; DATES] = std::array::from_fn(|date| claims[date] - obligations[date]);
        let trades: i64 = rule!(positions.iter().sum(); DateZeroLeftOut => positions[1..].iter().sum());
        let net = collateral + trades;
        let adjusted = regime.adjusted(collateral, net);
        let adjusted = rule!(adjusted; AdjustedFedBack => regime.adjusted(collateral, adjusted + trades));
        let valued = regime.valued(adjusted);
        let left_out = if leaves_out_claims(row, share) { claims[0] } else { 0 };
        let valued_today = positions[0] + valued - left_out;
        positions[0] += rule!(adjusted; ValuedForRisk => valued);
        Asset { row, regime, net, adjusted, positions, valued_today, left_out }
    }

    /// Adds what another block of the same code has of the asset.
    pub fn add(&mut self, other: &Asset) {
        for (position, more) in self.positions.iter_mut().zip(other.positions) {
            *position += more;
        }
        self.net += other.net;
        self.adjusted += other.adjusted;
        self.valued_today += other.valued_today;
        self.left_out += other.left_out;
    }

    pub fn position_sum(&self) -> i64 {
        self.positions.iter().sum()
    }
}

/// 4.9: a row of kind 2 with share in force 0, in whichever regime.
fn leaves_out_claims(row: &Row, share: i64) -> bool {
    let not_accepted = rule!(share == 0;
        ClaimsTodayKept => false,
        ClaimsTodayKeptIfSpecial => share == 0 && row[row::SPECIAL_DELIVERY] == 0,
        ClaimsTodayKeptIfNotRecorded => share == 0 && row[row::COVERED_SALES] != row::NOT_RECORDED);
    row[row::KIND] == row::CURRENCY && not_accepted
}
