//! Document 01, "Valuation" (4.2): positions at price + mid, and rubles.

use crate::asset::Asset;
use crate::block::{Block, NETS, RUBLES};
use crate::row;
use crate::units::DATES;

/// Sum over dates of position × (price + mid).
pub fn valuation(asset: &Asset) -> i64 {
    let forward = |date| asset.row[row::PRICE] + rule!(row::date(asset.row, date).mid; MidLeftOut => 0);
    let later: i64 = (1..DATES).map(|date| asset.positions[date] * forward(date)).sum();
    asset.valued_today * forward(0) + later
}

/// Ruble collateral and ruble nets.
pub fn rubles(block: &Block) -> i64 {
    block[RUBLES..NETS.end].iter().sum()
}
