//! Document 01, "Market risk" (5.3 to 5.6) of an asset.

use crate::asset::Asset;
use crate::collateral::Regime;
use crate::row::{self, Row};
use crate::units::WHOLE;

/// `base` for the part within a concentration limit, `raised` for the part above it.
pub fn stepped(amount: i64, limit: i64, base: i64, raised: i64) -> i64 {
    base * amount.min(limit) + raised * (amount - limit).max(0)
}

pub fn market_risk(asset: &Asset) -> i64 {
    if rule!(asset.regime == Regime::Special; SpecialMarketAsOthers => false) {
        return special(asset);
    }
    let sum = asset.position_sum();
    if sum < 0 { risk_of_rise(asset.row, -sum) } else { risk_of_fall(asset.row, sum) }
}

/// 5.6: the sum of positive dates at fall rates and the sum of negative dates at rise rates; the greater counts.
fn special(asset: &Asset) -> i64 {
    let claims = asset.positions.iter().map(|position| position.max(&0)).sum();
    let obligations = asset.positions.iter().map(|position| (-position).max(0)).sum();
    let (fall, rise) = (risk_of_fall(asset.row, claims), risk_of_rise(asset.row, obligations));
    rule!(fall.max(rise); SpecialRisksAdded => fall + rise)
}

pub(crate) fn risk_of_fall(row: &Row, units: i64) -> i64 {
    risk(row, units, row[row::FALL], rule!(row[row::RAISED_FALL]; BaseForRaisedFall => row[row::FALL]))
}

pub(crate) fn risk_of_rise(row: &Row, units: i64) -> i64 {
    let base = rule!(row[row::RISE]; FallRateForShort => row[row::FALL]);
    risk(row, units, base, rule!(row[row::RAISED_RISE]; BaseForRaisedRise => row[row::RISE]))
}

/// (base × min(n, limit) + raised × max(0, n − limit)) × price / 10,000, rounded up (house) once per asset.
fn risk(row: &Row, units: i64, base: i64, raised: i64) -> i64 {
    let (price, limit) = (row[row::PRICE], row[row::MARKET_LIMIT]);
    rule!(rounded_up(stepped(units, limit, base, raised) * price);
        MarketRoundedDown => stepped(units, limit, base, raised) * price / WHOLE,
        UnitRiskRoundedFirst => stepped(units, limit, rounded_up(base * price), rounded_up(raised * price)))
}

fn rounded_up(amount: i64) -> i64 {
    (amount + WHOLE - 1) / WHOLE
}
