//! Document 02, #102: the gauge of the app's first screen.

use crate::limit::Figures;
use crate::record::{exact, signed_bits};

/// A refused report's is the empty one, which is the default.
#[derive(Clone, Copy, Debug, Default, PartialEq)]
pub enum Gauge {
    /// Nothing to show.
    #[default]
    Empty,
    /// The shortfall, a positive amount of kopecks.
    Over(f64),
    /// The part of the valuation that risk takes.
    Used(f64),
}

impl Gauge {
    /// Valuation zero or less comes first, even where the limit is negative.
    pub fn of(figures: &Figures) -> Gauge {
        let limit = figures.limit();
        rule!((); OverBeforeEmpty => if limit < 0 { return Gauge::Over(exact(-limit)) });
        if rule!(figures.valuation <= 0; ValuationOfZeroShown => figures.valuation < 0) {
            return Gauge::Empty;
        }
        if rule!(limit < 0; LimitOfZeroIsOver => limit <= 0, LimitBelowByOneIsUsed => limit < -1) {
            return Gauge::Over(rule!(exact(-limit); ShortfallIsNegative => exact(limit)));
        }
        Gauge::Used(used(figures))
    }

    /// As call scripts number the three.
    pub fn number(&self) -> u8 {
        match self {
            Gauge::Empty => 0,
            Gauge::Over(_) => 1,
            Gauge::Used(_) => 2,
        }
    }

    /// The bits of its float, 0 if empty.
    pub fn bits(&self) -> i64 {
        match *self {
            Gauge::Empty => 0,
            Gauge::Over(float) | Gauge::Used(float) => signed_bits(float),
        }
    }
}

/// Market risk plus interest risk less discount, divided by valuation. The sum is of whole numbers and below 2^53, so
/// both operands are exact and the division is the one rounding.
fn used(figures: &Figures) -> f64 {
    let Figures { valuation, market_risk, interest_risk, discount } = *figures;
    let taken = rule!(market_risk + interest_risk - discount;
        DiscountAdded => market_risk + interest_risk + discount,
        DiscountForgotten => market_risk + interest_risk,
        LimitIsUsed => figures.limit());
    let (taken, valuation) = (exact(taken), exact(valuation));
    rule!(taken / valuation;
        QuotientTurned => valuation / taken,
        QuotientInPercent => taken / valuation * 100.0,
        QuotientCut => cut(taken, valuation),
        ProductByReciprocal => taken * (1.0 / valuation),
        DivisionOfEach => exact(market_risk) / valuation + exact(interest_risk) / valuation - exact(discount) / valuation,
        OneLessPartOfLimit => 1.0 - exact(figures.limit()) / valuation)
}

/// For a mutant: the quotient rounded towards zero.
#[cfg(test)]
fn cut(taken: f64, valuation: f64) -> f64 {
    let nearest = taken / valuation;
    if nearest.mul_add(valuation, -taken) > 0.0 { nearest.next_down() } else { nearest }
}
