//! What goes to the phone app.

use crate::names::{FIGURES_LENGTH, GAUGE_EMPTY, GAUGE_OVER, GAUGE_USED};

/// A report for the app.
#[derive(Clone, Copy, Debug, PartialEq)]
pub struct Feed {
    /// What is sent: the bits of the five floats, in report order.
    pub bits: [u64; FIGURES_LENGTH],
    /// The same as floats.
    pub figures: Floats,
    /// For the first screen.
    pub gauge: Gauge,
}

/// The figures of a report as floats, in kopecks, each exactly the whole number.
#[derive(Clone, Copy, Debug, Default, PartialEq)]
pub struct Floats {
    /// Positions at their prices, and rubles.
    pub valuation: f64,
    /// Market risk of all assets.
    pub market_risk: f64,
    /// Interest risk of all assets.
    pub interest_risk: f64,
    /// Discount of all groups.
    pub discount: f64,
    /// Valuation less both risks, with the discount added.
    pub limit: f64,
}

impl Floats {
    /// Their bits, in report order.
    pub fn bits(self) -> [u64; FIGURES_LENGTH] {
        let Floats { valuation, market_risk, interest_risk, discount, limit } = self;
        [valuation, market_risk, interest_risk, discount, limit].map(f64::to_bits)
    }

    pub(crate) fn in_report_order(floats: [f64; FIGURES_LENGTH]) -> Floats {
        let [valuation, market_risk, interest_risk, discount, limit] = floats;
        Floats { valuation, market_risk, interest_risk, discount, limit }
    }
}

/// The gauge of the app's first screen.
#[derive(Clone, Copy, Debug, PartialEq)]
pub enum Gauge {
    /// Nothing to show: the valuation is zero or less, whatever the limit.
    Empty,
    /// The limit is negative, by this shortfall in kopecks.
    Over(f64),
    /// So much of the valuation is used, from 0 to 1: market risk plus interest risk less discount, divided by it and rounded once.
    Used(f64),
}

impl Gauge {
    /// Of a number and its float. The engine's contracts leave no other number, so another one means an archive of another version.
    pub(crate) fn read(number: u8, shown: f64) -> Gauge {
        match number {
            GAUGE_EMPTY => Gauge::Empty,
            GAUGE_OVER => Gauge::Over(shown),
            GAUGE_USED => Gauge::Used(shown),
            _ => panic!("gauge {number} is not of this version of the engine"),
        }
    }
}
