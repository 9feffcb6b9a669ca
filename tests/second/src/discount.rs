//! Document 01, "Discount" (7): for opposite positions in one spread group.

use std::array;

use crate::units::{GROUPS, HUNDRED};

/// Market risks of a group's assets, summed by the side of their position sum (7.3).
#[derive(Clone, Copy, Default)]
pub struct Spread {
    pub positive: i64,
    pub negative: i64,
}

/// The spreads of groups 1 to 8.
#[derive(Default)]
pub struct Spreads([Spread; GROUPS]);

impl Spreads {
    /// A zero sum stands on neither side. Group 0 gives no discount.
    pub fn add(&mut self, group: i64, position_sum: i64, market_risk: i64) {
        if group == 0 {
            return;
        }
        let spread = &mut self.0[group as usize - 1];
        if rule!(position_sum > 0; ZeroSumIsPositive => position_sum >= 0) {
            spread.positive += market_risk;
        } else if position_sum < 0 {
            spread.negative += market_risk;
        }
    }

    /// Each group's discount in hundredths of a kopeck, before rounding.
    pub fn unrounded(&self, percents: &[i64; GROUPS]) -> [i64; GROUPS] {
        array::from_fn(|group| {
            let Spread { positive, negative } = self.0[group];
            rule!(2; DiscountOnce => 1)
                * percents[group]
                * rule!(positive.min(negative); DiscountOfGreater => positive.max(negative))
        })
    }

    /// 2 × percent / 100 × the smaller side, rounded down (house) per group.
    pub fn discount(&self, percents: &[i64; GROUPS]) -> i64 {
        let unrounded = self.unrounded(percents);
        rule!(unrounded.iter().map(|amount| amount / HUNDRED).sum();
            DiscountRoundedUp => unrounded.iter().map(|amount| (amount + HUNDRED - 1) / HUNDRED).sum(),
            DiscountRoundedOnce => unrounded.iter().sum::<i64>() / HUNDRED)
    }
}
