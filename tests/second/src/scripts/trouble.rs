//! Document 02, #101, on a hand-made block: orders around a limit that is negative, near zero and far below it; and
//! withdrawals that raise a negative limit.

use super::edges::Scene;
use super::maker::Maker;
use crate::block::{CLAIMS, COLLATERAL, NETS, OBLIGATIONS, RUBLES, holding_start};
use crate::calls::{BUY, Order, SELL};
use crate::generate::Steered;
use crate::row::{ACCEPTANCE_SHARE, COVERED_SALES, PARTIAL, POOL_SHARE, SPECIAL_DELIVERY};
use crate::script::{Buffer, Buffers, Command};
use crate::tables::is_present;
use crate::units::*;

impl Scene<'_> {
    pub fn trouble(&self, maker: &mut Maker) {
        for side in [BUY, SELL] {
            let order = self.some_order(maker, side);
            let near = self.near_zero(maker);
            self.orders_around(maker, order, &near);
            self.orders_around(maker, order, &far_below(order.date as usize));
        }
        let partial = self.with_partial_row(maker);
        Scene { wanted: &partial, ..*self }.limit_after_withdrawals(maker);
    }

    /// Rubles such that the limit is some kopecks below zero, or as near to that as their bounds let it.
    fn near_zero(&self, maker: &mut Maker) -> Vec<(usize, i64)> {
        let block = self.wanted.block(self.account);
        let below = maker.random.up_to(1_000_000).max(1);
        let rubles = block[RUBLES] - self.limit(block) - below;
        vec![(RUBLES, rubles.clamp(-MOST_RUBLES, MOST_RUBLES))]
    }

    /// The order, steered to a kopeck below the limit before it, to that limit, to a kopeck above it, further off on
    /// either side, and out of trouble.
    fn orders_around(&self, maker: &mut Maker, free: Order, changes: &[(usize, i64)]) {
        let block = self.block_with(changes);
        let before = self.limit(&block);
        if before >= 0 {
            return;
        }
        let steered = Steered::new(free, &self.book_with(&block), &self.wanted.tables().expect("right lengths"));
        let [lower, higher] = [-1, 1].map(|sign| before + sign * maker.random.up_to(MOST_RUBLES).max(2));
        for after in [lower, before - 1, before, before + 1, higher, -1, 0, 1] {
            if let Some(order) = steered.leaving(after) {
                self.call(maker, changes, Command::Order(order));
            }
        }
    }

    /// The same, but the account has collateral of the asset and no trades in it, under a row that counts it for risk
    /// and not for value (4.8): the less of it, the higher the limit.
    fn with_partial_row(&self, maker: &mut Maker) -> Buffers {
        let mut partial = self.wanted.clone();
        let owned = is_present(&self.wanted.tables().expect("right lengths").own[self.asset]);
        let share = maker.random.between(1, WHOLE);
        let numbers = [(ACCEPTANCE_SHARE, share), (POOL_SHARE, share), (COVERED_SALES, PARTIAL), (SPECIAL_DELIVERY, 0)];
        // An own row is not to be laxer: the clearing row goes along.
        let tables = if owned { &[Buffer::Clearing, Buffer::Own][..] } else { &[Buffer::Clearing] };
        for &table in tables {
            for (number, value) in numbers {
                partial.numbers_mut(table)[ROW * self.asset + number] = value;
            }
        }
        let holding = &mut partial.block_mut(self.account)[holding_start(self.asset)..];
        holding[COLLATERAL] = maker.random.up_to(MOST_UNITS).max(1);
        holding[CLAIMS].fill(0);
        holding[OBLIGATIONS].fill(0);
        partial
    }
}

/// As few rubles as there can be; only the date's net has room for the order's money.
fn far_below(date: usize) -> Vec<(usize, i64)> {
    let rubles = [RUBLES].into_iter().chain(NETS).map(|place| (place, -MOST_RUBLES));
    rubles.chain([(NETS.start + date, 0)]).collect()
}
