//! Document 01, the call "order": booked as a trade at once (house). Document 02, #101: the two grounds on which it is
//! admitted.

#[cfg(test)]
use super::alone;
use super::{BelowZero, Change, Refusal, first_look, index, make, make_within_limit, open_block, refuse_unless};
use crate::block::{self, Block, Book, CLAIMS, NETS, OBLIGATIONS, holding_start};
use crate::limit::figures;
use crate::tables::{Lent, Tables};
use crate::units::*;

pub const BUY: i64 = 0;
pub const SELL: i64 = 1;

#[derive(Clone, Copy)]
pub struct Order {
    pub account: i64,
    pub asset: i64,
    pub date: i64,
    pub side: i64,
    pub quantity: i64,
    pub money: i64,
}

pub fn order(book: &mut [i64], lent: &Lent, wanted: &Order) -> Result<(), Refusal> {
    let (tables, account) = first_look(book, lent, wanted.account)?;
    let book = block::blocks_mut(book);
    open_block(book, account, Some(&tables))?;
    let (asset, date) = wanted.choice(&tables)?;
    let changes = wanted.changes(&book[account], asset, date);
    rule!((); BoundsBeforeAmount => leave_in_bounds(changes)?);
    wanted.amounts()?;
    rule!((); LimitBeforeBounds => admit(&mut book.clone(), account, changes, &tables)?);
    leave_in_bounds(changes)?;
    rule!(();
        SecondGroundOfBuysAlone =>
            if wanted.side == SELL { make_within_limit(&mut book.clone(), account, changes, &tables)? },
        SecondGroundOfSellsAlone =>
            if wanted.side == BUY { make_within_limit(&mut book.clone(), account, changes, &tables)? },
        OrderJudgedAlone => return alone(book, account, |book| admit(book, account, changes, &tables)));
    admit(book, account, changes, &tables)
}

impl Order {
    /// Code 7: the asset and the date.
    pub(crate) fn choice(&self, tables: &Tables) -> Result<(usize, usize), Refusal> {
        let asset = index(self.asset, ASSETS).filter(|&asset| tables.is_listed(asset));
        let date = rule!(self.date; DateCutToByte => self.date & 255);
        let side = rule!(self.side; SideCutToByte => self.side & 255);
        match (asset, index(date, DATES), side) {
            (Some(asset), Some(date), BUY | SELL) => Ok((asset, date)),
            _ => {
                rule!(Err(Refusal::NoSuchChoice); AmountBeforeChoice => self.amounts().and(Err(Refusal::NoSuchChoice)))
            }
        }
    }

    /// Code 8.
    pub(crate) fn amounts(&self) -> Result<(), Refusal> {
        let good = (1..=MOST_UNITS).contains(&self.quantity) && (0..=MOST_RUBLES).contains(&self.money);
        refuse_unless(good, Refusal::WrongAmount)
    }

    /// A buy adds to the date's claim and takes the money from the date's ruble net; a sell adds to obligation and adds
    /// the money. Saturating, because the amounts may be any: past 64 bits is past every bound.
    pub fn changes(&self, block: &Block, asset: usize, date: usize) -> [Change; 2] {
        let (trades, money) =
            if self.side == BUY { (CLAIMS, self.money.saturating_neg()) } else { (OBLIGATIONS, self.money) };
        let units = holding_start(asset) + trades.start + date;
        let net = NETS.start + date;
        [
            Change { place: units, after: block[units].saturating_add(self.quantity) },
            Change { place: net, after: block[net].saturating_add(money) },
        ]
    }
}

/// Code 9.
pub(crate) fn leave_in_bounds([units, net]: [Change; 2]) -> Result<(), Refusal> {
    let good = block::trades_in_bounds(&units.after) && block::rubles_in_bounds(&net.after);
    refuse_unless(good, Refusal::OutOfBounds)
}

/// Code 10, given when neither ground holds. The limits are the code's; that before is under the same tables, and is
/// worked out only where the limit after is negative.
pub(crate) fn admit<const COUNT: usize>(
    book: &mut Book,
    account: usize,
    changes: [Change; COUNT],
    tables: &Tables,
) -> Result<(), Refusal> {
    let Err(BelowZero { limit: after }) = make_within_limit(book, account, changes, tables) else { return Ok(()) };
    let before = rule!(figures(book, account, tables).limit();
        LimitBeforeOfBookedBlock => after,
        LimitBeforeOfOwnBlock => alone(book, account, |book| figures(book, account, tables).limit()));
    refuse_unless(is_strictly_greater(after, before), Refusal::LimitBelowZero)?;
    rule!((); SecondGroundBooksNothing => return Ok(()));
    make(&mut book[account], changes);
    Ok(())
}

/// The second ground: the limit after the order is strictly greater than the limit before it.
fn is_strictly_greater(after: i64, before: i64) -> bool {
    rule!(after > before; SecondGroundForgotten => false, EqualLimitAdmitted => after >= before)
}
