//! Document 01, the call "move collateral": adds to collateral, of an asset or of rubles.

#[cfg(test)]
use super::alone;
use super::{Change, Refusal, first_look, index, make, make_within_limit, open_block, refuse_unless};
use crate::block::{self, COLLATERAL, holding_start};
use crate::tables::{Lent, Tables};
use crate::units::*;

/// What a move names in place of an asset for rubles.
pub const RUBLES: i64 = 255;

#[derive(Clone, Copy)]
pub struct Move {
    pub account: i64,
    pub asset: i64,
    /// A deposit above 0, a withdrawal below.
    pub amount: i64,
}

pub fn move_collateral(book: &mut [i64], lent: &Lent, wanted: &Move) -> Result<(), Refusal> {
    let (tables, account) = first_look(book, lent, wanted.account)?;
    let book = block::blocks_mut(book);
    open_block(book, account, Some(&tables))?;
    let (place, most) = wanted.choice(&tables)?;
    wanted.amount_within(most)?;
    let change = Change { place, after: book[account][place] + wanted.amount };
    wanted.leaves_in_bounds(change.after, most)?;
    // A deposit skips code 10. A withdrawal keeps document 01's rule: #101 is of orders alone.
    if rule!(wanted.amount < 0; DepositAskedForLimit => true) {
        rule!(();
            SecondGroundForWithdrawals => return super::admit(book, account, [change], &tables),
            WithdrawalJudgedAlone =>
                return Ok(alone(book, account, |book| make_within_limit(book, account, [change], &tables))?));
        return Ok(make_within_limit(book, account, [change], &tables)?);
    }
    make(&mut book[account], [change]);
    Ok(())
}

impl Move {
    /// Code 7: the place of the collateral and the greatest size it may have.
    fn choice(&self, tables: &Tables) -> Result<(usize, i64), Refusal> {
        if rule!(self.asset; AssetOfMoveCutToByte => self.asset & 255) == RUBLES {
            return Ok((block::RUBLES, MOST_RUBLES));
        }
        let asset = index(self.asset, ASSETS).filter(|&asset| tables.is_listed(asset));
        asset.map(|asset| (holding_start(asset) + COLLATERAL, MOST_UNITS)).ok_or(Refusal::NoSuchChoice)
    }

    /// Code 8.
    fn amount_within(&self, most: i64) -> Result<(), Refusal> {
        let nonzero = rule!(self.amount != 0; MoveOfZeroDone => true);
        refuse_unless(nonzero && (-most..=most).contains(&self.amount), Refusal::WrongAmount)
    }

    /// Code 9: a withdrawal must not leave collateral below 0, wherever it was before.
    fn leaves_in_bounds(&self, after: i64, most: i64) -> Result<(), Refusal> {
        let withdrawal = rule!(self.amount < 0; WithdrawalBelowZeroPasses => false, DepositBelowZeroRefused => true);
        let least = if withdrawal { 0 } else { -most };
        refuse_unless((least..=most).contains(&after), Refusal::OutOfBounds)
    }
}
