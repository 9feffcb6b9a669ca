//! Document 01, the call "roll": one date passes, in one block alone. No tables are lent, so an unlisted holding does not
//! stop it, neither its own nor one of its settlement code's other blocks.

use super::{Refusal, first_look_at_book, open_block, refuse_unless};
use crate::block::{self, Block, CLAIMS, COLLATERAL, Holding, NETS, OBLIGATIONS, RUBLES};

/// All or nothing: the bounds of every collateral are asked before anything is written.
pub fn roll(book: &mut [i64], account: i64) -> Result<(), Refusal> {
    let account = first_look_at_book(book, account)?;
    let book = block::blocks_mut(book);
    open_block(book, account, None)?;
    let block = &mut book[account];
    let units_good = block::holdings(block).iter().all(|held| block::collateral_in_bounds(&settled(held)));
    let good = units_good && block::rubles_in_bounds(&settled_rubles(block));
    refuse_unless(good, Refusal::OutOfBounds)?;
    block[RUBLES] = settled_rubles(block);
    next_date(&mut block[NETS]);
    for holding in block::holdings_mut(block) {
        holding[COLLATERAL] = settled(holding);
        next_date(&mut holding[CLAIMS]);
        next_date(&mut holding[OBLIGATIONS]);
    }
    Ok(())
}

/// For a mutant: a roll that is lent tables, and answers 6 for an unlisted holding of the code's other blocks.
#[cfg(test)]
pub fn roll_asking(book: &mut [i64], lent: &crate::tables::Lent, account: i64) -> Result<(), Refusal> {
    let number = first_look_at_book(book, account)?;
    if let Some(tables) = lent.tables() {
        let members = crate::code::Members::of(block::blocks(book), number);
        let listed = |block: &&Block| members.is_own(block) || super::holdings_are_listed(block, &tables);
        refuse_unless(members.iter().all(listed), Refusal::BrokenBlock)?;
    }
    roll(book, account)
}

/// Collateral gains date 0's net.
fn settled(holding: &Holding) -> i64 {
    holding[COLLATERAL] + holding[CLAIMS.start] - holding[OBLIGATIONS.start]
}

/// Rubles too.
fn settled_rubles(block: &Block) -> i64 {
    block[RUBLES] + rule!(block[NETS.start]; RollForgetsRubles => 0)
}

/// Dates 1 to 7 become 0 to 6; date 7 empties.
fn next_date(dates: &mut [i64]) {
    rule!(dates.rotate_left(1); RollLeavesLaterDates => dates[0] = 0);
    let last = dates.len() - 1;
    rule!(dates[last] = 0; RollKeepsLastDate => dates[last] = dates[last - 1]);
}
