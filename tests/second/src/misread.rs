//! Document 02, #104, got wrong: what the figures of a settlement code would be, for mutants and for the coverage of what
//! tells these readings from the right one.

use crate::asset::Asset;
use crate::block::{Block, KIND};
use crate::joint::Joint;
use crate::limit::{Figures, of_blocks};
use crate::row::Row;
use crate::tables::Tables;
use crate::valuation::valuation;

/// Each block's own figures, added.
pub fn block_by_block(blocks: &[&Block], tables: &Tables) -> Figures {
    let mut sum = Figures::default();
    for block in blocks {
        let own = of_single(block, tables);
        sum.valuation += own.valuation;
        sum.market_risk += own.market_risk;
        sum.interest_risk += own.interest_risk;
        sum.discount += own.discount;
    }
    sum
}

/// Of one block, as if it were alone.
pub fn of_single(block: &Block, tables: &Tables) -> Figures {
    of_blocks(&[block], tables)
}

/// Collateral, claims and obligations added before collateral is adjusted: one block with all that the blocks hold.
pub fn added_first(blocks: &[&Block], tables: &Tables) -> Figures {
    let mut all: Block = std::array::from_fn(|number| blocks.iter().map(|block| block[number]).sum());
    all[KIND] = blocks[0][KIND];
    of_single(&all, tables)
}

/// A risk of each block's positions, added.
pub fn risks_added(blocks: &[&Block], number: usize, row: &Row, risk: impl Fn(&Asset) -> i64) -> i64 {
    let of_block = |block: &&Block| Joint::of(&[*block], number, row).map_or(0, |joint| risk(&joint.asset));
    blocks.iter().map(of_block).sum()
}

/// C'' (4.8) taken of the added C', and not within each block.
pub fn valued_together(asset: &Asset) -> i64 {
    let trades_today = asset.positions[0] - asset.adjusted;
    let valued_today = trades_today + asset.regime.valued(asset.adjusted) - asset.left_out;
    valuation(&Asset { valued_today, ..*asset })
}
