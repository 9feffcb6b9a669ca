//! Document 02, #104: an asset over the blocks of a settlement code. Each block's part is adjusted and valued within the
//! block, and then added.

use crate::asset::Asset;
use crate::block::{self, Block, is_zero};
use crate::row::Row;
use crate::valuation::valuation;

pub struct Joint<'a> {
    /// Valued within each block.
    pub valuation: i64,
    /// With the adjusted positions of all blocks, date by date. The row and the kind of account are one, so the regime is.
    pub asset: Asset<'a>,
}

impl<'a> Joint<'a> {
    /// None where no block holds anything of the asset.
    pub fn of(blocks: &[&Block], number: usize, row: &'a Row) -> Option<Joint<'a>> {
        let mut joint: Option<Joint> = None;
        for block in blocks {
            let holding = &block::holdings(block)[number];
            if is_zero(holding) {
                continue;
            }
            let asset = Asset::new(block[block::KIND], row, holding);
            match &mut joint {
                None => joint = Some(Joint { valuation: valuation(&asset), asset }),
                Some(joint) => joint.add(&asset),
            }
        }
        joint
    }

    fn add(&mut self, other: &Asset) {
        self.valuation += valuation(other);
        self.asset.add(other);
    }
}
