//! Document 01, "Single Limit": the figures of an account from its block and the tables; by #104 of document 02 those of
//! its settlement code, from the code's blocks.

use crate::block::{Block, Book};
use crate::code::Members;
use crate::discount::Spreads;
use crate::interest::interest_risk;
use crate::joint::Joint;
use crate::market::market_risk;
#[cfg(test)]
use crate::misread;
use crate::row;
use crate::tables::Tables;
use crate::units::ASSETS;
use crate::valuation::rubles;

#[derive(Clone, Copy, Debug, Default, PartialEq)]
pub struct Figures {
    pub valuation: i64,
    pub market_risk: i64,
    pub interest_risk: i64,
    pub discount: i64,
}

impl Figures {
    /// Single Limit = valuation − market risk − interest risk + discount.
    pub fn limit(&self) -> i64 {
        self.valuation - self.market_risk - self.interest_risk + self.discount
    }

    /// Valuation, market risk, interest risk, discount, limit.
    pub fn five(&self) -> [i64; 5] {
        [self.valuation, self.market_risk, self.interest_risk, self.discount, self.limit()]
    }
}

/// Of an account's code: of sound blocks under sound tables.
pub fn figures(book: &Book, account: usize, tables: &Tables) -> Figures {
    of_blocks(&Members::of(book, account), tables)
}

/// Of the blocks of a code. An asset of which they hold nothing adds nothing.
pub fn of_blocks(blocks: &[&Block], tables: &Tables) -> Figures {
    rule!(();
        CollateralAddedFirst => if blocks.len() > 1 { return misread::added_first(blocks, tables) },
        FiguresAdded => if blocks.len() > 1 { return misread::block_by_block(blocks, tables) });
    let mut figures = Figures { valuation: blocks.iter().map(|block| rubles(block)).sum(), ..Figures::default() };
    let mut spreads = Spreads::default();
    for number in 0..ASSETS {
        let Some(joint) = Joint::of(blocks, number, tables.row_in_force(number)) else { continue };
        let asset = &joint.asset;
        let risk = rule!(market_risk(asset);
            MarketRisksAdded => misread::risks_added(blocks, number, asset.row, market_risk));
        figures.valuation += rule!(joint.valuation; ValuedTogether => misread::valued_together(asset));
        figures.market_risk += risk;
        figures.interest_risk += rule!(interest_risk(asset);
            InterestRisksAdded => misread::risks_added(blocks, number, asset.row, interest_risk));
        spreads.add(asset.row[row::GROUP], asset.position_sum(), risk);
    }
    figures.discount = spreads.discount(tables.groups);
    rule!((); DiscountsAdded => if blocks.len() > 1 {
        figures.discount = misread::block_by_block(blocks, tables).discount;
    });
    figures
}
