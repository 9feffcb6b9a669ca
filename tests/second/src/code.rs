//! Document 02, #104: several accounts under one settlement code. Which blocks are on a code, and what they keep together.

use std::ops::Deref;

use crate::block::{self, Block, Book, CODE, KIND};
use crate::units::*;

/// Code 0: the account stands alone, and shares it with nobody.
pub const NONE: i64 = 0;

/// What number 13 of a block may be.
pub fn in_bounds(code: i64) -> bool {
    rule!((NONE..=MOST_CODE).contains(&code);
        CodeNotLookedAt => true,
        CodeSixteenPasses => (NONE..=MOST_CODE + 1).contains(&code),
        CodeBelowZeroPasses => code <= MOST_CODE)
}

/// The blocks whose number 13 holds a code, open or not, by rising account.
fn blocks_on(book: &Book, code: i64) -> impl Iterator<Item = &Block> {
    book.iter().filter(move |block| is_on(block, code))
}

fn is_on(block: &Block, code: i64) -> bool {
    rule!(block[CODE] == code;
        ClosedBlockNotSeen => block[CODE] == code && block[KIND] != block::NOT_OPEN,
        CodeZeroShared => block[CODE] == code && (code != NONE || block[KIND] != block::NOT_OPEN),
        CodeZeroCounted => block[CODE] == code && (code != NONE || block[KIND] != block::NOT_OPEN))
}

/// The blocks of an account's code, its own among them.
#[derive(Clone, Copy)]
pub struct Members<'a> {
    own: &'a Block,
    blocks: [&'a Block; ACCOUNTS],
    count: usize,
}

impl<'a> Members<'a> {
    pub fn of(book: &'a Book, account: usize) -> Members<'a> {
        let own = &book[account];
        let alone = Members { own, blocks: [own; ACCOUNTS], count: 1 };
        if rule!(own[CODE] == NONE; CodeZeroShared => own[KIND] == block::NOT_OPEN) {
            return alone;
        }
        let mut members = Members { count: 0, ..alone };
        for block in blocks_on(book, own[CODE]) {
            members.blocks[members.count] = block;
            members.count += 1;
        }
        members
    }

    /// Refusal 6, tables left aside: at most four blocks, each of the account's kind, and none that breaks the block rules.
    pub fn are_sound(&self) -> bool {
        let kind = |block: &Block| rule!(block[KIND] == self.own[KIND]; OtherKindPasses => true);
        let few = rule!(self.count <= MEMBERS; FivePass => true, FourAreTooMany => self.count < MEMBERS);
        few && self.iter().all(|block| self.keeps_rules(block) && kind(block))
    }

    fn keeps_rules(&self, block: &Block) -> bool {
        rule!(block::is_sound(block); BrokenMemberPasses => !self.is_own(block) || block::is_sound(block))
    }

    /// For mutants.
    #[cfg(test)]
    pub fn is_own(&self, block: &Block) -> bool {
        std::ptr::eq(block, self.own)
    }
}

impl<'a> Deref for Members<'a> {
    type Target = [&'a Block];

    fn deref(&self) -> &[&'a Block] {
        &self.blocks[..self.count]
    }
}

/// Whether a new block of this kind may come onto a code: what is there and the new one are to be sound together.
pub fn admits(book: &Book, code: i64, kind: i64) -> bool {
    if rule!(code == NONE; CodeZeroCounted => false) {
        return true;
    }
    let there = || blocks_on(book, code);
    let within = rule!((NONE..=MOST_CODE).contains(&code); CodeSixteenOpened => (NONE..=MOST_CODE + 1).contains(&code));
    let room = rule!(there().count() < MEMBERS; FifthOpened => true, FourthNotOpened => there().count() < MEMBERS - 1);
    within && room && there().all(|block| sits_with(block, kind))
}

/// A block on the code beside a new one of this kind.
fn sits_with(block: &Block, kind: i64) -> bool {
    rule!(block::is_sound(block); OpenedBesideBroken => true) && rule!(block[KIND] == kind; OtherKindOpened => true)
}
