//! Coverage of damaged blocks: each number alone outside its bounds, of the account's block and of another one of its
//! settlement code, blocks that are not open and not zero, and unlisted holdings.

use super::{account_of, tally::Tally};
use crate::block::{self, Block, CODE, holding_start};
use crate::calls::{DONE, Refusal};
use crate::row::Bounds;
use crate::script::{Buffer, Buffers, Command};
use crate::scripts::bounds_of;
use crate::tables::Tables;
use crate::units::{ACCOUNTS, BLOCK};

const DAMAGED: &str = "number of a block, alone outside its bounds";
const NOT_OPEN: &str = "number that is not zero in a block that is not open";
const UNLISTED: &str = "number of an unlisted holding, answered with 6";
const OF_CODE: &str = "number of another block of the code, alone outside its bounds, answered with 6";
const ANSWER: &str = "calls on a damaged block";
const BESIDE: &str = "calls done beside a damaged block";

/// How a number stands outside its bounds.
const HOW: [&str; 4] = ["one below", "one above", "lowest of 64 bits", "highest of 64 bits"];
const ANSWERS: [&str; 7] = ["open: 5", "open: 6", "move: 6", "order: 6", "roll: 6", "report: 6", "app: 6"];

pub fn expect(tally: &mut Tally) {
    tally.expect(DAMAGED, HOW.iter().flat_map(|how| (0..BLOCK).map(move |number| format!("{how} {number}"))));
    tally.expect(NOT_OPEN, block::KIND + 1..BLOCK);
    tally.expect(UNLISTED, holding_start(0)..BLOCK);
    // A number 13 outside its bounds is no code that could be shared.
    tally.expect(OF_CODE, (0..BLOCK).filter(|&number| number != CODE));
    tally.expect(ANSWER, ANSWERS);
    tally.expect(BESIDE, ["report", "open"]);
}

/// Of a call at the right lengths.
pub fn count(command: &Command, code: u8, before: &Buffers, tally: &mut Tally) {
    let (Some(call), Some(account)) = (command.call(), command.account().and_then(account_of)) else { return };
    let lends_tables = command.lent().contains(&Buffer::Groups);
    let tables = before.tables().expect("right lengths");
    if lends_tables && (tables.first_broken().is_some() || tables.first_laxer().is_some()) {
        return;
    }
    let damaged = |account: usize| !block::is_sound(before.block(account));
    if !damaged(account) {
        count_beside(call, code, (0..ACCOUNTS).any(damaged), tally);
        if code == Refusal::BrokenBlock as u8 {
            count_of_code(before, account, tally);
            count_unlisted(before.block(account), &tables, tally);
        }
        return;
    }
    tally.count(ANSWER, format!("{call}: {code}"));
    count_damage(before.block(account), tally);
}

fn count_beside(call: &str, code: u8, damaged: bool, tally: &mut Tally) {
    tally.count_if(damaged && code == DONE && ["report", "open"].contains(&call), BESIDE, call);
}

/// Where one number alone is not zero.
fn count_unlisted(block: &Block, tables: &Tables, tally: &mut Tally) {
    let held: Vec<_> = (holding_start(0)..BLOCK).filter(|&number| block[number] != 0).collect();
    let asset = |number: usize| (number - holding_start(0)) / (holding_start(1) - holding_start(0));
    if let [number] = held[..] {
        tally.count_if(!tables.is_listed(asset(number)), UNLISTED, number);
    }
}

/// Where two blocks are on the code, and one number of the other is outside its bounds.
fn count_of_code(before: &Buffers, account: usize, tally: &mut Tally) {
    let own = before.block(account);
    let on_code = before.blocks().iter().filter(|block| own[CODE] != 0 && block[CODE] == own[CODE]);
    let others: Vec<_> = on_code.filter(|block| !std::ptr::eq(*block, own)).collect();
    let [other] = others[..] else { return };
    if let [number] = out_of_bounds(other)[..] {
        tally.count(OF_CODE, number);
    }
}

fn out_of_bounds(block: &Block) -> Vec<usize> {
    (0..BLOCK).filter(|&number| !bounds_of(number).contain(block[number])).collect()
}

fn count_damage(block: &Block, tally: &mut Tally) {
    if block[block::KIND] == block::NOT_OPEN {
        let first = block.iter().position(|&number| number != 0).expect("damage");
        return tally.count(NOT_OPEN, first);
    }
    let [number] = out_of_bounds(block)[..] else { return };
    let Bounds { lowest, highest } = bounds_of(number);
    for (how, value) in HOW.into_iter().zip([lowest - 1, highest + 1, i64::MIN, i64::MAX]) {
        tally.count_if(block[number] == value, DAMAGED, format!("{how} {number}"));
    }
}
