//! Coverage of document 02, #104: how many blocks a report is of, figures that other readings give otherwise, openings,
//! calls judged by the code's limit, and accounts that another block of their code turns away.

use super::calls::limit_after;
use super::{State, Step, tally::Tally, trouble::answer};
use crate::block::{self, CODE, KIND};
use crate::calls::{Change, DONE, Refusal, make};
use crate::code::Members;
use crate::interest::interest_risk;
use crate::joint::Joint;
use crate::limit::{figures, of_blocks};
use crate::market::market_risk;
use crate::misread;
use crate::tables::Tables;
use crate::units::*;

const BLOCKS: &str = "blocks on the code of a report";
const OTHERWISE: &str = "figures of a code that another reading gives otherwise";
const READINGS: [&str; 6] = [
    "collateral added first",
    "valued together",
    "market risks added",
    "interest risks added",
    "discounts added",
    "limits added",
];
const EDGE: &str = "limit of a shared code after a call";
const EDGES: [&str; 3] = ["-1, refused", "0, admitted", "1, admitted"];
const ALONE: &str = "call of a shared code that the own block's limit decides otherwise";
const SECOND: &str = "order of a shared code in trouble, and the own block's limit before it";
const SECONDS: [&str; 4] = ["admitted, above", "admitted, not above", "refused, above", "refused, not above"];
const ROLL: &str = "rolls of a block of a shared code";
const ROLLS: [&str; 3] = ["done", "done beside an unlisted holding", "out of bounds"];
const UNLISTED: &str = "6 through an unlisted holding of another block of the code";
/// What stops the accounts of a code and comes from another block.
const THROUGH: &str = "6 through another block of the code";
const FAULTS: [&str; 4] = ["five blocks", "another kind", "block not open", "damaged block"];

pub fn expect(tally: &mut Tally) {
    tally.expect(BLOCKS, ["none", "1", "2", "3", "4"]);
    tally.expect(OTHERWISE, READINGS);
    let calls = ["order", "withdrawal"];
    tally.expect(EDGE, calls.iter().flat_map(|call| EDGES.map(|edge| format!("{call}: {edge}"))));
    tally.expect(ALONE, calls.iter().flat_map(|call| [format!("{call}: admitted"), format!("{call}: refused")]));
    tally.expect(SECOND, SECONDS);
    tally.expect(ROLL, ROLLS);
    tally.expect(UNLISTED, ["move", "order", "report"]);
}

/// What call scripts alone show.
pub fn expect_hand_made(tally: &mut Tally) {
    let calls = ["move", "order", "roll", "report", "app"];
    let faults = |call: &&str| FAULTS.map(|fault| format!("{call}: {fault}"));
    tally.expect(THROUGH, calls.iter().flat_map(faults).chain(["app: unlisted holding".to_string()]));
}

pub fn count_report(before: &State, account: usize, tally: &mut Tally) {
    let (book, tables) = (before.blocks(), &before.tables());
    let blocks = &Members::of(book, account);
    if book[account][CODE] == 0 {
        return tally.count(BLOCKS, "none");
    }
    tally.count(BLOCKS, blocks.len());
    let (right, apart) = (of_blocks(blocks, tables), misread::block_by_block(blocks, tables));
    let joints =
        || (0..ASSETS).filter_map(|asset| Some((asset, Joint::of(blocks, asset, tables.row_in_force(asset))?)));
    let [market, interest, together] = joints().fold([0; 3], |[market, interest, together], (asset, joint)| {
        let row = joint.asset.row;
        [
            market + misread::risks_added(blocks, asset, row, market_risk),
            interest + misread::risks_added(blocks, asset, row, interest_risk),
            together + misread::valued_together(&joint.asset) - joint.valuation,
        ]
    });
    let differs = [
        misread::added_first(blocks, tables) != right,
        together != 0,
        market != right.market_risk,
        interest != right.interest_risk,
        apart.discount != right.discount,
        apart.limit() != right.limit(),
    ];
    for (reading, differs) in READINGS.into_iter().zip(differs) {
        tally.count_if(differs, OTHERWISE, reading);
    }
}

/// A call that came as far as code 10: the limits of the code and of the own block before and after it.
struct Judged {
    code: [i64; 2],
    alone: [i64; 2],
    answer: &'static str,
}

fn judged<const COUNT: usize>(step: &Step, account: usize, changes: [Change; COUNT]) -> Option<Judged> {
    let (before, tables) = (&step.before, &step.before.tables());
    let shared = Members::of(before.blocks(), account).len() > 1;
    let answer = answer(step.code).filter(|_| shared)?;
    let mut changed = *before.block(account);
    make(&mut changed, changes);
    let alone = [before.block(account), &changed].map(|block| misread::of_single(block, tables).limit());
    let code = [figures(before.blocks(), account, tables).limit(), limit_after(before, account, changes)];
    Some(Judged { code, alone, answer })
}

pub fn count_order(step: &Step, account: usize, changes: [Change; 2], tally: &mut Tally) {
    let Some(judged) = judged(step, account, changes) else { return };
    let [before, after] = judged.alone;
    judged.count("order", after >= 0 || after > before, tally);
    let [limit_before, limit_after] = judged.code;
    if limit_before < 0 && limit_after < 0 {
        let stands = if limit_after > before { "above" } else { "not above" };
        tally.count(SECOND, format!("{}, {stands}", judged.answer));
    }
}

pub fn count_withdrawal(step: &Step, account: usize, change: Change, tally: &mut Tally) {
    let Some(judged) = judged(step, account, [change]) else { return };
    judged.count("withdrawal", judged.alone[1] >= 0, tally);
}

impl Judged {
    /// `alone` is whether the own block by itself would be admitted.
    fn count(&self, call: &str, alone: bool, tally: &mut Tally) {
        let edge = format!("{}, {}", self.code[1], self.answer);
        tally.count_if(EDGES.contains(&edge.as_str()), EDGE, format!("{call}: {edge}"));
        let admitted = self.answer == "admitted";
        tally.count_if(alone != admitted, ALONE, format!("{call}: {}", self.answer));
    }
}

pub fn count_roll(step: &Step, account: usize, tally: &mut Tally) {
    let members = Members::of(step.before.blocks(), account);
    if members.len() == 1 {
        return;
    }
    let own = step.before.block(account);
    let unlisted =
        members.iter().any(|block| !std::ptr::eq(*block, own) && holds_unlisted(block, &step.before.tables()));
    match step.code {
        DONE => tally.count(ROLL, ROLLS[usize::from(unlisted)]),
        code => tally.count_if(code == Refusal::OutOfBounds as u8, ROLL, ROLLS[2]),
    }
}

fn holds_unlisted(block: &block::Block, tables: &Tables) -> bool {
    (0..ASSETS).any(|asset| !tables.is_listed(asset) && !block::is_zero(&block::holdings(block)[asset]))
}

/// An account that is turned away with 6 though nothing is wrong with its own block.
pub fn count_six(call: &str, code: u8, before: &State, account: usize, tally: &mut Tally) {
    let (own, tables) = (before.block(account), &before.tables());
    let lends_tables = call != "roll";
    let own_at_fault = !block::is_sound(own) || lends_tables && holds_unlisted(own, tables);
    if code != Refusal::BrokenBlock as u8 || own_at_fault {
        return;
    }
    let members = Members::of(before.blocks(), account);
    let any = |fault: &dyn Fn(&block::Block) -> bool| members.iter().any(|block| fault(block));
    let [five, closed, damaged, other] = [
        members.len() > MEMBERS,
        any(&|block| block[KIND] == block::NOT_OPEN),
        any(&|block| block[KIND] != block::NOT_OPEN && !block::is_sound(block)),
        any(&|block| block[KIND] != own[KIND] && block::is_sound(block)),
    ];
    let fault = match [five, other, closed, damaged] {
        [true, false, false, false] => FAULTS[0],
        [false, true, false, false] => FAULTS[1],
        [false, false, true, false] => FAULTS[2],
        [false, false, false, true] => FAULTS[3],
        [false, false, false, false] if call == "app" => return tally.count(THROUGH, "app: unlisted holding"),
        [false, false, false, false] => return tally.count(UNLISTED, call),
        _ => return,
    };
    tally.count(THROUGH, format!("{call}: {fault}"));
}
