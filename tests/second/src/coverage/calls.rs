//! Coverage of the calls: every code each can answer, two codes at once, the edge of the limit, the bounds of a block.

use super::{State, Step, account_of, codes, tally::Tally, trouble};
use crate::block::{self, Book, COLLATERAL, holding_start};
use crate::calls::{self, BUY, Change, DONE, Move, Order, RUBLES, Refusal, make};
use crate::code::Members;
use crate::frame::Frame;
use crate::joint::Joint;
use crate::limit::figures;
use crate::units::*;

/// Each call and the codes it can answer in a session.
const CODES: [(&str, &[u8]); 6] = [
    ("codes of set", &[0, 7]),
    ("codes of open", &[0, 3, 5, 7]),
    ("codes of move", &[0, 2, 3, 4, 6, 7, 8, 9, 10, 13]),
    ("codes of order", &[0, 2, 3, 4, 6, 7, 8, 9, 10, 13]),
    ("codes of roll", &[0, 3, 4, 9]),
    ("codes of report", &[0, 2, 3, 4, 6, 13]),
];
const PAIR: &str = "orders that two codes apply to";
#[rustfmt::skip]
const PAIRS: [&str; 17] = [
    "2 before 13", "2 before 3", "2 before 4", "2 before 7", "2 before 8", "13 before 3", "13 before 4", "13 before 7",
    "13 before 8", "3 before 7", "3 before 8", "4 before 7", "4 before 8", "6 before 7", "7 before 8", "8 before 9",
    "9 before 10",
];
const EDGE: &str = "limit after a call";
const EDGES: [&str; 3] = ["-1, refused", "0, admitted", "1, admitted"];
const TURN: &str = "an order turns a position sum";
const BOUND: &str = "numbers of a block, highest and one above";
const LOWER_BOUND: &str = "numbers of a block, lowest and one below";
const MOVE: &str = "moves at 0";
const ROLL: &str = "rolls";

/// The first number that is no asset's.
const NO_ASSET: i64 = ASSETS as i64;
const OUT_OF_BOUNDS: u8 = Refusal::OutOfBounds as u8;
pub const LIMIT_BELOW_ZERO: u8 = Refusal::LimitBelowZero as u8;

/// The codes that sessions show.
pub fn expect_codes(tally: &mut Tally) {
    for (call, codes) in CODES {
        tally.expect(call, codes);
    }
}

pub fn expect(tally: &mut Tally) {
    tally.expect(PAIR, PAIRS);
    let calls = ["order", "withdrawal of rubles", "withdrawal of units"];
    tally.expect(EDGE, calls.iter().flat_map(|call| EDGES.map(|edge| format!("{call}: {edge}"))));
    tally.expect(TURN, ["to positive", "to negative", "to zero"]);
    let both = |number: &&str| [format!("{number}"), format!("{number}, past it")];
    let numbers =
        ["claim", "obligation", "net", "deposit of rubles", "deposit of units", "rolled rubles", "rolled units"];
    tally.expect(BOUND, numbers.iter().flat_map(both));
    let numbers = ["net", "withdrawal of rubles", "withdrawal of units", "rolled rubles", "rolled units"];
    tally.expect(LOWER_BOUND, numbers.iter().flat_map(both));
    let moves = ["deposit that leaves less than 0", "withdrawal from less than 0", "deposit below a limit of 0"];
    tally.expect(MOVE, moves);
    tally.expect(ROLL, ["with an unlisted holding", "with later dates to move"]);
    trouble::expect(tally);
}

pub fn count_code(step: &Step, tally: &mut Tally) {
    let call = match step.frame {
        Frame::Set { .. } => 0,
        Frame::Open { .. } => 1,
        Frame::Move(_) => 2,
        Frame::Order(_) => 3,
        Frame::Roll { .. } => 4,
        Frame::Report { .. } => 5,
    };
    tally.count(CODES[call].0, step.code);
}

/// A number that comes to one of its bounds, or is refused one past it.
fn count_bounds(number: &str, after: i64, [lowest, highest]: [i64; 2], code: u8, tally: &mut Tally) {
    tally.count_if(code == DONE && after == highest, BOUND, number);
    tally.count_if(code == OUT_OF_BOUNDS && after == highest + 1, BOUND, format!("{number}, past it"));
    tally.count_if(code == DONE && after == lowest, LOWER_BOUND, number);
    tally.count_if(code == OUT_OF_BOUNDS && after == lowest - 1, LOWER_BOUND, format!("{number}, past it"));
}

fn count_edge<const COUNT: usize>(
    call: &str,
    step: &Step,
    account: usize,
    changes: [Change; COUNT],
    tally: &mut Tally,
) {
    if ![DONE, LIMIT_BELOW_ZERO].contains(&step.code) {
        return;
    }
    let edge = match (limit_after(&step.before, account, changes), step.code) {
        (-1, LIMIT_BELOW_ZERO) => EDGES[0],
        (0, DONE) => EDGES[1],
        (1, DONE) => EDGES[2],
        _ => return,
    };
    tally.count(EDGE, format!("{call}: {edge}"));
}

/// The code's limit after changes to one of its blocks.
pub fn limit_after<const COUNT: usize>(before: &State, account: usize, changes: [Change; COUNT]) -> i64 {
    let mut book = *before.blocks();
    make(&mut book[account], changes);
    figures(&book, account, &before.tables()).limit()
}

pub fn count_order(step: &Step, order: &Order, tally: &mut Tally) {
    count_pair(step, order, tally);
    let tables = step.before.tables();
    let (Some(account), Ok((asset, date))) = (account_of(order.account), order.choice(&tables)) else { return };
    let block = step.before.block(account);
    let changes = order.changes(block, asset, date);
    let units = if order.side == BUY { "claim" } else { "obligation" };
    let [trade, net] = changes.map(|change| change.after);
    // Orders only ever raise claims and obligations, so their lowest is out of sight.
    count_bounds(units, trade, [i64::MIN + 1, MOST_UNITS], step.code, tally);
    count_bounds("net", net, [-MOST_RUBLES, MOST_RUBLES], step.code, tally);
    count_edge("order", step, account, changes, tally);
    trouble::count_order(step, order, changes, tally);
    codes::count_order(step, account, changes, tally);
    if step.code == DONE {
        let sum = |book: &Book| {
            let joint = Joint::of(&Members::of(book, account), asset, tables.row_in_force(asset));
            joint.map_or(0, |joint| joint.asset.position_sum().signum())
        };
        let turn = match (sum(step.before.blocks()), sum(step.after.blocks())) {
            (-1, 1) => "to positive",
            (1, -1) => "to negative",
            (-1 | 1, 0) => "to zero",
            _ => return,
        };
        tally.count(TURN, turn);
    }
}

/// The first two codes that apply to an order, of which the first is to be given.
fn count_pair(step: &Step, order: &Order, tally: &mut Tally) {
    let tables = step.before.tables();
    let mut codes = Vec::new();
    codes.extend(tables.first_broken().map(|_| Refusal::BrokenTable));
    codes.extend(tables.first_laxer().map(|_| Refusal::LaxerOwnRow));
    let account = account_of(order.account);
    match account {
        None => codes.push(Refusal::NoSuchAccount),
        Some(account) => codes.extend(calls::open_block(step.before.blocks(), account, Some(&tables)).err()),
    }
    let account = account.filter(|_| codes.is_empty());
    let choice = order.choice(&tables);
    codes.extend(choice.err());
    codes.extend(order.amounts().err());
    if let (Some(account), Ok((asset, date))) = (account, choice) {
        let block = step.before.block(account);
        let changes = order.changes(block, asset, date);
        codes.extend(calls::leave_in_bounds(changes).err());
        if order.amounts().is_ok() {
            codes.extend(calls::admit(&mut step.before.blocks().clone(), account, changes, &tables).err());
        }
    }
    if let [first, second, ..] = codes[..] {
        let pair = format!("{} before {}", first as u8, second as u8);
        tally.count_if(PAIRS.contains(&pair.as_str()), PAIR, pair);
    }
}

pub fn count_move(step: &Step, wanted: &Move, tally: &mut Tally) {
    let Some(account) = account_of(wanted.account) else { return };
    let block = step.before.block(account);
    let (what, place, most) = match wanted.asset {
        RUBLES => ("rubles", block::RUBLES, MOST_RUBLES),
        0..NO_ASSET => ("units", holding_start(wanted.asset as usize) + COLLATERAL, MOST_UNITS),
        _ => return,
    };
    let after = block[place].saturating_add(wanted.amount);
    if wanted.amount < 0 {
        count_bounds(&format!("withdrawal of {what}"), after, [0, i64::MAX - 1], step.code, tally);
        count_edge(&format!("withdrawal of {what}"), step, account, [Change { place, after }], tally);
        trouble::count_withdrawal(step, account, Change { place, after }, tally);
        codes::count_withdrawal(step, account, Change { place, after }, tally);
        let below = step.code == OUT_OF_BOUNDS && block[place] < 0;
        tally.count_if(below, MOVE, "withdrawal from less than 0");
    } else if [DONE, OUT_OF_BOUNDS].contains(&step.code) {
        count_bounds(&format!("deposit of {what}"), after, [i64::MIN + 1, most], step.code, tally);
        tally.count_if(step.code == DONE && after < 0, MOVE, "deposit that leaves less than 0");
        let limit = limit_after(&step.before, account, [Change { place, after }]);
        tally.count_if(step.code == DONE && limit < 0, MOVE, "deposit below a limit of 0");
    }
}

pub fn count_roll(step: &Step, account: i64, tally: &mut Tally) {
    if ![DONE, OUT_OF_BOUNDS].contains(&step.code) {
        return;
    }
    codes::count_roll(step, account as usize, tally);
    let block = step.before.block(account as usize);
    let rubles = block[block::RUBLES] + block[block::NETS.start];
    count_bounds("rolled rubles", rubles, [-MOST_RUBLES, MOST_RUBLES], step.code, tally);
    for holding in block::holdings(block) {
        let units = holding[COLLATERAL] + holding[block::CLAIMS.start] - holding[block::OBLIGATIONS.start];
        count_bounds("rolled units", units, [-MOST_UNITS, MOST_UNITS], step.code, tally);
    }
    let unlisted = calls::open_block(step.before.blocks(), account as usize, Some(&step.before.tables())).is_err();
    tally.count_if(unlisted && step.code == DONE, ROLL, "with an unlisted holding");
    let later = block[block::NETS.start + 1..block::NETS.end].iter().any(|&net| net != 0);
    tally.count_if(later && step.code == DONE, ROLL, "with later dates to move");
}
