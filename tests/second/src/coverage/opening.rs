//! Coverage of document 02, #104, at opening: how many are on the code already, and each cause of 7.

use super::{Step, tally::Tally};
use crate::block::{self, Block, CODE, KIND, LISTED_POOL, NOT_OPEN, ORDINARY};
use crate::calls::{DONE, Refusal};
use crate::units::*;

const OPENED: &str = "opened, and blocks on the code before";
const SEVEN: &str = "opening answered with 7, alone for";
const CAUSES: [&str; 4] = ["kind", "code above 15", "four there", "another kind there"];
const OF_SCRIPTS: &str = "opening answered with 7 in scripts, alone for";
const CAUSES_OF_SCRIPTS: [&str; 4] = ["code below 0", "block not open there", "damaged block there", "five there"];

pub fn expect(tally: &mut Tally) {
    tally.expect(OPENED, ["no code", "0", "1", "2", "3"]);
    tally.expect(SEVEN, CAUSES);
}

/// What call scripts alone show.
pub fn expect_hand_made(tally: &mut Tally) {
    tally.expect(OF_SCRIPTS, CAUSES_OF_SCRIPTS);
}

pub fn count(step: &Step, kind: i64, code: i64, tally: &mut Tally) {
    let there: Vec<_> = step.before.blocks().iter().filter(|block| code != 0 && block[CODE] == code).collect();
    if step.code == DONE {
        return tally.count(OPENED, if code == 0 { "no code".to_string() } else { there.len().to_string() });
    }
    if step.code != Refusal::NoSuchChoice as u8 {
        return;
    }
    let any = |fault: &dyn Fn(&Block) -> bool| there.iter().any(|block| fault(block));
    let closed = any(&|block| block[KIND] == NOT_OPEN);
    let damaged = any(&|block| block[KIND] != NOT_OPEN && !block::is_sound(block));
    let other = any(&|block| block[KIND] != kind && block::is_sound(block));
    let causes = [
        (!(ORDINARY..=LISTED_POOL).contains(&kind), SEVEN, CAUSES[0]),
        (code > MOST_CODE, SEVEN, CAUSES[1]),
        (there.len() == MEMBERS, SEVEN, CAUSES[2]),
        (other, SEVEN, CAUSES[3]),
        (code < 0, OF_SCRIPTS, CAUSES_OF_SCRIPTS[0]),
        (closed, OF_SCRIPTS, CAUSES_OF_SCRIPTS[1]),
        (damaged, OF_SCRIPTS, CAUSES_OF_SCRIPTS[2]),
        (there.len() > MEMBERS, OF_SCRIPTS, CAUSES_OF_SCRIPTS[3]),
    ];
    if let [(_, title, cause)] = causes.iter().filter(|(holds, ..)| *holds).collect::<Vec<_>>()[..] {
        tally.count(title, cause);
    }
}
