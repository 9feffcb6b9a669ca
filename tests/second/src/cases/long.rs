//! A long session whose answers are the second program's word: nobody worked them out by hand.

use super::Case;
use crate::generate;
use crate::session::answers;

pub fn session() -> Case {
    const SEED: u64 = 8;
    const LINES: usize = 5_000;
    let input = generate::session(SEED, LINES);
    let output = answers(&input);
    Case { name: "long".to_string(), input, output }
}
