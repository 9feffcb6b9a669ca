//! Timing in turn. In each round every contestant makes the same slice of calls of every case, a fraction of a millisecond long, so that a slow
//! stretch of the machine meets all of them: the shorter the slices, the less their ratio is disturbed. Who goes first changes from round to round.
//! Each round has its own calls and its own ratio: the page takes medians and percentiles of these.

use crate::clock::Clock;
use crate::contestants::Side;
use crate::work::{Case, Slice};
use crate::worlds::World;

pub const ROUNDS: usize = 900;
/// What the slowest contestant's slice should take, in nanoseconds.
const LENGTH: f64 = 150_000.0;
/// So many calls are made to find out how long one takes.
const FIRST: Slice = Slice { from: 0, count: 64 };

/// Nanoseconds a call, one number a round, for each contestant.
type Times = Vec<Vec<f64>>;

/// Prints a line for each case and contestant, tab-separated: set, call, count, contestant, then the nanoseconds a call of each round.
pub fn measure(set: &str, worlds: &mut [World], sides: &[Side]) {
    let mut all: Vec<(usize, usize, usize, Times)> = Vec::new();
    for (world, of_world) in worlds.iter_mut().enumerate() {
        for case in 0..of_world.cases.len() {
            let count = enough(of_world, case, sides);
            all.push((world, case, count, vec![Vec::new(); sides.len()]));
        }
    }
    let clock = Clock::new();
    for round in 0..ROUNDS {
        for (world, case, count, times) in &mut all {
            let slice = Slice { from: round * *count, count: *count };
            let World { tables, books, cases } = &mut worlds[*world];
            let case = &cases[*case];
            case.fetch(books, slice);
            for turn in 0..sides.len() {
                let at = whose(round, turn, sides.len());
                let took = clock.nanoseconds(|| answered(case, case.run(sides[at], tables, books, slice), slice));
                times[at].push(took / slice.count as f64);
            }
        }
    }
    for (world, case, _, times) in &all {
        let Case { name, count, .. } = &worlds[*world].cases[*case];
        for (side, times) in sides.iter().zip(times) {
            let times: Vec<String> = times.iter().map(|time| format!("{time:.1}")).collect();
            println!("{set}\t{name}\t{count}\t{}\t{}", side.name(), times.join("\t"));
        }
    }
}

/// Every contestant comes first, in the middle and last equally often, after either of the others.
fn whose(round: usize, turn: usize, sides: usize) -> usize {
    let turn = if round / sides % 2 == 0 { turn } else { sides - 1 - turn };
    (round + turn) % sides
}

/// So many calls that the slowest contestant takes LENGTH.
fn enough(world: &mut World, case: usize, sides: &[Side]) -> usize {
    let World { tables, books, cases } = world;
    let case = &cases[case];
    let mut slowest: f64 = 1.0;
    for &side in sides {
        // The first time is warming up.
        for _ in 0..2 {
            let took = Clock::new().nanoseconds(|| answered(case, case.run(side, tables, books, FIRST), FIRST));
            slowest = slowest.max(took / FIRST.count as f64);
        }
    }
    (LENGTH / slowest).ceil() as usize
}

fn answered(case: &Case, right: usize, slice: Slice) {
    assert_eq!(right, slice.count, "{}: an answer changed on the way", case.name);
}
