//! `bench-calls SIDE...`: compares all contestants, then times those named (engine, second, reference) and prints their times (rounds.rs).

use bench::contestants::{SIDES, Side};
use bench::{damage, rounds, same, worlds};

fn main() {
    let named: Vec<String> = std::env::args().skip(1).collect();
    let sides: Vec<Side> = SIDES.into_iter().filter(|side| named.iter().any(|name| name == side.name())).collect();
    for (call, codes) in ["check", "report", "order"].iter().zip(damage::check()) {
        eprintln!("damaged, {call}: answers by code {codes:?}, none differs");
    }
    for (set, mut worlds) in worlds::sets() {
        worlds.iter().for_each(same::check);
        rounds::measure(set, &mut worlds, &sides);
    }
}
