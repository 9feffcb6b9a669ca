//! Session inputs that reach every rule of document 01, #101, #103 and #104 of document 02 often: scenes, drawn by
//! weight, that keep tables that pass the check most of the time. The same bytes for the same seed and count of lines.

mod bounds;
mod codes;
mod edges;
mod faults;
mod maker;
mod random;
mod regimes;
mod rows;
mod steered;
mod stricter;
mod trades;
mod trouble;

pub use faults::HUGE;
pub use random::Random;
pub use rows::{bounds_at, draw as draw_row, settle};
pub use steered::Steered;
pub use stricter::{draw_over, moved as moved_over, settle_over};

use maker::Maker;

/// How often each scene is drawn, in parts of their sum.
const SCENES: [(usize, fn(&mut Maker)); 36] = [
    (70, rows::number_past_its_bound),
    (33, rows::number_at_its_bound),
    (9, rows::unlisted_row_broken),
    (10, rows::own_row_over_unlisted),
    (5, rows::group_percent),
    (3, rows::list),
    (4, rows::lend_own_row),
    (3, rows::shock),
    (3, rows::unlist_what_is_held),
    (16, stricter::either_side),
    (6, stricter::beside_broken),
    (10, stricter::in_force),
    (6, trades::open),
    (10, trades::deposit),
    (8, trades::withdraw),
    (60, trades::trade),
    (5, regimes::claims_left_out),
    (6, regimes::spread),
    (6, regimes::spreads_of_two_groups),
    (3, regimes::special_spread),
    (8, trades::roll),
    (10, edges::order),
    (6, edges::withdrawal_of_rubles),
    (6, edges::withdrawal_of_units),
    (3, trouble::orders),
    (3, trouble::withdrawals),
    (7, bounds::scene),
    (4, codes::open_by_hand),
    (3, codes::fill),
    (6, codes::against),
    (6, codes::live_on_others),
    (6, codes::in_trouble_together),
    (4, codes::unlisted_in_another),
    (3, codes::roll_one),
    (22, faults::call),
    (14, faults::line),
];

/// A session of `lines` lines, the last sometimes without its newline.
pub fn session(seed: u64, lines: usize) -> Vec<u8> {
    let mut maker = Maker::new(seed, lines);
    start(&mut maker);
    while !maker.is_full() {
        let scene = draw(&mut maker);
        scene(&mut maker);
    }
    let bare_end = maker.random.percent(25);
    let mut text = maker.into_text();
    if bare_end {
        text.pop();
    }
    text
}

fn draw(maker: &mut Maker) -> fn(&mut Maker) {
    let mut drawn = maker.random.below(SCENES.iter().map(|(weight, _)| weight).sum());
    for (weight, scene) in SCENES {
        if drawn < weight {
            return scene;
        }
        drawn -= weight;
    }
    unreachable!("the weights sum to what was drawn from")
}

/// Some assets and accounts to begin with.
fn start(maker: &mut Maker) {
    faults::call(maker);
    rows::percent_to_begin_with(maker);
    for _ in 0..maker.random.between(2, 4) {
        rows::list(maker);
    }
    if maker.random.percent(60) {
        rows::lend_own_row(maker);
    }
    for _ in 0..maker.random.between(3, 5) {
        trades::open(maker);
    }
}
