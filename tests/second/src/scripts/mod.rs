//! Call scripts that reach what sessions cannot: hand-made books and tables, every place of the tables broken or laxer,
//! every number of a block, settlement codes that no call makes, wrong lengths, arguments of any size, two grounds of
//! refusal at once, and the figures for the phone app. The same bytes for the same seed.

mod app;
mod arguments;
mod blocks;
mod books;
mod codes;
mod cover;
mod edges;
mod exact;
mod lengths;
mod maker;
mod pairs;
mod places;
mod sessions;
mod stricter;
mod trouble;
mod unapp;

pub use blocks::bounds_of;
pub use pairs::{CALLS as PAIRS, title as pair};
pub use unapp::{PATTERNS, signs};

use maker::Maker;

/// So many seeds one after another share out all places of the tables and all numbers of a block.
pub const SHARES: u64 = 66;

/// A script, and which pairs of grounds it showed, each alone and both at once.
pub struct Script {
    pub text: Vec<u8>,
    pub pairs: Vec<String>,
}

pub fn script(seed: u64) -> Script {
    let mut maker = Maker::new(seed);
    for scene in [
        places::every_row_there,
        places::no_row_there,
        stricter::scene,
        blocks::damaged,
        blocks::unlisted_holdings,
        codes::scene,
        lengths::scene,
        pairs::scene,
        cover::scene,
        arguments::scene,
        books::scene,
        sessions::scene,
        app::refusals,
        app::greatest,
        exact::scene,
        unapp::scene,
    ] {
        maker.reset();
        scene(&mut maker);
    }
    maker.into_script()
}
