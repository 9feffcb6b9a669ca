//! The books: thirty-two, and every account of every book has another random block, so that no branch goes the same way for long and there are more
//! ways than a branch predictor learns. Positions of either sign, above and below the concentration limits. Half of the accounts have rubles, and a
//! limit above 0; the others owe rubles, and are in trouble. Where accounts share settlement codes, those of a code are of one kind and have together
//! the rubles that one has alone.

use second::block::{CLAIMS, CODE, COLLATERAL, KIND, LISTED_POOL, NETS, OBLIGATIONS, ORDINARY, RUBLES, holding_start};
use second::units::*;

use crate::random::Random;

pub const BOOKS: usize = 32;
const SEED: u64 = 0x9e37_79b9_7f4a_7c15;

/// Rubles that keep a limit above 0, or below it, also after an order that raises it.
const RUBLES_HELD: i64 = 2_000_000_000;
const RUBLES_OWED: i64 = -2_000_000_000;

pub type Book = Vec<i64>;

/// Accounts by fours: those that share a code are in trouble together or not at all.
pub fn in_trouble(account: usize) -> bool {
    account / MEMBERS % 2 == 1
}

/// With the first `listed` assets held in every account; `blocks` accounts share a settlement code, none where it is 0.
pub fn books(listed: usize, blocks: usize) -> Vec<Book> {
    let mut random = Random::new(SEED);
    (0..BOOKS).map(|_| book(&mut random, listed, blocks)).collect()
}

fn book(random: &mut Random, listed: usize, blocks: usize) -> Book {
    let mut book = vec![0; BOOK];
    for (account, block) in book.chunks_exact_mut(BLOCK).enumerate() {
        let rubles = if in_trouble(account) { RUBLES_OWED } else { RUBLES_HELD };
        write_block(random, block, listed, rubles / blocks.max(1) as i64);
    }
    if blocks > 0 {
        share_codes(&mut book, blocks);
    }
    book
}

/// Of sixteen codes of one block each the last would be 16, and is none.
fn share_codes(book: &mut [i64], blocks: usize) {
    for account in 0..ACCOUNTS {
        let first = BLOCK * (account / blocks * blocks);
        book[BLOCK * account + KIND] = book[first + KIND];
        book[BLOCK * account + CODE] = (1 + account / blocks) as i64 % (MOST_CODE + 1);
    }
}

/// An open account that holds something of each listed asset on each date.
fn write_block(random: &mut Random, block: &mut [i64], listed: usize, rubles: i64) {
    block[KIND] = random.from_to(ORDINARY, LISTED_POOL);
    block[RUBLES] = rubles + random.from_to(0, 20_000);
    for net in &mut block[NETS] {
        *net = random.from_to(-1_000_000, 1_000_000);
    }
    for asset in 0..listed {
        let holding = &mut block[holding_start(asset)..];
        holding[COLLATERAL] = random.from_to(-200, 840);
        for date in 0..DATES {
            holding[CLAIMS.start + date] = random.from_to(40, 410);
            holding[OBLIGATIONS.start + date] = random.from_to(30, 400);
        }
    }
}
