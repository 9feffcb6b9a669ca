//! The contestants on damaged worlds: some numbers of the tables or of a book are replaced, by what is near a bound, by what stands elsewhere, or by
//! anything. Codes, places, figures and books must still be the same. This is what the reference is right by; the engine has its proofs.

use second::block::{NETS, holding_start};
use second::calls::{BUY, Order, SELL};
use second::units::*;

use crate::books::{Book, books};
use crate::random::Random;
use crate::same;
use crate::tables::{Owned, Tables};

const SEED: u64 = 0xa076_1d64_78bd_642f;
const DAMAGES: usize = 40_000;
/// Places of the tables, and of them all.
const PLACES: usize = 2 * TABLE + GROUPS;

/// What bounds are, and what breaks a sum that is not looked at first.
const EDGES: [i64; 16] = [
    0,
    1,
    2,
    3,
    MOST_DISCOUNT,
    WHOLE,
    MOST_UNITS,
    -MOST_UNITS,
    MOST_PRICE,
    -MOST_PRICE,
    MOST_RUBLES,
    -MOST_RUBLES,
    i64::MAX,
    i64::MIN,
    i64::MAX - MOST_PRICE,
    i64::MIN + MOST_PRICE,
];

/// Stops the program where they differ; hands back how often each code came up, of checks, reports and orders.
pub fn check() -> [[usize; 14]; 3] {
    let mut random = Random::new(SEED);
    let mut counts = [[0; 14]; 3];
    for (listed, owned, blocks) in
        [(16, Owned::Third, 0), (16, Owned::All, 2), (4, Owned::Third, 4), (1, Owned::All, 0)]
    {
        let (tables, books) = (Tables::new(listed, owned), books(listed, blocks));
        for _ in 0..DAMAGES / 4 {
            let book = &books[random.below(books.len())];
            check_damaged(&mut random, tables.clone(), book.clone(), &mut counts);
        }
    }
    counts
}

fn check_damaged(random: &mut Random, mut tables: Tables, mut book: Book, counts: &mut [[usize; 14]; 3]) {
    let account = random.below(ACCOUNTS);
    for _ in 0..random.below(4) {
        match random.below(8) {
            0 => damage_tables(random, &mut tables),
            1 => damage_dates(random, &mut tables),
            2 => book[BLOCK * account..BLOCK * (account + 1)].fill(0),
            3 => fill_up(random, &mut book, account),
            _ => damage_book(random, &mut book, account),
        }
    }
    let account = if random.below(50) == 0 { wild(random) } else { account as i64 };
    let (tables, wanted) = (&tables.lent(), order(random, account));
    let checked = same::check_tables(tables).0;
    let reported = same::report(&book, tables, account).0;
    let ordered = same::order(&book, tables, &wanted).0;
    for (of_call, code) in counts.iter_mut().zip([checked, reported, ordered]) {
        of_call[usize::from(code)] += 1;
    }
}

fn damage_tables(random: &mut Random, tables: &mut Tables) {
    let place = random.below(PLACES);
    let elsewhere = [place.saturating_sub(1), place.saturating_sub(2), place ^ TABLE, place % 2 * ROW];
    let near = *tables.at(random.pick(&elsewhere).min(PLACES - 1));
    *tables.at(place) = other(random, near);
}

/// A date's number by its price, its mid or a distance: where rules over two numbers end.
fn damage_dates(random: &mut Random, tables: &mut Tables) {
    let row = ROW * random.below(2 * ASSETS);
    let date = row + 16 + 5 * random.below(DATES);
    let mid = *tables.at(date);
    let far = [0, MOST_PRICE, -MOST_PRICE, MOST_PRICE - *tables.at(row + 1), -*tables.at(row + 1)];
    *tables.at(date + random.below(5)) = mid.saturating_add(random.pick(&far)).saturating_add(random.from_to(-1, 1));
}

/// Something of a holding, or the rubles of a date, near its bound.
fn fill_up(random: &mut Random, book: &mut Book, account: usize) {
    let units = holding_start(random.below(ASSETS)) + random.below(17);
    let net = NETS.start + random.below(DATES);
    let (place, most) = random.pick(&[(units, MOST_UNITS), (net, MOST_RUBLES)]);
    book[BLOCK * account + place] = most - random.from_to(0, 500);
}

/// A number of the account's block, or of any other.
fn damage_book(random: &mut Random, book: &mut Book, account: usize) {
    let block = if random.below(2) == 0 { account } else { random.below(ACCOUNTS) };
    let heads = if random.below(2) == 0 { BLOCK } else { 16 };
    let place = BLOCK * block + random.below(heads);
    let near = book[BLOCK * random.below(ACCOUNTS) + place % BLOCK];
    book[place] = other(random, near);
}

fn other(random: &mut Random, near: i64) -> i64 {
    match random.below(4) {
        0 => near.wrapping_add(random.from_to(-1, 1)),
        1 => random.from_to(-3, 20),
        _ => wild(random),
    }
}

fn wild(random: &mut Random) -> i64 {
    match random.below(4) {
        0 => random.any() as i64,
        _ => random.pick(&EDGES).wrapping_add(random.from_to(-1, 1)),
    }
}

fn order(random: &mut Random, account: i64) -> Order {
    let mut numbers = [
        random.below(ASSETS) as i64,
        random.below(DATES) as i64,
        random.pick(&[BUY, SELL]),
        random.from_to(1, 1_000),
        random.from_to(0, 20_000_000),
    ];
    if random.below(4) == 0 {
        numbers[random.below(5)] = wild(random);
    }
    let [asset, date, side, quantity, money] = numbers;
    Order { account, asset, date, side, quantity, money }
}
