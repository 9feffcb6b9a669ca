//! What is asked: worlds of tables and books, each with its cases. Worlds of one set are timed in the same rounds, so that they may be compared.

use second::calls::{BUY, Order, SELL};
use second::units::*;

use crate::books::{BOOKS, Book, books, in_trouble};
use crate::random::Random;
use crate::tables::{Owned, Tables};
use crate::work::{Asked, Call, Case, Work};

const SEED: u64 = 0xd1b5_4a32_d192_ed03;
/// What a refused order takes, more than any limit here.
const REFUSED_MONEY: i64 = 500_000_000_000;
const REFUSED_UNITS: i64 = 900_000;
/// An order of so few units for so much money: the money decides whether it lowers or raises the limit.
const FEW_UNITS: i64 = 3;
const MONEY: i64 = 2_000_000;
/// The assets listed where nothing else is said.
const LISTED: usize = 16;

pub struct World {
    pub tables: Tables,
    pub books: Vec<Book>,
    pub cases: Vec<Case>,
}

/// Every set of worlds, by the name that its lines have.
pub fn sets() -> Vec<(&'static str, Vec<World>)> {
    let mut sets: Vec<_> = [0, 1, 4, 16].map(|listed| ("assets", vec![of_assets(listed)])).into();
    sets.push(("own rows", Owned::EACH.map(with_own_rows).into()));
    sets.push(("blocks", [1, 2, 4].map(on_codes).into()));
    sets.push(("place", [0, TABLE - 1, 2 * TABLE + GROUPS - 1].map(broken_at).into()));
    sets.push(("code", vec![of_no_account(), of_broken_blocks(), of_closed_accounts()]));
    sets
}

/// With so many assets listed and held, every call; with none there is nothing to order.
fn of_assets(listed: usize) -> World {
    let calls: &[Call] = if listed == 0 { &Call::EACH[..2] } else { &Call::EACH };
    World::new(listed, Owned::Third, 0, calls, listed)
}

fn with_own_rows(owned: Owned) -> World {
    World::new(LISTED, owned, 0, &[Call::CheckTables, Call::Report, Call::OrderAdmitted], owned.rows(LISTED))
}

/// So many blocks share a settlement code.
fn on_codes(blocks: usize) -> World {
    World::new(LISTED, Owned::Third, blocks, &[Call::Report, Call::OrderAdmitted], blocks)
}

fn broken_at(place: usize) -> World {
    let mut world = World::new(LISTED, Owned::Third, 0, &[Call::CheckTables], place);
    *world.tables.at(place) = MOST_DISCOUNT + 1;
    world.refuse("table check, broken", 2);
    world
}

fn of_no_account() -> World {
    let mut world = World::new(LISTED, Owned::Third, 0, &[Call::Report], 3);
    for asked in world.reports() {
        asked.account = ACCOUNTS as i64;
    }
    world.refuse("report refused", 3);
    world
}

/// The last number of each block is out of bounds.
fn of_broken_blocks() -> World {
    let mut world = World::new(LISTED, Owned::Third, 0, &[Call::Report], 6);
    for block in world.books.iter_mut().flat_map(|book| book.chunks_exact_mut(BLOCK)) {
        block[BLOCK - 1] = MOST_UNITS + 1;
    }
    world.refuse("report refused", 6);
    world
}

fn of_closed_accounts() -> World {
    let mut world = World::new(LISTED, Owned::Third, 0, &[Call::Report], 4);
    world.books.iter_mut().for_each(|book| book.fill(0));
    world.refuse("report refused", 4);
    world
}

impl World {
    /// `count` is what the world's lines are told apart by.
    fn new(listed: usize, owned: Owned, blocks: usize, calls: &[Call], count: usize) -> World {
        let mut random = Random::new(SEED);
        let case = |&call: &Call| {
            let work = work(call, listed, &mut random);
            Case { name: call.name(), call, count, work, code: call.code() }
        };
        let cases = calls.iter().map(case).collect();
        World { tables: Tables::new(listed, owned), books: books(listed, blocks), cases }
    }

    fn reports(&mut self) -> impl Iterator<Item = &mut Asked> {
        self.cases.iter_mut().flat_map(|case| match &mut case.work {
            Work::Report(asked) => &mut asked[..],
            _ => &mut [],
        })
    }

    /// The world's only case, made to be turned away.
    fn refuse(&mut self, name: &'static str, code: u8) {
        let [case] = &mut self.cases[..] else { panic!("one case") };
        (case.name, case.code) = (name, code);
    }
}

/// What is asked of every account that the call is for, in a shuffled order.
fn work(call: Call, listed: usize, random: &mut Random) -> Work {
    let accounts = (0..ACCOUNTS).filter(|&account| call.is_for(in_trouble(account)));
    let mut asked: Vec<Asked> =
        accounts.flat_map(|account| (0..BOOKS).map(move |book| Asked { book, account: account as i64 })).collect();
    random.shuffle(&mut asked);
    match call {
        Call::CheckTables => Work::Check,
        Call::Report => Work::Report(asked),
        _ => Work::Order(asked.iter().map(|asked| (asked.book, order(call, asked.account, listed, random))).collect()),
    }
}

/// An order that is answered as the call says.
fn order(call: Call, account: i64, listed: usize, random: &mut Random) -> Order {
    let asset = random.below(listed) as i64;
    let date = random.below(DATES) as i64;
    let side = if call == Call::TroubleAdmitted { SELL } else { random.pick(&[BUY, SELL]) };
    let (quantity, money) = match (call, side) {
        (Call::OrderRefused, SELL) => (REFUSED_UNITS, 0),
        (Call::OrderRefused, _) => (1, REFUSED_MONEY),
        (Call::TroubleRefused, SELL) => (FEW_UNITS, 0),
        _ => (FEW_UNITS, MONEY),
    };
    Order { account, asset, date, side, quantity, money }
}
