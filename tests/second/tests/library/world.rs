//! A book, tables and groups to call the library with, and the calls with their codes.

use second::block::{Block, holding_start};
use second::calls::{self, Move, Order, Refusal};
use second::cases::{GROUP_ONE, Held, Sum, row_a};
use second::limit::Figures;
use second::row::Row;
use second::tables::Lent;
use second::units::*;

/// Where the settlement code stands in a block.
pub const CODE: usize = 13;

#[derive(Clone, PartialEq)]
pub struct World {
    pub book: Vec<i64>,
    pub clearing: Vec<i64>,
    pub own: Vec<i64>,
    pub groups: Vec<i64>,
}

impl World {
    /// An empty book; asset 0 has row A.
    pub fn new() -> World {
        let mut world =
            World { book: vec![0; BOOK], clearing: vec![0; TABLE], own: vec![0; TABLE], groups: vec![0; GROUPS] };
        world.groups[0] = GROUP_ONE;
        world.list(0, &row_a());
        world
    }

    /// Account 0 holds what the sum says, under its rows.
    pub fn of_sum(sum: &Sum) -> World {
        let mut world = World::new();
        for asset in 0..sum.assets {
            world.list(asset, &sum.row());
        }
        let block = world.block(0);
        block[0] = sum.account_kind;
        for held in sum.holding {
            match *held {
                Held::Collateral { asset, units } => block[collateral(asset)] = units,
                Held::Claim { asset, date, units } => block[claim(asset, date)] = units,
                Held::Obligation { asset, date, units } => block[obligation(asset, date)] = units,
            }
        }
        world
    }

    /// Ordinary accounts 0 and up on settlement code 3, each with its numbers.
    pub fn on_one_code(accounts: &[&[(usize, i64)]]) -> World {
        let mut world = World::new();
        for (account, numbers) in accounts.iter().enumerate() {
            world.block(account)[0] = 1;
            world.block(account)[CODE] = 3;
            for &(number, value) in *numbers {
                world.block(account)[number] = value;
            }
        }
        world
    }

    pub fn list(&mut self, asset: usize, row: &Row) {
        self.clearing[ROW * asset..ROW * (asset + 1)].copy_from_slice(row);
    }

    pub fn block(&mut self, account: usize) -> &mut Block {
        &mut self.book.as_chunks_mut().0[account]
    }

    pub fn lent(&self) -> Lent<'_> {
        Lent { clearing: &self.clearing, own: &self.own, groups: &self.groups }
    }

    pub fn check_tables(&self) -> (u8, usize) {
        calls::check_tables(&self.lent())
    }

    pub fn report(&self, account: i64) -> Result<Figures, Refusal> {
        calls::report(&self.book, &self.lent(), account)
    }

    /// What accounts 0 and up of one settlement code report: each the same.
    pub fn code_figures(&self, accounts: i64) -> [i64; 5] {
        let figures = self.report(0).expect("a report").five();
        for account in 1..accounts {
            assert_eq!(self.report(account).expect("a report").five(), figures);
        }
        figures
    }

    /// The code of a call; where it is turned away the book must be as it was.
    pub fn call(&mut self, call: Call) -> u8 {
        let before = self.book.clone();
        let lent = Lent { clearing: &self.clearing, own: &self.own, groups: &self.groups };
        let answer = match call {
            Call::Open(account, kind) => calls::open(&mut self.book, account, kind, 0),
            Call::OpenOn(account, kind, code) => calls::open(&mut self.book, account, kind, code),
            Call::Move(wanted) => calls::move_collateral(&mut self.book, &lent, &wanted),
            Call::Order(wanted) => calls::order(&mut self.book, &lent, &wanted),
            Call::Roll(account) => calls::roll(&mut self.book, account),
            Call::Report(account) => calls::report(&self.book, &lent, account).map(|_| ()),
        };
        if answer.is_err() {
            assert!(self.book == before, "a refusal altered the book");
        }
        calls::code(&answer)
    }
}

#[derive(Clone, Copy)]
pub enum Call {
    /// Without a settlement code.
    Open(i64, i64),
    OpenOn(i64, i64, i64),
    Move(Move),
    Order(Order),
    Roll(i64),
    Report(i64),
}

/// One of each call for an account, good in an account with rubles; open comes first.
pub fn calls_of(account: i64) -> [Call; 5] {
    [
        Call::Open(account, 1),
        Call::Move(Move { account, asset: 255, amount: 1 }),
        Call::Order(Order { account, asset: 0, date: 0, side: 0, quantity: 1, money: 0 }),
        Call::Roll(account),
        Call::Report(account),
    ]
}

/// Places in a block.
pub fn collateral(asset: usize) -> usize {
    holding_start(asset)
}

pub fn claim(asset: usize, date: usize) -> usize {
    holding_start(asset) + 1 + date
}

pub fn obligation(asset: usize, date: usize) -> usize {
    holding_start(asset) + 1 + DATES + date
}
