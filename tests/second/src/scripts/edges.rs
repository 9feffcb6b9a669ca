//! A hand-made block at the edges of the calls: a limit of −1, 0 and 1 after them, and numbers at their bounds and one past.

use super::maker::Maker;
use crate::block::{Block, Book, CLAIMS, COLLATERAL, NETS, OBLIGATIONS, RUBLES, holding_start};
use crate::calls::{self, BUY, Move, Order, SELL, make};
use crate::limit::figures;
use crate::script::{Buffers, Command};
use crate::units::*;

/// Of an account that holds listed assets under tables that pass.
pub fn of(maker: &mut Maker, wanted: &Buffers, account: usize) {
    let tables = wanted.tables().expect("right lengths");
    let assets: Vec<_> = (0..ASSETS).filter(|&asset| tables.is_listed(asset)).collect();
    let asset = maker.random.pick(&assets);
    let scene = Scene { wanted, account, asset };
    scene.limit_after_order(maker);
    scene.limit_after_withdrawals(maker);
    scene.trouble(maker);
    scene.moves(maker);
    scene.orders(maker);
    scene.rolls(maker);
}

pub struct Scene<'a> {
    pub wanted: &'a Buffers,
    pub account: usize,
    pub asset: usize,
}

impl Scene<'_> {
    /// The call on the account's block with some numbers changed.
    pub fn call(&self, maker: &mut Maker, changes: &[(usize, i64)], call: Command) {
        let mut wanted = self.wanted.clone();
        *wanted.block_mut(self.account) = self.block_with(changes);
        maker.lend(&wanted);
        maker.call(call);
    }

    /// The account's block with some numbers changed.
    pub fn block_with(&self, changes: &[(usize, i64)]) -> Block {
        let mut block = *self.wanted.block(self.account);
        for &(place, value) in changes {
            block[place] = value;
        }
        block
    }

    /// The limit of the account's code, this being the account's block.
    pub fn limit(&self, block: &Block) -> i64 {
        figures(&self.book_with(block), self.account, &self.wanted.tables().expect("right lengths")).limit()
    }

    pub fn book_with(&self, block: &Block) -> Book {
        let mut book = *self.wanted.blocks();
        book[self.account] = *block;
        book
    }

    /// The call with rubles such that `change` leaves a limit of −1, 0 and 1: a kopeck of rubles is a kopeck of the limit.
    fn around_zero(&self, maker: &mut Maker, change: impl Fn(&mut Block), call: Command) {
        let mut block = *self.wanted.block(self.account);
        let rubles = block[RUBLES];
        change(&mut block);
        let limit = self.limit(&block);
        for left in [-1, 0, 1] {
            let needed = rubles + left - limit;
            if needed.abs() <= MOST_RUBLES {
                self.call(maker, &[(RUBLES, needed)], call);
            }
        }
    }

    fn limit_after_order(&self, maker: &mut Maker) {
        let money = maker.random.up_to(1_000_000);
        for side in [BUY, SELL] {
            let order = Order { money, ..self.some_order(maker, side) };
            let change = |block: &mut Block| {
                let changes = order.changes(block, self.asset, order.date as usize);
                make(block, changes);
            };
            self.around_zero(maker, change, Command::Order(order));
        }
    }

    /// For nothing.
    pub fn some_order(&self, maker: &mut Maker, side: i64) -> Order {
        let date = maker.random.below(DATES) as i64;
        let quantity = maker.random.up_to(1_000).max(1);
        Order { account: self.account as i64, asset: self.asset as i64, date, side, quantity, money: 0 }
    }

    pub fn limit_after_withdrawals(&self, maker: &mut Maker) {
        let place = holding_start(self.asset) + COLLATERAL;
        let held = self.wanted.block(self.account)[place];
        if held > 0 {
            let units = maker.random.between(1, held);
            let call = self.moved(self.asset as i64, -units);
            self.around_zero(maker, |block| block[place] -= units, call);
        }
        let kopecks = maker.random.up_to(1_000_000).max(1);
        let call = self.moved(calls::RUBLES, -kopecks);
        self.around_zero(maker, |block| block[RUBLES] -= kopecks, call);
    }

    fn moved(&self, asset: i64, amount: i64) -> Command {
        Command::Move(Move { account: self.account as i64, asset, amount })
    }

    /// Deposits to the bound and past it, and below 0; withdrawals to 0 and below it, and from below it.
    fn moves(&self, maker: &mut Maker) {
        let units = holding_start(self.asset) + COLLATERAL;
        for (asset, place, most) in [(self.asset as i64, units, MOST_UNITS), (calls::RUBLES, RUBLES, MOST_RUBLES)] {
            let some = maker.random.between(2, most - 1);
            for (held, amount) in [
                (most - some, some),
                (most - some, some + 1),
                (-some, some - 1),
                (some, -some),
                (some, -some - 1),
                (-some, -1),
                (-most, most),
            ] {
                self.call(maker, &[(place, held)], self.moved(asset, amount));
            }
        }
    }

    /// Claims, obligations and ruble nets at their bounds and one past.
    fn orders(&self, maker: &mut Maker) {
        let date = maker.random.below(DATES);
        let some = maker.random.between(1, MOST_UNITS - 1);
        let money = maker.random.between(1, MOST_RUBLES - 1);
        for (side, trades, sign) in [(BUY, CLAIMS, -1), (SELL, OBLIGATIONS, 1)] {
            let place = holding_start(self.asset) + trades.start + date;
            let good = Order {
                account: self.account as i64,
                asset: self.asset as i64,
                date: date as i64,
                side,
                quantity: 1,
                money,
            };
            for past in [0, 1] {
                let order = Order { quantity: some + past, money: 0, ..good };
                self.call(maker, &[(place, MOST_UNITS - some)], Command::Order(order));
                let order = Order { money: money + past, ..good };
                let changes = [(place, 0), (RUBLES, MOST_RUBLES), (NETS.start + date, sign * (MOST_RUBLES - money))];
                self.call(maker, &changes, Command::Order(order));
            }
        }
    }

    /// Collateral and rubles rolled to their bounds and one past.
    fn rolls(&self, maker: &mut Maker) {
        let start = holding_start(self.asset);
        let (claim, obligation) = (start + CLAIMS.start, start + OBLIGATIONS.start);
        let some = maker.random.between(1, MOST_UNITS);
        let kopecks = maker.random.between(1, MOST_RUBLES);
        let roll = Command::Roll { account: self.account as i64 };
        self.call(maker, &[], roll);
        for (past, sign) in [(0, 1), (1, 1), (0, -1), (1, -1)] {
            let (gained, owed) = if sign > 0 { (some, 0) } else { (0, some) };
            let held = sign * (MOST_UNITS - some + past);
            let units = [(start, held), (claim, gained), (obligation, owed), (RUBLES, 0), (NETS.start, 0)];
            self.call(maker, &units, roll);
            let rubles = [(RUBLES, sign * (MOST_RUBLES - kopecks + past)), (NETS.start, sign * kopecks)];
            self.call(maker, &rubles, roll);
        }
    }
}
