//! Orders steered by their money to the limit they leave: a kopeck of money is a kopeck of the limit.

use crate::block::Book;
use crate::calls::{BUY, Order, make};
use crate::limit::figures;
use crate::tables::Tables;
use crate::units::MOST_RUBLES;

pub struct Steered {
    free: Order,
    /// The limit after it.
    limit: i64,
}

impl Steered {
    /// `free` is an order for nothing, of an account, an asset and a date that are there.
    pub fn new(free: Order, book: &Book, tables: &Tables) -> Steered {
        let mut book = *book;
        let account = free.account as usize;
        let changes = free.changes(&book[account], free.asset as usize, free.date as usize);
        make(&mut book[account], changes);
        Steered { free, limit: figures(&book, account, tables).limit() }
    }

    /// The order for the money that leaves this limit, if an order can be for so much.
    pub fn leaving(&self, limit: i64) -> Option<Order> {
        // A buy pays the money out of the limit, a sell into it.
        let money = if self.free.side == BUY { self.limit - limit } else { limit - self.limit };
        (0..=MOST_RUBLES).contains(&money).then_some(Order { money, ..self.free })
    }
}
