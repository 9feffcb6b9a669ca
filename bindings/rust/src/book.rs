//! The book.

use crate::calls::{self, Figures, Order};
use crate::feed::Feed;
use crate::names::{
    ACCOUNTS, ASSETS, BLOCK_HOLDINGS, BLOCK_LENGTH, BLOCK_RUBLE_COLLATERAL, BLOCK_RUBLE_NETS, BOOK_LENGTH, DATES,
    HOLDING_CLAIMS, HOLDING_LENGTH, HOLDING_OBLIGATIONS,
};
use crate::refusal::Refusal;
use crate::tables::Tables;

/// Sixteen accounts, none open at first. A refused call leaves it as it was.
///
/// What a number may be is for the engine to say, so calls take any: an account of 16 is `Refusal::NoAccount`.
#[derive(Clone, Debug, PartialEq, Eq)]
pub struct Book(Box<[i64; BOOK_LENGTH]>);

impl Book {
    /// Open an account of a kind (`names::ACCOUNT_ORDINARY`, `ACCOUNT_POOL`, `ACCOUNT_POOL_OF_THE_LIST`) on a settlement code, 1 to
    /// `names::LAST_SETTLEMENT_CODE`, or on 0, none. At most four accounts of one kind share a code; they are valued together.
    pub fn open(&mut self, account: i64, kind: i64, code: i64) -> Result<(), Refusal> {
        calls::open(&mut self.0[..], account, kind, code)
    }

    /// Move collateral of an asset, or of `names::RUBLES`: a positive amount deposits, a negative one withdraws.
    pub fn move_collateral(&mut self, tables: &Tables, account: i64, asset: i64, amount: i64) -> Result<(), Refusal> {
        calls::move_collateral(&mut self.0[..], tables.lent(), account, asset, amount)
    }

    /// Order. Booked as a trade at once where it is admitted: the limit after it is zero or more, or above the limit before it.
    pub fn order(&mut self, tables: &Tables, account: i64, wanted: &Order) -> Result<(), Refusal> {
        calls::order(&mut self.0[..], tables.lent(), account, wanted)
    }

    /// Roll an account to the next day: collateral gains date 0's net, dates 1 to 7 become 0 to 6, date 7 empties. All or nothing.
    pub fn roll(&mut self, account: i64) -> Result<(), Refusal> {
        calls::roll(&mut self.0[..], account)
    }

    /// Report an account; of one on a settlement code the figures are those of all on that code.
    pub fn report(&self, tables: &Tables, account: i64) -> Result<Figures, Refusal> {
        calls::report(&self.0[..], tables.lent(), account)
    }

    /// Feed the app with an account's report; `calls::app_read` reads the feed's bits back. A figure of 2^53 or more in size, which only several
    /// accounts on one settlement code come to, is `Refusal::OutOfBounds`.
    pub fn app(&self, tables: &Tables, account: i64) -> Result<Feed, Refusal> {
        calls::app(&self.0[..], tables.lent(), account)
    }

    /// All numbers, block after block, to be stored or looked at; the `_at` functions say which is which.
    pub fn numbers(&self) -> &[i64; BOOK_LENGTH] {
        &self.0
    }

    /// All numbers, to be read back. The engine looks at a block before it works on it, so numbers that break the rules are refused.
    pub fn numbers_mut(&mut self) -> &mut [i64; BOOK_LENGTH] {
        &mut self.0
    }
}

/// Without an open account.
impl Default for Book {
    fn default() -> Book {
        Book(Box::new([0; BOOK_LENGTH]))
    }
}

/// Where a number of an account's block (`names::BLOCK_KIND` and so on) stands in a book. Panics where there is no such number.
pub const fn block_at(account: usize, number: usize) -> usize {
    assert!(account < ACCOUNTS && number < BLOCK_LENGTH);
    BLOCK_LENGTH * account + number
}

/// Where an account's ruble collateral stands in a book.
pub const fn ruble_collateral_at(account: usize) -> usize {
    block_at(account, BLOCK_RUBLE_COLLATERAL)
}

/// Where an account's ruble net of a date stands in a book. Panics where there is no such number.
pub const fn ruble_net_at(account: usize, date: usize) -> usize {
    assert!(date < DATES);
    block_at(account, BLOCK_RUBLE_NETS + date)
}

/// Where an account's collateral of an asset stands in a book. Panics where there is no such number.
pub const fn collateral_at(account: usize, asset: usize) -> usize {
    assert!(asset < ASSETS);
    block_at(account, BLOCK_HOLDINGS + HOLDING_LENGTH * asset)
}

/// Where an account's claim of an asset at a date stands in a book. Panics where there is no such number.
pub const fn claim_at(account: usize, asset: usize, date: usize) -> usize {
    assert!(date < DATES);
    collateral_at(account, asset) + HOLDING_CLAIMS + date
}

/// Where an account's obligation of an asset at a date stands in a book. Panics where there is no such number.
pub const fn obligation_at(account: usize, asset: usize, date: usize) -> usize {
    assert!(date < DATES);
    collateral_at(account, asset) + HOLDING_OBLIGATIONS + date
}
