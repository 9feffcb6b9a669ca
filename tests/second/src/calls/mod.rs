//! Document 01, "Calls and turning away": the codes, and the looks every call takes first, in the table's order; with
//! requests #101 to #104 of document 02.

mod app;
mod check;
mod moving;
mod open;
mod order;
mod report;
mod roll;
mod unapp;

pub use app::{App, app};
pub use check::check_tables;
use check::first_fault;
pub use moving::{Move, RUBLES, move_collateral};
pub use open::open;
pub use order::{BUY, Order, SELL, order};
pub(crate) use order::{admit, leave_in_bounds};
pub use report::report;
pub use roll::roll;
#[cfg(test)]
pub use roll::roll_asking;
pub use unapp::unapp;

use std::mem;

use crate::block::{self, Block, Book, is_zero};
use crate::code::Members;
use crate::limit::figures;
use crate::tables::{Lent, Tables};
use crate::units::*;

/// Why a call is turned away; its number is the code. They are checked in the order 1, 2, 13, 3, 6, 4, 5, 7,
/// 8, 9, 10.
#[derive(Clone, Copy, Debug, PartialEq)]
#[repr(u8)]
pub enum Refusal {
    WrongLength = 1,
    BrokenTable = 2,
    NoSuchAccount = 3,
    NotOpen = 4,
    AlreadyOpen = 5,
    BrokenBlock = 6,
    NoSuchChoice = 7,
    WrongAmount = 8,
    OutOfBounds = 9,
    LimitBelowZero = 10,
    LaxerOwnRow = 13,
}

pub const DONE: u8 = 0;

pub fn code<T>(answer: &Result<T, Refusal>) -> u8 {
    answer.as_ref().err().map_or(DONE, |&refusal| refusal as u8)
}

/// Codes 1, 2, 13 and 3 of a call that is lent tables: the tables and the account's number.
fn first_look<'a>(book: &[i64], lent: &Lent<'a>, account: i64) -> Result<(Tables<'a>, usize), Refusal> {
    rule!((); TablesBeforeLengthOfBook => refuse_broken(lent)?);
    refuse_unless(book_length_is_right(book), Refusal::WrongLength)?;
    let tables = lent.tables().ok_or(Refusal::WrongLength)?;
    rule!((); AccountBeforeTables => refuse_unless(account_number(account).is_ok(), Refusal::NoSuchAccount)?);
    let fault = first_fault(&tables).map(|fault| fault.refusal);
    let fault = rule!(fault;
        AccountBeforeLaxer => fault.filter(|&fault| fault == Refusal::BrokenTable || account_number(account).is_ok()),
        BlockBeforeLaxer => fault.filter(|&fault| fault == Refusal::BrokenTable),
        LaxerSeenByCheckAlone => fault.filter(|&fault| fault == Refusal::BrokenTable));
    fault.map_or(Ok(()), Err)?;
    Ok((tables, account_number(account)?))
}

/// Codes 1 and 3 of a call that is lent the book alone.
fn first_look_at_book(book: &[i64], account: i64) -> Result<usize, Refusal> {
    rule!((); AccountBeforeLength => drop(account_number(account)?));
    refuse_unless(book_length_is_right(book), Refusal::WrongLength)?;
    account_number(account)
}

fn book_length_is_right(book: &[i64]) -> bool {
    rule!(book.len() == BOOK; LongBookPasses => book.len() >= BOOK)
}

/// For a mutant: code 2 asked before the book's length.
#[cfg(test)]
fn refuse_broken(lent: &Lent) -> Result<(), Refusal> {
    let broken = lent.tables().is_some_and(|tables| tables.first_broken().is_some());
    refuse_unless(!broken, Refusal::BrokenTable)
}

fn account_number(account: i64) -> Result<usize, Refusal> {
    let account = rule!(account; AccountCutToByte => account & 255);
    index(account, ACCOUNTS).ok_or(Refusal::NoSuchAccount)
}

/// Codes 6 and 4. 6 looks at every block of the account's settlement code; where tables are lent, an unlisted asset held
/// in one of them is 6 too.
pub(crate) fn open_block(book: &Book, account: usize, tables: Option<&Tables>) -> Result<(), Refusal> {
    let block = &book[account];
    let members = Members::of(book, account);
    rule!((); NotOpenBeforeBroken => refuse_unless(block[block::KIND] != block::NOT_OPEN, Refusal::NotOpen)?);
    let listed = |block: &&Block| tables.is_none_or(|tables| holdings_are_listed(block, tables));
    let listed =
        |block: &&Block| rule!(listed(block); UnlistedOfMemberPasses => !members.is_own(block) || listed(block));
    let sound = members.are_sound() && members.iter().all(listed);
    refuse_unless(sound, Refusal::BrokenBlock)?;
    refuse_unless(block[block::KIND] != block::NOT_OPEN, Refusal::NotOpen)?;
    let laxer = rule!(false; BlockBeforeLaxer => tables.is_some_and(|tables| tables.first_laxer().is_some()));
    refuse_unless(!laxer, Refusal::LaxerOwnRow)
}

fn holdings_are_listed(block: &Block, tables: &Tables) -> bool {
    let mut holdings = block::holdings(block).iter().enumerate();
    rule!(holdings.all(|(asset, holding)| tables.is_listed(asset) || is_zero(holding)); UnlistedHoldingPasses => true)
}

/// A number of the block, and what a call makes of it.
#[derive(Clone, Copy)]
pub struct Change {
    pub place: usize,
    pub after: i64,
}

/// Makes the changes; handed back is what takes them back.
pub fn make<const COUNT: usize>(block: &mut Block, changes: [Change; COUNT]) -> [Change; COUNT] {
    changes.map(|Change { place, after }| Change { place, after: mem::replace(&mut block[place], after) })
}

/// A negative limit that a call would leave.
struct BelowZero {
    limit: i64,
}

/// Where a call has no other ground to pass.
impl From<BelowZero> for Refusal {
    fn from(_: BelowZero) -> Refusal {
        Refusal::LimitBelowZero
    }
}

/// Makes the changes where the code's limit after them is zero or more, else takes them back. The one ground on which a
/// withdrawal passes, and an order's first.
fn make_within_limit<const COUNT: usize>(
    book: &mut Book,
    account: usize,
    changes: [Change; COUNT],
    tables: &Tables,
) -> Result<(), BelowZero> {
    let before = make(&mut book[account], changes);
    let limit = figures(book, account, tables).limit();
    if is_zero_or_more(limit) {
        return Ok(());
    }
    make(&mut book[account], before);
    Err(BelowZero { limit })
}

/// For mutants: the account judged as if it had no settlement code.
#[cfg(test)]
fn alone<T>(book: &mut Book, account: usize, judge: impl FnOnce(&mut Book) -> T) -> T {
    let code = mem::replace(&mut book[account][block::CODE], crate::code::NONE);
    let answer = judge(book);
    book[account][block::CODE] = code;
    answer
}

/// The first ground: the limit after the call is zero or more.
fn is_zero_or_more(after: i64) -> bool {
    rule!(after >= 0; LimitOfZeroRefused => after > 0, LimitBelowByOneAdmitted => after >= -1)
}

fn refuse_unless(good: bool, refusal: Refusal) -> Result<(), Refusal> {
    if good { Ok(()) } else { Err(refusal) }
}

/// A caller's number as an index below `count`.
fn index(number: i64, count: usize) -> Option<usize> {
    usize::try_from(number).ok().filter(|&index| index < count)
}
