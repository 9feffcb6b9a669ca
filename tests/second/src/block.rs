//! Document 01, "Block": the 288 numbers of one account and the rules they keep; number 13 is #104's of document 02.

use std::ops::Range;

use crate::code;
use crate::units::*;

pub type Block = [i64; BLOCK];
/// One to an account.
pub type Book = [Block; ACCOUNTS];

/// Account kinds, number 0 of a block.
pub const NOT_OPEN: i64 = 0;
pub const ORDINARY: i64 = 1;
pub const POOL: i64 = 2;
/// A pool of the list in 2.4.2.
pub const LISTED_POOL: i64 = 3;

pub const KIND: usize = 0;
pub const RUBLES: usize = 1;
/// Ruble net of trades by date.
pub const NETS: Range<usize> = 2..10;
/// The settlement code: 0 for none.
pub const CODE: usize = 13;
/// Zero in every block.
const UNUSED: [usize; 5] = [10, 11, 12, 14, 15];
const FIRST_HOLDING: usize = 16;

/// The 17 numbers an account has of one asset.
pub type Holding = [i64; HOLDING];
const HOLDING: usize = 1 + 2 * DATES;

pub const COLLATERAL: usize = 0;
pub const CLAIMS: Range<usize> = 1..1 + DATES;
pub const OBLIGATIONS: Range<usize> = 1 + DATES..HOLDING;

/// Where an asset's holding starts in the block: 16 + 17a.
pub const fn holding_start(asset: usize) -> usize {
    FIRST_HOLDING + HOLDING * asset
}

/// The blocks of a book of the right length.
pub fn blocks(book: &[i64]) -> &Book {
    book.as_chunks().0.first_chunk().expect("a book of the right length")
}

pub fn blocks_mut(book: &mut [i64]) -> &mut Book {
    book.as_chunks_mut().0.first_chunk_mut().expect("a book of the right length")
}

pub fn holdings(block: &Block) -> &[Holding] {
    block[FIRST_HOLDING..].as_chunks().0
}

pub fn holdings_mut(block: &mut Block) -> &mut [Holding] {
    block[FIRST_HOLDING..].as_chunks_mut().0
}

pub fn is_zero(numbers: &[i64]) -> bool {
    numbers.iter().all(|&number| number == 0)
}

/// The block rules.
pub fn is_sound(block: &Block) -> bool {
    match block[KIND] {
        NOT_OPEN => is_zero(rule!(block; LastNumberOfClosedPasses => &block[..BLOCK - 1])),
        ORDINARY..=LISTED_POOL => {
            block[rule!(RUBLES..NETS.end; LastNetNotLookedAt => RUBLES..NETS.end - 1)].iter().all(rubles_in_bounds)
                && code::in_bounds(block[CODE])
                && unused_are_zero(block)
                && holdings(block)[rule!(0..ASSETS; LastHoldingNotLookedAt => 0..ASSETS - 1)]
                    .iter()
                    .all(holding_is_sound)
        }
        _ => rule!(false; KindFourPasses => block[KIND] == 4),
    }
}

fn unused_are_zero(block: &Block) -> bool {
    let unused = rule!(&UNUSED[..];
        Head10Passes => &UNUSED[1..],
        Head12Passes => &[10, 11, 14, 15],
        Head14Passes => &[10, 11, 12, 15],
        Head15Passes => &UNUSED[..4]);
    unused.iter().all(|&number| block[number] == 0)
}

pub fn rubles_in_bounds(rubles: &i64) -> bool {
    rule!((-MOST_RUBLES..=MOST_RUBLES).contains(rubles); RublesBySize => rubles.wrapping_abs() <= MOST_RUBLES)
}

/// Collateral in units of an asset.
pub fn collateral_in_bounds(units: &i64) -> bool {
    rule!((-MOST_UNITS..=MOST_UNITS).contains(units); UnitsBySize => units.wrapping_abs() <= MOST_UNITS)
}

/// A date's claims or obligations in units of an asset.
pub fn trades_in_bounds(units: &i64) -> bool {
    (0..=MOST_UNITS).contains(units)
}

fn holding_is_sound(holding: &Holding) -> bool {
    collateral_in_bounds(&holding[COLLATERAL])
        && holding[rule!(CLAIMS.start..HOLDING; ObligationsNotLookedAt => CLAIMS)].iter().all(trades_in_bounds)
}
