//! The clearing table, our own table and the groups.

use std::ops::{Index, IndexMut};

use crate::calls::{self, Lent};
use crate::names::{DATE_LENGTH, GROUPS_LENGTH, ROW_DATES, ROW_LENGTH, TABLE_LENGTH};
use crate::refusal::Unsound;

/// Sixteen rows of 64 numbers, row a for asset a: a clearing table or an own table. `table[asset][names::ROW_PRICE]` is a price.
///
/// A row with a kind and a price alone is sound and has no risk: the table check cannot tell that a rate is missing.
#[derive(Clone, Debug, PartialEq, Eq)]
pub struct Table(Box<[i64; TABLE_LENGTH]>);

/// One row.
pub type Row = [i64; ROW_LENGTH];

impl Table {
    /// All numbers, row after row.
    pub fn numbers(&self) -> &[i64; TABLE_LENGTH] {
        &self.0
    }

    /// All numbers, to be written.
    pub fn numbers_mut(&mut self) -> &mut [i64; TABLE_LENGTH] {
        &mut self.0
    }
}

/// Of zeros: every asset is unlisted, or without an own row.
impl Default for Table {
    fn default() -> Table {
        Table(Box::new([0; TABLE_LENGTH]))
    }
}

/// By asset. Panics for an asset that is not 0 to 15.
impl Index<usize> for Table {
    type Output = Row;

    fn index(&self, asset: usize) -> &Row {
        &self.0.as_chunks().0[asset]
    }
}

impl IndexMut<usize> for Table {
    fn index_mut(&mut self, asset: usize) -> &mut Row {
        &mut self.0.as_chunks_mut().0[asset]
    }
}

/// Where a number of a date (`names::DATE_MID` to `DATE_OUTER_UP`) stands in a row.
pub const fn date_at(date: usize, number: usize) -> usize {
    ROW_DATES + DATE_LENGTH * date + number
}

/// What orders, moves and reports are judged by. All zero at first, which is sound.
#[derive(Clone, Debug, Default, PartialEq, Eq)]
pub struct Tables {
    /// The clearing house's rows.
    pub clearing: Table,
    /// Our own rows: one of zeros is absent, else it is in force in place of the clearing row, whose kind it has.
    pub own: Table,
    /// Number g - 1 is the discount percent of group g, 0 to 50.
    pub groups: [i64; GROUPS_LENGTH],
}

impl Tables {
    /// Are they sound, and own rows only stricter? If not, where is the first number that is not?
    pub fn check(&self) -> Result<(), Unsound> {
        calls::check_tables(self.lent())
    }

    /// The cover test: whether the row in force of that asset is sound and passes it.
    pub fn covers(&self, asset: i64) -> bool {
        calls::covers(self.clearing.numbers(), self.own.numbers(), asset)
    }

    /// As slices.
    pub fn lent(&self) -> Lent<'_> {
        Lent { clearing: self.clearing.numbers(), own: self.own.numbers(), groups: &self.groups }
    }
}
