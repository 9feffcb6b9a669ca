//! Document 01, "Units and sizes": money is whole kopecks, quantities whole units, rates and shares hundredths of a
//! percent.

pub const ACCOUNTS: usize = 16;
pub const ASSETS: usize = 16;
/// Dates 0 to 7; date 0 is T0.
pub const DATES: usize = 8;

/// Numbers of one account.
pub const BLOCK: usize = 288;
pub const BOOK: usize = ACCOUNTS * BLOCK;
/// Numbers of one asset in the clearing or the own table.
pub const ROW: usize = 64;
pub const TABLE: usize = ASSETS * ROW;
pub const GROUPS: usize = 8;

/// Greatest settlement code.
pub const MOST_CODE: i64 = 15;
/// So many blocks may share a settlement code.
pub const MEMBERS: usize = 4;

/// Rates and shares: the whole.
pub const WHOLE: i64 = 10_000;
/// The discount's percent is out of this.
pub const HUNDRED: i64 = 100;
/// Greatest discount percent of a group (house).
pub const MOST_DISCOUNT: i64 = 50;

/// Rubles of collateral and of a date's net lie within this on either side; so does order money.
pub const MOST_RUBLES: i64 = 100_000_000_000_000;
/// Units of collateral lie within this on either side, claims and obligations from 0 to it.
pub const MOST_UNITS: i64 = 1_000_000;
/// Greatest price, and greatest price + mid.
pub const MOST_PRICE: i64 = 10_000_000;
/// Lows and ups lie within this of their mid.
pub const WIDEST: i64 = 10_000_000;
/// Greatest concentration limit.
pub const MOST_CONCENTRATION: i64 = 10_000_000;
