//! The names of `include/single_limit.h`, without its `SINGLE_LIMIT_`: lengths, bounds, where numbers stand in a row, a date, a block, a holding
//! and a report, and the choices a number can make. The header explains row and block number by number; `tests/header` holds both to the
//! same numbers.
#![allow(missing_docs)]

// Counts.
pub const ACCOUNTS: usize = 16;
pub const ASSETS: usize = 16;
pub const DATES: usize = 8;
pub const GROUPS: usize = 8;

// Lengths in numbers.
pub const BOOK_LENGTH: usize = 4_608;
pub const BLOCK_LENGTH: usize = 288;
pub const HOLDING_LENGTH: usize = 17;
pub const TABLE_LENGTH: usize = 1_024;
pub const ROW_LENGTH: usize = 64;
pub const DATE_LENGTH: usize = 5;
pub const GROUPS_LENGTH: usize = 8;
pub const FIGURES_LENGTH: usize = 5;

// Bytes of stack: no call of the engine takes more; the frames of this crate come on top.
pub const MOST_STACK: usize = 2_048;

// Bounds.
pub const MOST_RUBLES: i64 = 100_000_000_000_000;
pub const MOST_UNITS: i64 = 1_000_000;
pub const MOST_PRICE: i64 = 10_000_000;
pub const WHOLE: i64 = 10_000;
pub const MOST_PERCENT: i64 = 50;

// In a row.
pub const ROW_KIND: usize = 0;
pub const ROW_PRICE: usize = 1;
pub const ROW_ACCEPTANCE_SHARE: usize = 2;
pub const ROW_POOL_SHARE: usize = 3;
pub const ROW_COVERED_SALES: usize = 4;
pub const ROW_SPECIAL_DELIVERY: usize = 5;
pub const ROW_FALL: usize = 6;
pub const ROW_RISE: usize = 7;
pub const ROW_RAISED_FALL: usize = 8;
pub const ROW_RAISED_RISE: usize = 9;
pub const ROW_MARKET_LIMIT: usize = 10;
pub const ROW_INTEREST_LIMIT: usize = 11;
pub const ROW_SPREAD_GROUP: usize = 12;
pub const ROW_SPARE: usize = 13;
pub const ROW_DATES: usize = 16;
pub const ROW_REST: usize = 56;

// In a date of a row.
pub const DATE_MID: usize = 0;
pub const DATE_LOW: usize = 1;
pub const DATE_UP: usize = 2;
pub const DATE_OUTER_LOW: usize = 3;
pub const DATE_OUTER_UP: usize = 4;

// Kinds of a row, and covered sales.
pub const ASSET_UNLISTED: i64 = 0;
pub const ASSET_SECURITY: i64 = 1;
pub const ASSET_CURRENCY_OR_METAL: i64 = 2;
pub const ASSET_COMMODITY: i64 = 3;
pub const SALES_RECORDED: i64 = 0;
pub const SALES_NOT_RECORDED: i64 = 1;
pub const SALES_PARTIAL: i64 = 2;

// Places of the table check.
pub const PLACE_CLEARING: usize = 0;
pub const PLACE_OWN: usize = 1_024;
pub const PLACE_GROUPS: usize = 2_048;
pub const PLACES: usize = 2_056;

// In a block, and in a holding.
pub const BLOCK_KIND: usize = 0;
pub const BLOCK_RUBLE_COLLATERAL: usize = 1;
pub const BLOCK_RUBLE_NETS: usize = 2;
pub const BLOCK_SPARE: usize = 10;
pub const BLOCK_SETTLEMENT_CODE: usize = 13;
pub const BLOCK_HOLDINGS: usize = 16;
pub const HOLDING_COLLATERAL: usize = 0;
pub const HOLDING_CLAIMS: usize = 1;
pub const HOLDING_OBLIGATIONS: usize = 9;

// Kinds of an account, the last settlement code, the asset that stands for rubles in a move, and sides of an order.
pub const ACCOUNT_NOT_OPEN: i64 = 0;
pub const ACCOUNT_ORDINARY: i64 = 1;
pub const ACCOUNT_POOL: i64 = 2;
pub const ACCOUNT_POOL_OF_THE_LIST: i64 = 3;
pub const LAST_SETTLEMENT_CODE: i64 = 15;
pub const RUBLES: i64 = 255;
pub const BUY: i64 = 0;
pub const SELL: i64 = 1;

// In a report, and in the app's feed.
pub const FIGURE_VALUATION: usize = 0;
pub const FIGURE_MARKET_RISK: usize = 1;
pub const FIGURE_INTEREST_RISK: usize = 2;
pub const FIGURE_DISCOUNT: usize = 3;
pub const FIGURE_LIMIT: usize = 4;

// Gauges of the app's first screen.
pub const GAUGE_EMPTY: u8 = 0;
pub const GAUGE_OVER: u8 = 1;
pub const GAUGE_USED: u8 = 2;
