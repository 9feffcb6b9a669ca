//! The Single Limit engine for Rust: safe types over the archive of `include/single_limit.h`, which explains rows, blocks and codes number by
//! number. The engine has no state of its own: any number of books, tables and threads may use it at once.
//!
//! ```
//! use single_limit::{Book, Refusal, Tables, names::*};
//!
//! let (mut book, tables) = (Book::default(), Tables::default());
//! book.open(0, ACCOUNT_ORDINARY, 0)?;
//! book.move_collateral(&tables, 0, RUBLES, 100_000)?;
//! assert_eq!(book.report(&tables, 0)?.limit, 100_000);
//! assert_eq!(book.open(0, ACCOUNT_POOL, 0), Err(Refusal::AlreadyOpen));
//! # Ok::<(), Refusal>(())
//! ```
//!
//! `SINGLE_LIMIT_ARCHIVE` names the archive, by an absolute path, when this crate is built.

pub mod book;
pub mod calls;
mod face;
pub mod feed;
pub mod names;
mod refusal;
pub mod tables;

pub use book::Book;
pub use calls::{Figures, Lent, Order};
pub use feed::{Feed, Floats, Gauge};
pub use refusal::{Refusal, Unsound};
pub use tables::{Row, Table, Tables};

/// The example of the page on linking is a test.
#[cfg(doctest)]
#[doc = include_str!("../../../docs/LINKING.md")]
pub struct Page;
