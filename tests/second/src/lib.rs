//! The rules of document 01 in plain Rust, in the document's order, with requests #101 to #104 of document 02: the second
//! program that the engine is compared with, written from the documents and the readings of them in docs/DECISIONS.md.
//! Numbers are i64 as the document has them, but for the phone app's floats. Of four sound blocks under sound tables
//! nothing on the way reaches 4 × 10^18, and every build stops at a sum or product that would wrap. Sums of unchecked
//! numbers saturate, which leaves them past every bound, or are taken in 128 bits.

#[macro_use]
mod mutant;

// Units and sizes.
pub mod block;
pub mod code;
pub mod row;
pub mod stricter;
pub mod tables;
pub mod units;

// From collateral to limit.
pub mod asset;
pub mod collateral;
pub mod cover;
pub mod discount;
pub mod interest;
pub mod joint;
pub mod limit;
pub mod market;
pub mod misread;
pub mod valuation;

// Figures for the phone app.
pub mod gauge;
pub mod record;

// Calls and turning away; session lines; call scripts.
pub mod calls;
pub mod frame;
pub mod script;
pub mod session;

// What the comparison is made with.
pub mod cases;
pub mod compare;
pub mod coverage;
pub mod engine;
pub mod generate;
pub mod scripts;
