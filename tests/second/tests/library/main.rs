//! The library's tests: document 01's sums and session, the table check, the calls, trading out of trouble, the figures
//! for the phone app, own rows that may only be stricter, settlement codes, session lines and call scripts.

mod app;
mod blocks;
mod calls;
mod cases;
mod codes;
mod codes_refused;
mod script;
mod session;
mod stricter;
mod sums;
mod tables;
mod trouble;
mod unapp;
mod world;
