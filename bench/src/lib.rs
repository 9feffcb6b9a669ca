//! What is measured, on what, and how: all contestants get the same arrays in the same process, one after the other in turn.

pub mod books;
pub mod clock;
pub mod contestants;
pub mod damage;
pub mod random;
pub mod rounds;
pub mod same;
pub mod tables;
pub mod work;
pub mod worlds;
