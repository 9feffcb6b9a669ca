//! Who is timed: the engine, the second program and the reference in C. Each answers the same three calls on the same arrays. The two in C are
//! called by their faces themselves, so that nothing stands between the clock and one of them that does not stand before the other.

use second::calls::{self, Order, code};
use second::tables::Lent;

/// Valuation, market risk, interest risk, discount, limit.
pub type Five = [i64; 5];

pub trait Contestant {
    /// The code, and the place of the fault.
    fn check_tables(tables: &Lent) -> (u8, usize);
    fn report(book: &[i64], tables: &Lent, account: i64) -> (u8, Five);
    fn order(book: &mut [i64], tables: &Lent, wanted: &Order) -> u8;
}

pub struct Second;

impl Contestant for Second {
    fn check_tables(tables: &Lent) -> (u8, usize) {
        calls::check_tables(tables)
    }

    fn report(book: &[i64], tables: &Lent, account: i64) -> (u8, Five) {
        let answer = calls::report(book, tables, account);
        (code(&answer), answer.unwrap_or_default().five())
    }

    fn order(book: &mut [i64], tables: &Lent, wanted: &Order) -> u8 {
        code(&calls::order(book, tables, wanted))
    }
}

/// A contestant by the functions of include/single_limit.h, under their own names or others.
macro_rules! in_c {
    ($contestant:ident, $check_tables:ident, $report:ident, $order:ident) => {
        pub struct $contestant;

        #[rustfmt::skip]
        unsafe extern "C" {
            fn $check_tables(
                clearing: *const i64, clearing_length: usize, own: *const i64, own_length: usize,
                groups: *const i64, groups_length: usize, place: *mut u64,
            ) -> u8;
            fn $report(
                book: *const i64, book_length: usize, clearing: *const i64, clearing_length: usize,
                own: *const i64, own_length: usize, groups: *const i64, groups_length: usize,
                account: i64, figures: *mut i64, figures_length: usize,
            ) -> u8;
            fn $order(
                book: *mut i64, book_length: usize, clearing: *const i64, clearing_length: usize,
                own: *const i64, own_length: usize, groups: *const i64, groups_length: usize,
                account: i64, asset: i64, date: i64, side: i64, quantity: i64, money: i64,
            ) -> u8;
        }

        // SAFETY, of each: slices give pointers that are good for their lengths, and what is written is borrowed alone.
        #[rustfmt::skip]
        impl Contestant for $contestant {
            fn check_tables(tables: &Lent) -> (u8, usize) {
                let Lent { clearing, own, groups } = *tables;
                let mut place = 0;
                let code = unsafe {
                    $check_tables(
                        clearing.as_ptr(), clearing.len(), own.as_ptr(), own.len(), groups.as_ptr(), groups.len(),
                        &mut place,
                    )
                };
                (code, place as usize)
            }

            fn report(book: &[i64], tables: &Lent, account: i64) -> (u8, Five) {
                let Lent { clearing, own, groups } = *tables;
                let mut five = [0; 5];
                let code = unsafe {
                    $report(
                        book.as_ptr(), book.len(), clearing.as_ptr(), clearing.len(), own.as_ptr(), own.len(),
                        groups.as_ptr(), groups.len(), account, five.as_mut_ptr(), five.len(),
                    )
                };
                (code, five)
            }

            fn order(book: &mut [i64], tables: &Lent, wanted: &Order) -> u8 {
                let Lent { clearing, own, groups } = *tables;
                let Order { account, asset, date, side, quantity, money } = *wanted;
                unsafe {
                    $order(
                        book.as_mut_ptr(), book.len(), clearing.as_ptr(), clearing.len(), own.as_ptr(), own.len(),
                        groups.as_ptr(), groups.len(), account, asset, date, side, quantity, money,
                    )
                }
            }
        }
    };
}

in_c!(Engine, single_limit_check_tables, single_limit_report, single_limit_order);
in_c!(Reference, reference_check_tables, reference_report, reference_order);

/// Contestants by number, in the order of their columns.
#[derive(Clone, Copy)]
pub enum Side {
    Engine,
    Second,
    Reference,
}

pub const SIDES: [Side; 3] = [Side::Engine, Side::Second, Side::Reference];

impl Side {
    pub fn name(self) -> &'static str {
        match self {
            Side::Engine => "engine",
            Side::Second => "second",
            Side::Reference => "reference",
        }
    }
}
