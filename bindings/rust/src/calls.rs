//! The calls over slices of any length, for whoever keeps books and tables in memory of his own. A wrong length is refused, as in C.
//!
//! Every call here is safe: a slice gives a pointer that is not null, is aligned and is good for its length, and what is written is borrowed
//! alone. `Book` and `Tables` make the same calls.

use crate::face;
use crate::feed::{Feed, Floats, Gauge};
use crate::names::FIGURES_LENGTH;
use crate::refusal::{Refusal, Unsound, answer};

/// Tables and groups, lent to a call.
#[derive(Clone, Copy, Debug)]
pub struct Lent<'a> {
    /// The clearing house's rows: `TABLE_LENGTH` numbers.
    pub clearing: &'a [i64],
    /// Our own rows: `TABLE_LENGTH` numbers.
    pub own: &'a [i64],
    /// The discount percent of groups 1 to 8: `GROUPS_LENGTH` numbers.
    pub groups: &'a [i64],
}

/// An order: `BUY` or `SELL` so many units at a date, for so much money in all.
#[derive(Clone, Copy, Debug, PartialEq, Eq)]
pub struct Order {
    /// 0 to 15, and listed.
    pub asset: i64,
    /// 0 to 7.
    pub date: i64,
    /// `names::BUY` or `names::SELL`.
    pub side: i64,
    /// Units, 1 to 10^6.
    pub quantity: i64,
    /// Kopecks of the whole order, 0 to 10^14.
    pub money: i64,
}

/// What a report says, in kopecks.
#[derive(Clone, Copy, Debug, Default, PartialEq, Eq)]
pub struct Figures {
    /// Positions at their prices, and rubles.
    pub valuation: i64,
    /// Market risk of all assets.
    pub market_risk: i64,
    /// Interest risk of all assets.
    pub interest_risk: i64,
    /// Discount of all groups.
    pub discount: i64,
    /// Valuation less both risks, with the discount added.
    pub limit: i64,
}

/// Are the tables sound, and own rows only stricter?
pub fn check_tables(lent: Lent<'_>) -> Result<(), Unsound> {
    let Lent { clearing, own, groups } = lent;
    let mut place = 0;
    let code = unsafe {
        face::single_limit_check_tables(
            clearing.as_ptr(),
            clearing.len(),
            own.as_ptr(),
            own.len(),
            groups.as_ptr(),
            groups.len(),
            &mut place,
        )
    };
    answer(code).map_err(|refusal| Unsound { refusal, place: place as usize })
}

/// The cover test: whether the row in force of that asset is sound and passes it. False too for an asset or a length that is wrong.
pub fn covers(clearing: &[i64], own: &[i64], asset: i64) -> bool {
    unsafe { face::single_limit_covers(clearing.as_ptr(), clearing.len(), own.as_ptr(), own.len(), asset) == 1 }
}

/// Open an account of a kind (`names::ACCOUNT_ORDINARY`, `ACCOUNT_POOL`, `ACCOUNT_POOL_OF_THE_LIST`) on a settlement code, 1 to
/// `names::LAST_SETTLEMENT_CODE`, which at most four accounts of one kind share, or on 0, none.
pub fn open(book: &mut [i64], account: i64, kind: i64, code: i64) -> Result<(), Refusal> {
    answer(unsafe { face::single_limit_open(book.as_mut_ptr(), book.len(), account, kind, code) })
}

/// Move collateral of an asset, or of `names::RUBLES`: a positive amount deposits, a negative one withdraws.
pub fn move_collateral(book: &mut [i64], lent: Lent<'_>, account: i64, asset: i64, amount: i64) -> Result<(), Refusal> {
    let Lent { clearing, own, groups } = lent;
    answer(unsafe {
        face::single_limit_move(
            book.as_mut_ptr(),
            book.len(),
            clearing.as_ptr(),
            clearing.len(),
            own.as_ptr(),
            own.len(),
            groups.as_ptr(),
            groups.len(),
            account,
            asset,
            amount,
        )
    })
}

/// Order. Booked as a trade at once where it is admitted: the limit after it is zero or more, or above the limit before it.
pub fn order(book: &mut [i64], lent: Lent<'_>, account: i64, wanted: &Order) -> Result<(), Refusal> {
    let Lent { clearing, own, groups } = lent;
    let Order { asset, date, side, quantity, money } = *wanted;
    answer(unsafe {
        face::single_limit_order(
            book.as_mut_ptr(),
            book.len(),
            clearing.as_ptr(),
            clearing.len(),
            own.as_ptr(),
            own.len(),
            groups.as_ptr(),
            groups.len(),
            account,
            asset,
            date,
            side,
            quantity,
            money,
        )
    })
}

/// Roll an account to the next day. All or nothing.
pub fn roll(book: &mut [i64], account: i64) -> Result<(), Refusal> {
    answer(unsafe { face::single_limit_roll(book.as_mut_ptr(), book.len(), account) })
}

/// Report an account; of one on a settlement code the figures are those of all on that code.
pub fn report(book: &[i64], lent: Lent<'_>, account: i64) -> Result<Figures, Refusal> {
    let Lent { clearing, own, groups } = lent;
    let mut figures = [0; FIGURES_LENGTH];
    answer(unsafe {
        face::single_limit_report(
            book.as_ptr(),
            book.len(),
            clearing.as_ptr(),
            clearing.len(),
            own.as_ptr(),
            own.len(),
            groups.as_ptr(),
            groups.len(),
            account,
            figures.as_mut_ptr(),
            figures.len(),
        )
    })?;
    let [valuation, market_risk, interest_risk, discount, limit] = figures;
    Ok(Figures { valuation, market_risk, interest_risk, discount, limit })
}

/// Feed the app with an account's report. A figure of 2^53 or more in size, which only several accounts on one settlement code come to, is
/// `Refusal::OutOfBounds`.
pub fn app(book: &[i64], lent: Lent<'_>, account: i64) -> Result<Feed, Refusal> {
    let Lent { clearing, own, groups } = lent;
    let (mut bits, mut gauge, mut shown) = ([0; FIGURES_LENGTH], 0, 0.0);
    answer(unsafe {
        face::single_limit_app(
            book.as_ptr(),
            book.len(),
            clearing.as_ptr(),
            clearing.len(),
            own.as_ptr(),
            own.len(),
            groups.as_ptr(),
            groups.len(),
            account,
            bits.as_mut_ptr(),
            bits.len(),
            &mut gauge,
            &mut shown,
        )
    })?;
    let figures = Floats::in_report_order(bits.map(f64::from_bits));
    Ok(Feed { bits, figures, gauge: Gauge::read(gauge, shown) })
}

/// Read a feed's bits back: five floats with the same bits again. A NaN's pattern, which no feed has, is `Refusal::OutOfBounds`.
pub fn app_read(bits: &[u64]) -> Result<Floats, Refusal> {
    let mut figures = [0.0; FIGURES_LENGTH];
    answer(unsafe { face::single_limit_app_read(bits.as_ptr(), bits.len(), figures.as_mut_ptr(), figures.len()) })?;
    Ok(Floats::in_report_order(figures))
}
