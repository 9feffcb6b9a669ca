//! Why a call was turned away.

use std::error::Error;
use std::fmt;

/// A code other than 0, by name; shown in the header's words. They are looked for in the order 1, 2, 13, 3, 6, 4, 5, 7, 8, 9,
/// 10. Later versions may have more, so a match over them has an arm for others.
#[derive(Clone, Copy, Debug, PartialEq, Eq, Hash)]
#[repr(u8)]
#[non_exhaustive]
pub enum Refusal {
    /// A lent length is wrong. A `Book` and `Tables` never have one.
    WrongLength = 1,
    /// The table check finds a broken number.
    BrokenNumber = 2,
    /// The account number is not 0 to 15.
    NoAccount = 3,
    /// The account is not open.
    NotOpen = 4,
    /// Open on an open account.
    AlreadyOpen = 5,
    /// The block breaks the block rules, or holds something of an unlisted asset, or another block on its settlement code does so; or that code has
    /// two kinds or more than four blocks.
    BrokenBlock = 6,
    /// An asset, a date, a side, a kind or a settlement code that there is not; or a code that the account to open cannot share.
    WrongChoice = 7,
    /// A quantity, a sum of money or a move outside its bounds.
    WrongAmount = 8,
    /// A number would leave its bounds, or a withdrawal would leave collateral below 0; or a figure for the app is 2^53 or more in size; or bits
    /// that are read back are a NaN's.
    OutOfBounds = 9,
    /// The limit after a withdrawal would be negative, or after an order negative and not raised by it.
    NegativeLimit = 10,
    /// The table check finds an own row that is laxer than its clearing row.
    LaxerOwnRow = 13,
}

impl Refusal {
    /// Every refusal, by rising code.
    pub const ALL: &'static [Refusal] = &[
        Refusal::WrongLength,
        Refusal::BrokenNumber,
        Refusal::NoAccount,
        Refusal::NotOpen,
        Refusal::AlreadyOpen,
        Refusal::BrokenBlock,
        Refusal::WrongChoice,
        Refusal::WrongAmount,
        Refusal::OutOfBounds,
        Refusal::NegativeLimit,
        Refusal::LaxerOwnRow,
    ];

    /// The code of documents 01 and 02.
    pub fn code(self) -> u8 {
        self as u8
    }

    /// The code in words.
    pub fn words(self) -> &'static str {
        match self {
            Refusal::WrongLength => "a lent length is wrong",
            Refusal::BrokenNumber => "the table check finds a broken number",
            Refusal::NoAccount => "account number not 0 to 15",
            Refusal::NotOpen => "account not open",
            Refusal::AlreadyOpen => "open on an open account",
            Refusal::BrokenBlock => {
                "block, or another on its settlement code, breaks the block rules; two kinds or more than four blocks on that code; \
                 where tables are lent, also a nonzero holding of one of them in an unlisted asset"
            }
            Refusal::WrongChoice => {
                "asset unlisted or not 0 to 15 (a move also takes 255, rubles), date not 0 to 7, side not 0 or 1, \
                 account kind to open not 1 to 3, settlement code to open on not 0 to 15, or with four blocks on it already, \
                 or with one on it of another kind or a broken one"
            }
            Refusal::WrongAmount => {
                "quantity not 1 to 10^6; order money not 0 to 10^14; move 0, or beyond 10^6 either way (10^14 for rubles)"
            }
            Refusal::OutOfBounds => {
                "a number would leave its bounds, or a withdrawal would leave collateral below 0; \
                 a figure for the app of 2^53 or more in size; a NaN's pattern read back"
            }
            Refusal::NegativeLimit => {
                "limit after a withdrawal would be negative, or after an order negative and not raised by it"
            }
            Refusal::LaxerOwnRow => "the table check finds an own row that is laxer than its clearing row",
        }
    }
}

impl fmt::Display for Refusal {
    fn fmt(&self, to: &mut fmt::Formatter<'_>) -> fmt::Result {
        to.write_str(self.words())
    }
}

impl Error for Refusal {}

/// What a code says. The engine's contracts leave no other code, so another one means an archive of another version.
pub(crate) fn answer(code: u8) -> Result<(), Refusal> {
    if code == 0 {
        return Ok(());
    }
    match Refusal::ALL.iter().find(|refusal| refusal.code() == code) {
        Some(&refusal) => Err(refusal),
        None => panic!("code {code} is not of this version of the engine"),
    }
}

/// What the table check answers where the tables are not sound, or an own row is laxer.
#[derive(Clone, Copy, Debug, PartialEq, Eq)]
pub struct Unsound {
    /// `BrokenNumber`, `LaxerOwnRow`, or `WrongLength` of slices.
    pub refusal: Refusal,
    /// With `BrokenNumber` the place of the first broken number: clearing 0 to 1023, own 1024 to 2047, groups 2048 to 2055; with `LaxerOwnRow`
    /// that of the own table's first laxer one. Else 0.
    pub place: usize,
}

impl fmt::Display for Unsound {
    fn fmt(&self, to: &mut fmt::Formatter<'_>) -> fmt::Result {
        match self.refusal {
            Refusal::BrokenNumber | Refusal::LaxerOwnRow => write!(to, "{}, place {}", self.refusal, self.place),
            other => other.fmt(to),
        }
    }
}

impl Error for Unsound {}
