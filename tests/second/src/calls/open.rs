//! Document 01, the call "open"; with the settlement code of #104 of document 02.

use super::{Refusal, first_look_at_book, refuse_unless};
use crate::block::{self, LISTED_POOL, ORDINARY, is_zero};
use crate::code;

/// Looks at its block so: all zero goes on to 7; first number 1 to 3 gives 5; else 6. The other blocks of the code are
/// looked at for 7 alone.
pub fn open(book: &mut [i64], account: i64, kind: i64, code: i64) -> Result<(), Refusal> {
    let account = first_look_at_book(book, account)?;
    let book = block::blocks_mut(book);
    let block = &book[account];
    rule!((); OpenSixBeforeFive => refuse_unless(block::is_sound(block), Refusal::BrokenBlock)?);
    match block[block::KIND] {
        _ if rule!(is_zero(block); OpenLooksAtKindAlone => block[block::KIND] == block::NOT_OPEN) => {}
        ORDINARY..=LISTED_POOL => return Err(Refusal::AlreadyOpen),
        _ => return Err(rule!(Refusal::BrokenBlock; OpenFiveForSix => Refusal::AlreadyOpen)),
    }
    let kind = rule!(kind; KindCutToByte => kind & 255);
    let code = rule!(code; CodeCutToByte => code & 255);
    let good = (ORDINARY..=LISTED_POOL).contains(&kind) && code::admits(book, code, kind);
    refuse_unless(good, Refusal::NoSuchChoice)?;
    book[account][block::KIND] = kind;
    book[account][block::CODE] = rule!(code; OpenWritesNoCode => code::NONE);
    Ok(())
}
