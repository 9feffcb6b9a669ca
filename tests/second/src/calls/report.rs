//! Document 01, the call "report": the five figures, by #104 of document 02 the settlement code's.

use super::{Refusal, first_look, open_block};
use crate::block::blocks;
use crate::limit::{Figures, figures};
#[cfg(test)]
use crate::record::is_exact;
use crate::tables::Lent;

pub fn report(book: &[i64], lent: &Lent, account: i64) -> Result<Figures, Refusal> {
    let (tables, account) = first_look(book, lent, account)?;
    let book = blocks(book);
    open_block(book, account, Some(&tables))?;
    let figures = figures(book, account, &tables);
    rule!((); ReportAnswersNine =>
        super::refuse_unless(figures.five().into_iter().all(is_exact), Refusal::OutOfBounds)?);
    Ok(figures)
}
