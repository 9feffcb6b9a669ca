//! Document 02, #102, the figures for the phone app: a report's as floats, and the gauge. Lent what a report is, and five
//! numbers, the feed, which the floats' bits go out in.

use super::{Refusal, refuse_unless, report};
use crate::gauge::Gauge;
use crate::record::{RECORD, Record, is_exact};
use crate::tables::Lent;

/// The default is what a refusal gives: five +0.0 and the empty gauge.
#[derive(Clone, Copy, Debug, Default, PartialEq)]
pub struct App {
    pub record: Record,
    pub gauge: Gauge,
}

/// The feed's count is asked before all else; then the codes are a report's, and last comes 9, where a figure of the
/// settlement code is 2^53 or more in size. Refused, the feed stays as it was.
pub fn app(book: &[i64], lent: &Lent, account: i64, feed: &mut [i64]) -> Result<App, Refusal> {
    rule!((); FeedCountedLast => drop(report(book, lent, account)?));
    refuse_unless(count_is_right(feed), Refusal::WrongLength)?;
    rule!((); RefusalZeroesFeed => if report(book, lent, account).is_err() { feed.fill(0) });
    let figures = report(book, lent, account)?;
    let exact = figures.five().into_iter().all(is_exact);
    let exact = rule!(exact;
        NineForgotten => true,
        NineOfValuationAlone => is_exact(figures.valuation),
        NineOfLimitAlone => is_exact(figures.limit()));
    refuse_unless(exact, rule!(Refusal::OutOfBounds; NineIsTen => Refusal::LimitBelowZero))?;
    let app = App { record: Record::of(&figures), gauge: Gauge::of(&figures) };
    rule!((); FeedNotWritten => return Ok(app));
    for (number, bits) in feed.iter_mut().zip(app.record.bits()) {
        *number = bits;
    }
    rule!((); FeedInAnotherOrder => feed.swap(1, 2));
    Ok(app)
}

fn count_is_right(feed: &[i64]) -> bool {
    rule!(feed.len() == RECORD; LongFeedPasses => feed.len() >= RECORD, ShortFeedPasses => feed.len() <= RECORD)
}
