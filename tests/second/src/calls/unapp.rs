//! Document 02, #102, reading the feed: the same bits again.

use super::Refusal;
use crate::record::{RECORD, Record};

/// Another count than five is 1. A NaN's pattern, which no report writes, is 9; any other bits are given back unchanged.
pub fn unapp(feed: &[i64]) -> Result<Record, Refusal> {
    rule!((); ShortFeedReadAsZeros => if feed.len() < RECORD { return Ok(Record::default()) });
    let feed = rule!(feed; LongFeedRead => &feed[..feed.len().min(RECORD)]);
    let bits: &[i64; RECORD] = feed.try_into().map_err(|_| Refusal::WrongLength)?;
    Record::read(bits).ok_or(rule!(Refusal::OutOfBounds; NanIs7 => Refusal::NoSuchChoice))
}
