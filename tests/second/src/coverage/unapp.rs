//! Coverage of document 02, #102, reading back: every kind of float and of NaN's pattern at each of the five places, what a
//! call wrote, any bits, and other counts. An answer against the rule is not expected and stops the count.

use super::tally::Tally;
use crate::calls::{DONE, Refusal};
use crate::record::{RECORD, is_nan};
use crate::script::{Answer, Buffers, Command};
use crate::scripts::{PATTERNS, signs};

const PATTERN: &str = "read back, by bits and place";
const READ: &str = "feeds read back";
const READS: [&str; 5] =
    ["as it was written", "not written by a call", "one NaN's pattern", "more than one", "all five"];
const COUNT: &str = "read back, other counts";
const COUNTS: [usize; 3] = [0, RECORD - 1, RECORD + 1];

type Feed = [i64; RECORD];

fn title(sign: &str, name: &str, place: usize) -> String {
    format!("{sign}{name} at {place}")
}

/// Each pattern with either sign.
fn patterns() -> impl Iterator<Item = (i64, &'static str, &'static str)> {
    PATTERNS.iter().flat_map(|&(name, bits)| signs(bits).map(|(sign, number)| (number, sign, name)))
}

pub fn expect(tally: &mut Tally) {
    let titles = |(_, sign, name)| (0..RECORD).map(move |place| title(sign, name, place));
    tally.expect(PATTERN, patterns().flat_map(titles));
    tally.expect(READ, READS);
    let titles = |count: &usize| [format!("{count}"), format!("{count}, with a NaN's pattern")];
    // Of no numbers none is a NaN's.
    tally.expect(COUNT, [COUNTS[0].to_string()].into_iter().chain(COUNTS[1..].iter().flat_map(titles)));
}

/// `written` is what the last call for the app wrote since the buffers were reset.
pub fn count(command: &Command, answer: &Answer, before: &Buffers, written: Option<Feed>, tally: &mut Tally) {
    let (Command::Unapp, Answer::Unapp { code, record }) = (command, *answer) else { return };
    let feed = before.feed();
    let nans = feed.iter().filter(|bits| is_nan(bits.cast_unsigned())).count();
    if feed.len() != RECORD {
        assert_eq!((code, record.bits()), (Refusal::WrongLength as u8, [0; RECORD]));
        let with = if nans > 0 { ", with a NaN's pattern" } else { "" };
        return tally.count_if(COUNTS.contains(&feed.len()), COUNT, format!("{}{with}", feed.len()));
    }
    if nans == 0 {
        assert_eq!((code, &record.bits()[..]), (DONE, feed), "the same bits");
    } else {
        assert_eq!((code, record.bits()), (Refusal::OutOfBounds as u8, [0; RECORD]));
    }
    let read = match nans {
        0 if written.is_some_and(|written| written == feed) => "as it was written",
        0 => "not written by a call",
        1 => "one NaN's pattern",
        RECORD => "all five",
        _ => "more than one",
    };
    tally.count(READ, read);
    // A NaN's pattern counts where it stands alone, so that it alone is refused.
    for (number, sign, name) in patterns().filter(|&(number, ..)| nans == usize::from(is_nan(number.cast_unsigned()))) {
        for place in (0..RECORD).filter(|&place| feed[place] == number) {
            tally.count(PATTERN, title(sign, name, place));
        }
    }
}
