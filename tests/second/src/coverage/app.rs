//! Coverage of document 02, #102: each gauge and its edges, quotients by how they are rounded, figures by their size,
//! refusals by what the feed held. An answer against the rule is not expected and stops the count.

use std::cmp::Ordering;

use super::{exact, tally::Tally};
use crate::calls::{self, DONE, Refusal};
use crate::cases::{Quotient, bits_of_whole};
use crate::gauge::Gauge;
use crate::limit::Figures;
use crate::record::RECORD;
use crate::script::{Answer, Buffers, Command};

const VALUATION: &str = "gauge by valuation";
const VALUATIONS: [&str; 7] =
    ["below -1: empty", "-1: empty", "0: empty", "1: over", "1: used", "above 1: over", "above 1: used"];
const LIMIT: &str = "gauge by limit, valuation above 0";
const LIMITS: [&str; 5] = ["below -1: over", "-1: over", "0: used", "1: used", "above 1: used"];
const EMPTY: &str = "limit behind an empty gauge";
const EMPTIES: [&str; 3] = ["0", "negative, with risk", "negative, without"];
const QUOTIENT: &str = "quotient of a used gauge";
const QUOTIENTS: [&str; 5] = ["0", "1", "between, exact", "between, rounded down", "between, rounded up"];
const DISCOUNT: &str = "discount in a used gauge";
const OTHERWISE: &str = "quotient that other roundings give otherwise";
const OTHER_WAYS: [&str; 3] = ["product by 1 / valuation", "division of each", "1 less limit / valuation"];
const SIZE: &str = "figures by size";
const FIGURES: [&str; RECORD] = ["valuation", "market risk", "interest risk", "discount", "limit"];
const REFUSED: &str = "refusals that leave a feed of five that holds something";
const COUNT: &str = "other counts of the feed, and the report's code beside them";
/// Every code of a report.
const CODES: [u8; 7] = [0, 1, 2, 3, 4, 6, 13];
/// What the call answers beside them.
const NINE: u8 = Refusal::OutOfBounds as u8;
const COUNTS: [usize; 3] = [0, RECORD - 1, RECORD + 1];

pub fn expect(tally: &mut Tally) {
    tally.expect(VALUATION, VALUATIONS);
    tally.expect(LIMIT, LIMITS);
    tally.expect(EMPTY, EMPTIES);
    tally.expect(QUOTIENT, QUOTIENTS);
    tally.expect(DISCOUNT, ["0", "above 0"]);
    tally.expect(OTHERWISE, OTHER_WAYS);
    let sizes = |name| ["0", "above 0", "2^49 or more"].map(|size| format!("{name} {size}"));
    let below = |name| ["below 0", "-2^49 or less"].map(|size| format!("{name} {size}"));
    tally.expect(SIZE, FIGURES.into_iter().flat_map(sizes).chain([FIGURES[0], FIGURES[4]].into_iter().flat_map(below)));
    tally.expect(REFUSED, CODES[1..].iter().chain([&NINE]));
    exact::expect(tally);
    tally.expect(COUNT, COUNTS.iter().flat_map(|count| CODES.map(|code| format!("{count}: {code}"))));
}

pub fn count(command: &Command, answer: &Answer, [before, after]: [&Buffers; 2], tally: &mut Tally) {
    let (Command::App { account }, Answer::App { code, app, .. }) = (*command, *answer) else { return };
    let report = calls::report(before.book(), &before.lent(), account);
    if code != DONE {
        let gives_nothing = app.record.bits() == [0; RECORD] && app.gauge == Gauge::Empty;
        assert!(before == after && gives_nothing, "a refusal gives zeros and the empty gauge, and writes nothing");
        let count = before.feed().len();
        let holds_something = before.feed().iter().any(|&bits| bits != 0);
        tally.count_if(count == RECORD && holds_something, REFUSED, code);
        if code == NINE {
            exact::count(&report.expect("a report all the same"), code, tally);
            return;
        }
        return tally.count_if(COUNTS.contains(&count), COUNT, format!("{count}: {}", calls::code(&report)));
    }
    let figures = report.expect("a report");
    let whole = figures.five();
    exact::count(&figures, code, tally);
    assert_eq!(app.record.bits(), whole.map(|figure| bits_of_whole(figure).cast_signed()), "each the whole number");
    assert_eq!(after.feed(), app.record.bits(), "what goes out is the record");
    count_sizes(whole, tally);
    count_gauge(&figures, app.gauge, tally);
}

fn count_sizes(figures: [i64; RECORD], tally: &mut Tally) {
    const GREAT: u64 = 1 << 49;
    for (name, figure) in FIGURES.into_iter().zip(figures) {
        let size = match (figure.signum(), figure.unsigned_abs() >= GREAT) {
            (0, _) => "0",
            (1, false) => "above 0",
            (1, true) => "2^49 or more",
            (_, false) => "below 0",
            (_, true) => "-2^49 or less",
        };
        tally.count(SIZE, format!("{name} {size}"));
    }
}

fn count_gauge(figures: &Figures, gauge: Gauge, tally: &mut Tally) {
    let (valuation, limit) = (figures.valuation, figures.limit());
    let shown = match gauge {
        Gauge::Empty => "empty",
        Gauge::Over(_) => "over",
        Gauge::Used(_) => "used",
    };
    tally.count(VALUATION, format!("{}: {shown}", near(valuation)));
    match gauge {
        Gauge::Empty => {
            let risk = if limit < valuation { "negative, with risk" } else { "negative, without" };
            return tally.count(EMPTY, if limit == 0 { "0" } else { risk });
        }
        Gauge::Over(shortfall) => assert_eq!(shortfall.to_bits(), bits_of_whole(-limit), "the shortfall"),
        Gauge::Used(quotient) => count_quotient(figures, quotient, tally),
    }
    tally.count(LIMIT, format!("{}: {shown}", near(limit)));
}

fn near(number: i64) -> &'static str {
    match number {
        ..-1 => "below -1",
        -1 => "-1",
        0 => "0",
        1 => "1",
        2.. => "above 1",
    }
}

fn count_quotient(figures: &Figures, shown: f64, tally: &mut Tally) {
    let &Figures { valuation, market_risk, interest_risk, discount } = figures;
    let quotient = Quotient { dividend: market_risk + interest_risk - discount, divisor: valuation };
    assert!(quotient.is_nearest(shown.to_bits()), "{shown} for {} / {valuation}", quotient.dividend);
    let rounded = match quotient.met_by(shown.to_bits()) {
        None => "0",
        Some(Ordering::Equal) if quotient.dividend == valuation => "1",
        Some(Ordering::Equal) => "between, exact",
        Some(Ordering::Less) => "between, rounded down",
        Some(Ordering::Greater) => "between, rounded up",
    };
    tally.count(QUOTIENT, rounded);
    tally.count(DISCOUNT, if discount == 0 { "0" } else { "above 0" });
    let [market, interest, given, limit] = [market_risk, interest_risk, discount, figures.limit()].map(|it| it as f64);
    let (taken, valuation) = (quotient.dividend as f64, valuation as f64);
    let others = [
        taken * (1.0 / valuation),
        market / valuation + interest / valuation - given / valuation,
        1.0 - limit / valuation,
    ];
    for (way, other) in OTHER_WAYS.into_iter().zip(others) {
        tally.count_if(other.to_bits() != shown.to_bits(), OTHERWISE, way);
    }
}
