//! Coverage of document 02, #104: figures of a settlement code around 2^53 in size, from where on the record for the phone
//! app answers 9. An answer against the rule is not expected and stops the count.

use super::tally::Tally;
use crate::limit::Figures;

const EDGE: &str = "figures at 2^53 in size, and the record's code";
const BEYOND: &str = "figure of 2^53 or more, answered with 9";
const BEYONDS: [&str; 3] = ["valuation alone", "limit alone", "valuation and limit"];

const SIZE: i64 = 1 << 53;
/// Sizes around 2^53, with the code that each is answered with.
const SIZES: [(&str, i64, u8); 3] = [("one below", SIZE - 1, 0), ("at", SIZE, 9), ("one above", SIZE + 1, 9)];
const SIGNS: [(&str, i64); 2] = [("positive", 1), ("negative", -1)];

/// Risks and discounts of four blocks stay below it.
fn wide(figures: &Figures) -> [(&'static str, i64); 2] {
    [("valuation", figures.valuation), ("limit", figures.limit())]
}

pub fn expect(tally: &mut Tally) {
    let edges = |name: &'static str| {
        SIGNS
            .into_iter()
            .flat_map(move |(sign, _)| SIZES.map(|(side, _, code)| format!("{name}, {sign}, {side}: {code}")))
    };
    tally.expect(EDGE, ["valuation", "limit"].into_iter().flat_map(edges));
    tally.expect(BEYOND, BEYONDS);
}

/// Of a report that is done, with the record's code.
pub fn count(figures: &Figures, code: u8, tally: &mut Tally) {
    let beyond = wide(figures).map(|(_, figure)| figure.abs() >= SIZE);
    assert_eq!(code, if beyond == [false; 2] { 0 } else { 9 }, "{figures:?}");
    let [market, interest, discount] = [figures.market_risk, figures.interest_risk, figures.discount];
    assert!(market.max(interest).max(discount) < SIZE, "{figures:?}");
    match beyond {
        [true, false] => tally.count(BEYOND, BEYONDS[0]),
        [false, true] => tally.count(BEYOND, BEYONDS[1]),
        [true, true] => tally.count(BEYOND, BEYONDS[2]),
        [false, false] => {}
    }
    for (name, figure) in wide(figures) {
        for ((sign, one), (side, size, wanted)) in SIGNS.into_iter().flat_map(|sign| SIZES.map(|size| (sign, size))) {
            // One below, with another figure beyond, shows nothing.
            tally.count_if(figure == one * size && code == wanted, EDGE, format!("{name}, {sign}, {side}: {wanted}"));
        }
    }
}
