//! Coverage of session lines: the forms that answer code 12, the end of the input, and numbers near ±2^63.

use super::tally::Tally;
use crate::generate::HUGE;
use crate::units::MOST_PRICE;

const FORM: &str = "lines of another form";
const END: &str = "end of the input";
const EXTREME: &str = "numbers near the ends of 64 bits";

const LAST_KIND: &[u8] = b"06";

pub fn expect(tally: &mut Tally) {
    let bytes = ["blank", "100,000 bytes", "carriage return", "byte above 127", "no digit", "upper case"];
    let lengths = ["wrong length", "open without a code", "open and a byte more"];
    tally.expect(FORM, bytes.into_iter().chain(["odd digits", "unknown kind"]).chain(lengths));
    tally.expect(END, ["with a newline", "without a newline"]);
    let kinds = ["parameter", "move", "quantity", "money"];
    tally.expect(EXTREME, kinds.iter().flat_map(|kind| [format!("{kind}, lowest"), format!("{kind}, highest")]));
}

pub fn count_end(input: &[u8], tally: &mut Tally) {
    tally.count(END, if input.ends_with(b"\n") { "with a newline" } else { "without a newline" });
}

pub fn count_form(line: &[u8], tally: &mut Tally) {
    let any = |test: fn(&u8) -> bool| line.iter().any(test);
    let form = match line {
        [] => "blank",
        _ if line.len() >= HUGE => "100,000 bytes",
        _ if any(|&byte| byte == b'\r') => "carriage return",
        _ if any(|byte| !byte.is_ascii()) => "byte above 127",
        _ if any(|byte| !byte.is_ascii_hexdigit()) => "no digit",
        _ if any(u8::is_ascii_uppercase) => "upper case",
        _ if line.len() % 2 == 1 => "odd digits",
        _ if line[..2] == *b"00" || line[..2] > *LAST_KIND => "unknown kind",
        _ if line.len() == 6 && line[..2] == *b"02" => "open without a code",
        _ if line.len() == 10 && line[..2] == *b"02" => "open and a byte more",
        _ => "wrong length",
    };
    tally.count(FORM, form);
}

pub fn count_extreme(kind: &str, number: i64, tally: &mut Tally) {
    tally.count_if(number <= i64::MIN + MOST_PRICE, EXTREME, format!("{kind}, lowest"));
    tally.count_if(number >= i64::MAX - MOST_PRICE, EXTREME, format!("{kind}, highest"));
}
