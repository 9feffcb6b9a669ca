//! Lines of every other form than document 01 has, sort by sort, each answered `0c`. Most are a good line with one
//! thing wrong, and a good line would change what the two accounts report after every sort.

use super::lines::SLIPS;
use super::sums::{BOUGHT, buy_ten, lend_row_a};
use super::{Case, Script};
use crate::calls::{BUY, Move, Order, RUBLES};
use crate::frame::{Frame, LONGEST_LINE};
use crate::row::PRICE;
use crate::tables::clearing_place;

const SORTS: [fn(&mut Script); 6] = [slips, other_lengths, other_kinds, other_bytes, additions, long_lines];

pub fn session() -> Case {
    let mut script = Script::new("malformed-lines");
    lend_row_a(&mut script);
    buy_ten(&mut script, 0, 21_000, 0);
    for sort in SORTS {
        sort(&mut script);
        script.report(0, BOUGHT);
        script.no_report(1, 4);
    }
    // Whole, each of them is done.
    for line in good_lines() {
        script.line(&line, "00");
    }
    script.line(b"060", "0c");
    script.bare_end()
}

/// One of each kind that changes something.
fn good_lines() -> [Vec<u8>; 5] {
    let frames = [
        Frame::Set { place: clearing_place(0, PRICE), number: 9_999 },
        Frame::Open { account: 1, kind: 1, code: 0 },
        deposit(),
        Frame::Order(Order { account: 0, asset: 0, date: 1, side: BUY, quantity: 1, money: 0 }),
        Frame::Roll { account: 0 },
    ];
    frames.map(|frame| frame.line())
}

fn deposit() -> Frame {
    Frame::Move(Move { account: 0, asset: RUBLES, amount: 1 })
}

fn refuse(script: &mut Script, line: &[u8]) {
    script.line(line, "0c");
}

fn slips(script: &mut Script) {
    for line in SLIPS {
        refuse(script, line);
    }
}

/// Each kind, the report too, with every count of digits but its own, up to two more than any frame has.
fn other_lengths(script: &mut Script) {
    for good in good_lines().into_iter().chain([Frame::Report { account: 0 }.line()]) {
        for digits in (0..=LONGEST_LINE + 2).filter(|&digits| digits != good.len()) {
            let mut line = good.clone();
            line.resize(digits, b'0');
            refuse(script, &line);
        }
    }
}

/// Kinds 0 and 7 to 255, over what follows the kind in a good line.
fn other_kinds(script: &mut Script) {
    for (kind, good) in [0].into_iter().chain(7..=255).zip(good_lines().iter().cycle()) {
        let line = [format!("{kind:02x}").as_bytes(), &good[2..]].concat();
        refuse(script, &line);
    }
}

/// Every byte that is neither a digit nor a newline, as the first, the second and the last of a good line.
fn other_bytes(script: &mut Script) {
    let is_other = |byte: &u8| !matches!(byte, b'0'..=b'9' | b'a'..=b'f' | b'\n');
    for (byte, good) in (0..=255).filter(is_other).zip(good_lines().iter().cycle()) {
        for at in [0, 1, good.len() - 1] {
            let mut line = good.clone();
            line[at] = byte;
            refuse(script, &line);
        }
    }
}

/// Something before or after a good line; digits of the other case.
fn additions(script: &mut Script) {
    for good in good_lines() {
        for more in [b"\r", b" ", b"\t", b"\0", b"\x80"] {
            refuse(script, &[&more[..], &good].concat());
            refuse(script, &[&good[..], more].concat());
        }
        let upper = good.to_ascii_uppercase();
        if upper != good {
            refuse(script, &upper);
        }
    }
}

/// Each ends as a good line does, and is none: a line is never taken up in its middle.
fn long_lines(script: &mut Script) {
    let end = deposit().line();
    for digits in [LONGEST_LINE, 64, 65, 66, 100, 4_096 + end.len(), 5_000, 65_536 + end.len(), 70_000] {
        let mut line = vec![b'0'; digits - end.len()];
        line.extend_from_slice(&end);
        refuse(script, &line);
    }
}
