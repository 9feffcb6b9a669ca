//! Coverage of call scripts: the codes of every call, every place of the tables, lengths, pairs of grounds, and what
//! scripts reach of all that sessions reach.

use super::{
    State, Step, account_of, app, calls, codes, count_call, figures, opening, script_arguments, script_blocks,
};
use super::{script_cover, stricter, tables, tally::Tally, trouble, unapp};
use crate::calls::{DONE, Refusal};
use crate::frame::Frame;
use crate::script::{Answer, Buffer, Buffers, Command, obey};
use crate::scripts::{self, PAIRS};
use crate::tables::{PLACES, clearing_place, group_place, own_place};
use crate::units::ACCOUNTS;

/// Each call and the codes it can answer; of `cover`, no and yes.
const CODES: [(&str, &[u8]); 9] = [
    ("check", &[0, 1, 2, 13]),
    ("cover", &[0, 1]),
    ("open", &[0, 1, 3, 5, 6, 7]),
    ("move", &[0, 1, 2, 3, 4, 6, 7, 8, 9, 10, 13]),
    ("order", &[0, 1, 2, 3, 4, 6, 7, 8, 9, 10, 13]),
    ("roll", &[0, 1, 3, 4, 6, 9]),
    ("report", &[0, 1, 2, 3, 4, 6, 13]),
    ("app", &[0, 1, 2, 3, 4, 6, 9, 13]),
    ("unapp", &[0, 1, 9]),
];
const CODE: &str = "codes of each call";
const DONE_BY: &str = "calls done by account";
const PLACE: &str = "place that check answers with 2";
const PLACE_AT_ENDS: &str = "place that check answers with 2, its number at an end of 64 bits";
const LENGTH: &str = "wrong length of a lent buffer";
const NOT_LENT: &str = "wrong length of a buffer that is not lent";
const PAIR: &str = "two grounds, each alone and both at once";

/// What a length is to the right one.
const SIDES: [&str; 4] = ["none", "one short", "one long", "another"];
const BY_ACCOUNT: [&str; 6] = ["open", "move", "order", "roll", "report", "app"];
/// Calls and the buffers that they are not lent.
const OTHERS: [(&str, &[Buffer]); 7] = [
    ("check", &[Buffer::Book, Buffer::Feed]),
    ("open", &[Buffer::Clearing, Buffer::Own, Buffer::Groups, Buffer::Feed]),
    ("roll", &[Buffer::Clearing, Buffer::Own, Buffer::Groups, Buffer::Feed]),
    ("move", &[Buffer::Feed]),
    ("order", &[Buffer::Feed]),
    ("report", &[Buffer::Feed]),
    ("unapp", &Buffer::OF_REPORT),
];
/// Calls and the buffers whose wrong lengths they answer with code 1.
const LENT: [(&str, &[Buffer]); 8] = [
    ("check", &[Buffer::Clearing, Buffer::Own, Buffer::Groups]),
    ("open", &[Buffer::Book]),
    ("move", &Buffer::OF_REPORT),
    ("order", &Buffer::OF_REPORT),
    ("roll", &[Buffer::Book]),
    ("report", &Buffer::OF_REPORT),
    ("app", &Buffer::ALL),
    ("unapp", &[Buffer::Feed]),
];

/// All that scripts are to reach.
pub fn expected() -> Tally {
    let mut tally = Tally::default();
    tally.expect(CODE, CODES.iter().flat_map(|(call, codes)| codes.iter().map(move |code| format!("{call}: {code}"))));
    tally.expect(DONE_BY, BY_ACCOUNT.iter().flat_map(|call| (0..ACCOUNTS).map(move |who| format!("{call} {who}"))));
    tally.expect(PLACE, 0..PLACES);
    tally.expect(
        PLACE_AT_ENDS,
        [i64::MIN, i64::MAX].iter().flat_map(|end| (0..PLACES).map(move |at| format!("{end} {at}"))),
    );
    let sides = |call: &'static str, buffer: &Buffer| SIDES.map(|side| length_title(call, *buffer, side));
    tally.expect(LENGTH, LENT.iter().flat_map(|(call, lent)| lent.iter().flat_map(|buffer| sides(call, buffer))));
    let other = |call: &'static str, buffer: &Buffer| format!("{call}, {buffer:?}");
    tally.expect(NOT_LENT, OTHERS.iter().flat_map(|(call, others)| others.iter().map(|buffer| other(call, buffer))));
    let pair = |call: &'static str, &(first, second): &(u8, u8)| scripts::pair(call, first, second);
    tally.expect(PAIR, PAIRS.iter().flat_map(|(call, pairs)| pairs.iter().map(|codes| pair(call, codes))));
    script_arguments::expect(&mut tally);
    script_blocks::expect(&mut tally);
    script_cover::expect(&mut tally);
    calls::expect(&mut tally);
    trouble::expect_far(&mut tally);
    codes::expect(&mut tally);
    codes::expect_hand_made(&mut tally);
    opening::expect(&mut tally);
    opening::expect_hand_made(&mut tally);
    app::expect(&mut tally);
    unapp::expect(&mut tally);
    tables::expect(&mut tally);
    stricter::expect_places(&mut tally);
    figures::expect(&mut tally);
    tally
}

fn length_title(call: &str, buffer: Buffer, side: &str) -> String {
    format!("{call}, {buffer:?}: {side}")
}

/// Counts what the script of a seed reaches; hands back how many calls it has.
pub fn count(seed: u64, tally: &mut Tally) -> usize {
    let script = scripts::script(seed);
    for pair in script.pairs {
        tally.count(PAIR, pair);
    }
    let text = String::from_utf8(script.text).expect("words and numbers");
    let mut buffers = Buffers::default();
    let (mut touched, mut written) = (Vec::new(), None);
    let mut called = 0;
    for line in text.lines() {
        let command = Command::read(line).expect("a command");
        touch(&command, &mut touched);
        let before = command.call().map(|_| buffers.clone());
        let answer = obey(&mut buffers, &command).expect("a number within the lent length");
        if let (Some(before), Some(answer)) = (before, answer) {
            called += 1;
            count_answer(&command, &answer, [&before, &buffers], &mut touched, tally);
            unapp::count(&command, &answer, &before, written, tally);
            if let Answer::App { code: DONE, app, .. } = answer {
                written = Some(app.record.bits());
            }
        } else if let Command::Reset = command {
            written = None;
        }
    }
    called
}

/// Keeps the places set since the tables were last looked at.
fn touch(command: &Command, touched: &mut Vec<usize>) {
    match *command {
        Command::Set { buffer: Buffer::Clearing, number, .. } => touched.push(clearing_place(0, number)),
        Command::Set { buffer: Buffer::Own, number, .. } => touched.push(own_place(0, number)),
        Command::Set { buffer: Buffer::Groups, number, .. } => touched.push(group_place(number)),
        Command::Reset => touched.clear(),
        _ => {}
    }
}

fn count_answer(
    command: &Command,
    answer: &Answer,
    [before, after]: [&Buffers; 2],
    touched: &mut Vec<usize>,
    tally: &mut Tally,
) {
    let (call, code) = (command.call().expect("a call"), answer.code());
    tally.count(CODE, format!("{call}: {code}"));
    script_arguments::count(command, tally);
    app::count(command, answer, [before, after], tally);
    if wrong_lengths(before).is_empty() {
        count_at_right_lengths(command, code, [before, after], touched, tally);
    } else {
        count_lengths(command, call, code, before, tally);
    }
    match *answer {
        Answer::Check { code: 2, place } => count_place(before, place, tally),
        Answer::Check { code: 13, place } => {
            stricter::count_place(&before.tables().expect("right lengths"), place, tally);
        }
        _ => {}
    }
}

fn count_place(before: &Buffers, place: usize, tally: &mut Tally) {
    tally.count(PLACE, place);
    let (buffer, number) = Buffer::of_place(place);
    let value = before.numbers(buffer)[number];
    tally.count_if([i64::MIN, i64::MAX].contains(&value), PLACE_AT_ENDS, format!("{value} {place}"));
}

fn wrong_lengths(buffers: &Buffers) -> Vec<(Buffer, usize)> {
    let lengths = Buffer::ALL.into_iter().zip(buffers.lengths());
    lengths.filter(|(buffer, length)| *length != buffer.right_length()).collect()
}

/// Where one length alone is wrong.
fn count_lengths(command: &Command, call: &'static str, code: u8, before: &Buffers, tally: &mut Tally) {
    let [(buffer, length)] = wrong_lengths(before)[..] else { return };
    if !command.lent().contains(&buffer) {
        tally.count_if(code != Refusal::WrongLength as u8, NOT_LENT, format!("{call}, {buffer:?}"));
        return;
    }
    let right = buffer.right_length();
    let side = match length {
        0 => SIDES[0],
        _ if length + 1 == right => SIDES[1],
        _ if length == right + 1 => SIDES[2],
        _ => SIDES[3],
    };
    tally.count_if(code == Refusal::WrongLength as u8, LENGTH, length_title(call, buffer, side));
}

fn count_at_right_lengths(
    command: &Command,
    code: u8,
    [before, after]: [&Buffers; 2],
    touched: &mut Vec<usize>,
    tally: &mut Tally,
) {
    if command.lent().contains(&Buffer::Groups) {
        tables::count(&before.tables().expect("right lengths"), touched, tally);
        touched.clear();
    }
    script_blocks::count(command, code, before, tally);
    script_cover::count(command, code, before, tally);
    if let (Some(call), Some(account)) = (command.call(), command.account().and_then(account_of)) {
        tally.count_if(code == DONE, DONE_BY, format!("{call} {account}"));
    }
    let [before, after] = [before, after].map(|buffers| State { book: buffers.book(), lent: buffers.lent() });
    if let (Command::App { .. }, Some(account)) = (command, command.account().and_then(account_of)) {
        codes::count_six("app", code, &before, account, tally);
    }
    let frame = match *command {
        Command::Open { account, kind, code } => Frame::Open { account, kind, code },
        Command::Move(wanted) => Frame::Move(wanted),
        Command::Order(wanted) => Frame::Order(wanted),
        Command::Roll { account } => Frame::Roll { account },
        Command::Report { account } => Frame::Report { account },
        _ => return,
    };
    let step = Step { frame: &frame, code, before, after };
    trouble::count_far(&step, tally);
    count_call(&step, tally);
}
