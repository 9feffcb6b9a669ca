//! Scenes of faults: calls with several fields wrong at once, to hold the order of the codes, and lines of other forms.

use super::maker::Maker;
use super::rows::EXTREMES;
use crate::calls::{Move, Order};
use crate::frame::Frame;
use crate::tables::PLACES;
use crate::units::*;

/// A line this long is still one line.
pub const HUGE: usize = 100_000;

/// A call each of whose fields may be wrong.
pub fn call(maker: &mut Maker) {
    let frame = some_call(maker);
    maker.say(&frame);
}

fn some_call(maker: &mut Maker) -> Frame {
    let (account, asset) = (some_account(maker), some_asset(maker));
    match maker.random.below(12) {
        0 => Frame::Set { place: maker.random.pick(&[PLACES, PLACES + 1, 0x8000, 0xffff]), number: 1 },
        1 => {
            let (kind, code) = (maker.random.pick(&[0, 1, 2, 3, 4, 255]), maker.random.pick(&[0, 0, 1, 15, 16, 255]));
            Frame::Open { account, kind, code }
        }
        2 | 3 => Frame::Move(Move { account, asset, amount: some_amount(maker) }),
        4 => Frame::Roll { account },
        5 => Frame::Report { account },
        _ => Frame::Order(Order {
            account,
            asset,
            date: maker.random.pick(&[0, 1, 2, 3, 4, 5, 6, 7, 8, 255]),
            side: maker.random.pick(&[0, 0, 0, 1, 1, 1, 2, 255]),
            quantity: some_quantity(maker),
            money: some_money(maker),
        }),
    }
}

fn some_account(maker: &mut Maker) -> i64 {
    let open = maker.open_account().map_or(0, |account| account as i64);
    let any = maker.random.between(0, ACCOUNTS as i64 - 1);
    maker.random.pick(&[open, open, open, open, open, any, any, ACCOUNTS as i64, 255])
}

fn some_asset(maker: &mut Maker) -> i64 {
    let listed = maker.asset(true).map_or(0, |asset| asset as i64);
    let any = maker.random.between(0, ASSETS as i64 - 1);
    maker.random.pick(&[listed, listed, listed, listed, listed, any, ASSETS as i64, 254, 255, 255])
}

fn some_quantity(maker: &mut Maker) -> i64 {
    let (some, extreme) = (maker.random.up_to(MOST_UNITS), maker.random.pick(&EXTREMES));
    maker.random.pick(&[some, some, 1, 1, 0, -1, MOST_UNITS, MOST_UNITS + 1, extreme])
}

fn some_money(maker: &mut Maker) -> i64 {
    let (some, extreme) = (maker.random.up_to(MOST_RUBLES), maker.random.pick(&EXTREMES));
    maker.random.pick(&[some, some, some, some, 0, -1, MOST_RUBLES, MOST_RUBLES + 1, extreme])
}

fn some_amount(maker: &mut Maker) -> i64 {
    let (some, extreme) = (maker.random.up_to(MOST_RUBLES), maker.random.pick(&EXTREMES));
    let amount = maker.random.pick(&[some, 1, 0, MOST_UNITS, MOST_UNITS + 1, MOST_RUBLES, MOST_RUBLES + 1]);
    maker.random.pick(&[amount, -amount, amount, -amount, extreme])
}

/// A line of another form than document 01 has.
pub fn line(maker: &mut Maker) {
    let good = some_call(maker).line();
    let at = maker.random.below(good.len());
    let line = match maker.random.below(11) {
        0 => Vec::new(),
        1 => good[..good.len() - 1].to_vec(),
        2 => b"0300ff00000000000ABCDE".to_vec(),
        3 => good[..(at & !1)].to_vec(),
        4 => [&good[..], b"00"].concat(),
        5 => [maker.random.pick(&[b"00", b"07", b"08", b"10", b"f4", b"ff"]), &good[2..]].concat(),
        6 => with_carriage_return(maker, good),
        7 => with_byte(maker, good, at, b"\x80\xa0\xb0\xc3\xff"),
        8 => with_byte(maker, good, at, b" \t\0+-./:@G`gxz"),
        9 => open_of_another_length(maker),
        _ => huge(maker, &good),
    };
    maker.line(&line);
}

/// Without a settlement code, as the line was before #104 of document 02, or with a byte behind it.
fn open_of_another_length(maker: &mut Maker) -> Vec<u8> {
    let account = maker.random.below(ACCOUNTS);
    let rest = maker.random.pick(&["01", "03", "010000", "010001", "020f0f"]);
    format!("02{account:02x}{rest}").into_bytes()
}

fn with_carriage_return(maker: &mut Maker, good: Vec<u8>) -> Vec<u8> {
    let start = if maker.random.percent(20) { &[] } else { &good[..] };
    [start, b"\r"].concat()
}

fn with_byte(maker: &mut Maker, mut line: Vec<u8>, at: usize, bytes: &[u8]) -> Vec<u8> {
    line[at] = maker.random.pick(bytes);
    line
}

/// Rarely, so that sessions stay small: else a line a little too long.
fn huge(maker: &mut Maker, good: &[u8]) -> Vec<u8> {
    let length = if maker.random.percent(6) { HUGE } else { 2 * good.len() };
    let filler = maker.random.pick(b"0fz ");
    let mut line = good.to_vec();
    line.resize(length, filler);
    line
}
