//! Document 01, "Session lines": one line of the session as a frame, read from lower-case hexadecimal.

use crate::calls::{Move, Order};

/// Byte 0 of a frame.
pub const SET: u8 = 0x01;
pub const OPEN: u8 = 0x02;
pub const MOVE: u8 = 0x03;
pub const ORDER: u8 = 0x04;
pub const ROLL: u8 = 0x05;
pub const REPORT: u8 = 0x06;

/// Bytes of a number, high first, two's complement.
const NUMBER: usize = 8;
/// Bytes of the longest frame, an order.
const LONGEST: usize = 5 + 2 * NUMBER;
pub const LONGEST_LINE: usize = 2 * LONGEST;

pub enum Frame {
    Set {
        place: usize,
        number: i64,
    },
    /// The code's byte is #104's of document 02.
    Open {
        account: i64,
        kind: i64,
        code: i64,
    },
    Move(Move),
    Order(Order),
    Roll {
        account: i64,
    },
    Report {
        account: i64,
    },
}

impl Frame {
    /// None for a line of any other form.
    pub fn read(line: &[u8]) -> Option<Frame> {
        let mut bytes = [0; LONGEST];
        let (&kind, rest) = decode(line, &mut bytes)?.split_first()?;
        let byte = |at: usize| i64::from(rest[at]);
        let number = |at: usize| i64::from_be_bytes(rest[at..at + NUMBER].try_into().expect("eight bytes"));
        const MOVE_LENGTH: usize = 2 + NUMBER;
        const ORDER_LENGTH: usize = 4 + 2 * NUMBER;
        match (kind, rest.len()) {
            (SET, MOVE_LENGTH) => {
                let place = u16::from_be_bytes([rest[0], rest[1]]);
                Some(Frame::Set { place: usize::from(place), number: number(2) })
            }
            (OPEN, 2) => {
                rule!(None; OpenWithoutCodeRead => Some(Frame::Open { account: byte(0), kind: byte(1), code: 0 }))
            }
            (OPEN, 3) => Some(Frame::Open { account: byte(0), kind: byte(1), code: byte(2) }),
            (MOVE, MOVE_LENGTH) => Some(Frame::Move(Move { account: byte(0), asset: byte(1), amount: number(2) })),
            (ORDER, ORDER_LENGTH) => Some(Frame::Order(Order {
                account: byte(0),
                asset: byte(1),
                date: byte(2),
                side: byte(3),
                quantity: number(4),
                money: number(4 + NUMBER),
            })),
            (ROLL, 1) => Some(Frame::Roll { account: byte(0) }),
            (REPORT, 1) => Some(Frame::Report { account: byte(0) }),
            _ => None,
        }
    }

    /// The line that reads as this frame; numbers that take one byte or two in it are cut to that.
    pub fn line(&self) -> Vec<u8> {
        let mut bytes = Vec::new();
        match *self {
            Frame::Set { place, number } => {
                bytes.push(SET);
                bytes.extend((place as u16).to_be_bytes());
                bytes.extend(number.to_be_bytes());
            }
            Frame::Open { account, kind, code } => bytes.extend([OPEN, account as u8, kind as u8, code as u8]),
            Frame::Move(Move { account, asset, amount }) => {
                bytes.extend([MOVE, account as u8, asset as u8]);
                bytes.extend(amount.to_be_bytes());
            }
            Frame::Order(Order { account, asset, date, side, quantity, money }) => {
                bytes.extend([ORDER, account as u8, asset as u8, date as u8, side as u8]);
                bytes.extend(quantity.to_be_bytes());
                bytes.extend(money.to_be_bytes());
            }
            Frame::Roll { account } => bytes.extend([ROLL, account as u8]),
            Frame::Report { account } => bytes.extend([REPORT, account as u8]),
        }
        let mut line = Vec::new();
        encode(&bytes, &mut line);
        line
    }
}

/// Writes bytes as hexadecimal digits.
pub fn encode(bytes: &[u8], text: &mut Vec<u8>) {
    const DIGITS: &[u8; 16] = b"0123456789abcdef";
    for byte in bytes {
        text.extend([DIGITS[usize::from(byte >> 4)], DIGITS[usize::from(byte & 0xf)]]);
    }
}

fn decode<'a>(line: &[u8], bytes: &'a mut [u8; LONGEST]) -> Option<&'a [u8]> {
    let (pairs, []) = line.as_chunks::<2>() else { return None };
    let bytes = bytes.get_mut(..pairs.len())?;
    for (byte, &[high, low]) in bytes.iter_mut().zip(pairs) {
        *byte = digit(high)? << 4 | digit(low)?;
    }
    Some(bytes)
}

fn digit(character: u8) -> Option<u8> {
    match character {
        b'0'..=b'9' => Some(character - b'0'),
        b'a'..=b'f' => Some(character - b'a' + 10),
        b'A'..=b'F' => rule!(None; UpperCaseRead => Some(character - b'A' + 10)),
        _ => None,
    }
}
