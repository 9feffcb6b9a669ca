//! One command a line: a word and decimal numbers, with single spaces between them.

use std::fmt;

use super::buffers::Buffer;
use crate::calls::{Move, Order};

/// Numbers of the command `L`: book, list of resting orders, clearing, own, groups, the file reader's table, feed.
const LENGTHS: usize = 7;
/// Those of the five buffers that today's calls are lent; the others are passed over.
const LENT: [usize; 5] = [0, 2, 3, 4, 6];

#[derive(Clone, Copy)]
pub enum Command {
    Set { buffer: Buffer, number: usize, value: i64 },
    Lengths([usize; 5]),
    Reset,
    Check,
    Cover { asset: i64 },
    Open { account: i64, kind: i64, code: i64 },
    Move(Move),
    Order(Order),
    Roll { account: i64 },
    Report { account: i64 },
    App { account: i64 },
    Unapp,
}

impl Command {
    /// None for a line of any other form.
    pub fn read(line: &str) -> Option<Command> {
        let mut words = line.split(' ');
        let word = words.next()?;
        let numbers = words.map(|word| word.parse().ok()).collect::<Option<Vec<i64>>>()?;
        if let Some(buffer) = Buffer::ALL.into_iter().find(|buffer| buffer.word() == word) {
            let [number, value] = numbers[..] else { return None };
            return Some(Command::Set { buffer, number: number.try_into().ok()?, value });
        }
        match (word, &numbers[..]) {
            ("L", lengths) => lengths_of(lengths),
            ("Z", []) => Some(Command::Reset),
            ("check", []) => Some(Command::Check),
            ("cover", &[asset]) => Some(Command::Cover { asset }),
            ("open", &[account, kind, code]) => Some(Command::Open { account, kind, code }),
            ("move", &[account, asset, amount]) => Some(Command::Move(Move { account, asset, amount })),
            ("order", &[account, asset, date, side, quantity, money]) => {
                Some(Command::Order(Order { account, asset, date, side, quantity, money }))
            }
            ("roll", &[account]) => Some(Command::Roll { account }),
            ("report", &[account]) => Some(Command::Report { account }),
            ("app", &[account]) => Some(Command::App { account }),
            ("unapp", []) => Some(Command::Unapp),
            _ => None,
        }
    }

    /// The name of a call; a command without an answer has none.
    pub fn call(&self) -> Option<&'static str> {
        match self {
            Command::Set { .. } | Command::Lengths(_) | Command::Reset => None,
            Command::Check => Some("check"),
            Command::Cover { .. } => Some("cover"),
            Command::Open { .. } => Some("open"),
            Command::Move(_) => Some("move"),
            Command::Order(_) => Some("order"),
            Command::Roll { .. } => Some("roll"),
            Command::Report { .. } => Some("report"),
            Command::App { .. } => Some("app"),
            Command::Unapp => Some("unapp"),
        }
    }

    /// The buffers that a call is lent.
    pub fn lent(&self) -> &'static [Buffer] {
        match self {
            Command::Set { .. } | Command::Lengths(_) | Command::Reset => &[],
            Command::Check => &[Buffer::Clearing, Buffer::Own, Buffer::Groups],
            Command::Cover { .. } => &[Buffer::Clearing, Buffer::Own],
            Command::Open { .. } | Command::Roll { .. } => &[Buffer::Book],
            Command::Move(_) | Command::Order(_) | Command::Report { .. } => &Buffer::OF_REPORT,
            Command::App { .. } => &Buffer::ALL,
            Command::Unapp => &[Buffer::Feed],
        }
    }

    pub fn account(&self) -> Option<i64> {
        match *self {
            Command::Open { account, .. } | Command::Roll { account } => Some(account),
            Command::Report { account } | Command::App { account } => Some(account),
            Command::Move(Move { account, .. }) | Command::Order(Order { account, .. }) => Some(account),
            _ => None,
        }
    }
}

fn lengths_of(numbers: &[i64]) -> Option<Command> {
    let lengths = numbers.iter().map(|&length| length.try_into().ok()).collect::<Option<Vec<usize>>>()?;
    (lengths.len() == LENGTHS).then(|| Command::Lengths(LENT.map(|at| lengths[at])))
}

/// The line that reads as this command.
impl fmt::Display for Command {
    fn fmt(&self, out: &mut fmt::Formatter) -> fmt::Result {
        let call = self.call().unwrap_or_default();
        match self {
            Command::Set { buffer, number, value } => write!(out, "{} {number} {value}", buffer.word()),
            Command::Lengths([book, clearing, own, groups, feed]) => {
                write!(out, "L {book} 0 {clearing} {own} {groups} 0 {feed}")
            }
            Command::Reset => write!(out, "Z"),
            Command::Check | Command::Unapp => write!(out, "{call}"),
            Command::Cover { asset } => write!(out, "{call} {asset}"),
            Command::Open { account, kind, code } => write!(out, "{call} {account} {kind} {code}"),
            Command::Move(Move { account, asset, amount }) => write!(out, "{call} {account} {asset} {amount}"),
            Command::Order(Order { account, asset, date, side, quantity, money }) => {
                write!(out, "{call} {account} {asset} {date} {side} {quantity} {money}")
            }
            Command::Roll { account } | Command::Report { account } | Command::App { account } => {
                write!(out, "{call} {account}")
            }
        }
    }
}
