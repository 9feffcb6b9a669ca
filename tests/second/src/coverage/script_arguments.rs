//! Coverage of the arguments of scripts: each at its bounds, one past them and at both ends of 64 bits.

use super::tally::Tally;
use crate::calls::{Move, Order, RUBLES};
use crate::script::Command;
use crate::units::*;

const ARGUMENT: &str = "arguments at and past their bounds";

const ENDS: [i64; 2] = [i64::MIN, i64::MAX];
const ACCOUNT: &[i64] = &[-1, 0, 15, 16, 256];

/// Each argument, and the values to be reached beside the two ends.
#[rustfmt::skip]
const VALUES: [(&str, &[i64]); 17] = [
    ("open account", ACCOUNT),
    ("open kind", &[-1, 0, 1, 2, 3, 4, 256, 257]),
    ("open code", &[-1, 0, 1, 15, 16, 255, 256, 257]),
    ("move account", ACCOUNT),
    ("move asset", &[-1, 0, 15, 16, 254, 255, 256, 511]),
    ("move units", &[0, 1, -1, MOST_UNITS, -MOST_UNITS, MOST_UNITS + 1, -MOST_UNITS - 1]),
    ("move rubles", &[0, 1, -1, MOST_RUBLES, -MOST_RUBLES, MOST_RUBLES + 1, -MOST_RUBLES - 1]),
    ("order account", ACCOUNT),
    ("order asset", &[-1, 0, 15, 16, 254, 255, 256]),
    ("order date", &[-1, 0, 7, 8, 256]),
    ("order side", &[-1, 0, 1, 2, 256, 257]),
    ("order quantity", &[-1, 0, 1, MOST_UNITS, MOST_UNITS + 1]),
    ("order money", &[-1, 0, MOST_RUBLES, MOST_RUBLES + 1]),
    ("roll account", ACCOUNT),
    ("report account", ACCOUNT),
    ("app account", ACCOUNT),
    ("cover asset", &[-1, 0, 15, 16, 255, 256]),
];

pub fn expect(tally: &mut Tally) {
    let members = |&(name, values): &(&'static str, &'static [i64])| {
        values.iter().chain(&ENDS).map(move |value| format!("{name} {value}"))
    };
    tally.expect(ARGUMENT, VALUES.iter().flat_map(members));
}

pub fn count(command: &Command, tally: &mut Tally) {
    for (name, value) in arguments(command) {
        let (_, values) = VALUES.iter().find(|(expected, _)| *expected == name).expect("a name of the list");
        tally.count_if(values.contains(&value) || ENDS.contains(&value), ARGUMENT, format!("{name} {value}"));
    }
}

fn arguments(command: &Command) -> Vec<(&'static str, i64)> {
    match *command {
        Command::Cover { asset } => vec![("cover asset", asset)],
        Command::Open { account, kind, code } => {
            vec![("open account", account), ("open kind", kind), ("open code", code)]
        }
        Command::Move(Move { account, asset, amount }) => {
            let moved = if asset == RUBLES { "move rubles" } else { "move units" };
            vec![("move account", account), ("move asset", asset), (moved, amount)]
        }
        Command::Order(Order { account, asset, date, side, quantity, money }) => vec![
            ("order account", account),
            ("order asset", asset),
            ("order date", date),
            ("order side", side),
            ("order quantity", quantity),
            ("order money", money),
        ],
        Command::Roll { account } => vec![("roll account", account)],
        Command::Report { account } => vec![("report account", account)],
        Command::App { account } => vec![("app account", account)],
        Command::Check | Command::Unapp | Command::Set { .. } | Command::Lengths(_) | Command::Reset => Vec::new(),
    }
}
