//! Stored call scripts: how one is written, document 01's three rows of the cover test, and the form of a script with
//! checksums worked out by hand.

use super::{Case, row_a};
use crate::row::RAISED_FALL;
use crate::script::{Buffer, Buffers, Command};

pub fn cases() -> Vec<Case> {
    vec![cover(), form()]
}

/// Row A passes the cover test; with raised fall 9,700 it still does, with 9,800 not.
fn cover() -> Case {
    let set = |(number, value): (usize, i64)| format!("C {number} {value}\n");
    let mut input: String = row_a().into_iter().enumerate().filter(|(_, value)| *value != 0).map(set).collect();
    input.push_str("cover 0\n");
    for raised in [9_700, 9_800] {
        input.push_str(&set((RAISED_FALL, raised)));
        input.push_str("cover 0\n");
    }
    Case { name: "cover".to_string(), input: input.into(), output: "1\n1\n0\n".into() }
}

/// Commands with their answers. Of a buffer each number counts as often as its place from 1 on says, and all of it once
/// for the book, five times for the clearing table, seven times for the own table, eleven times for the groups.
const FORM: [(&str, &str); 23] = [
    ("check", "0 0"),
    ("open 0 1 0", "0 1"),
    ("open 0 1 0", "5 1"),
    ("B 4607 2", ""),
    // 1 + 4,608 × 2.
    ("open 15 1 0", "6 9217"),
    ("report 0", "0 0 0 0 0 0 9217"),
    ("Z", ""),
    ("roll 0", "4 0"),
    ("C 1 10", ""),
    ("O 63 -1", ""),
    ("G 7 3", ""),
    ("check", "2 1"),
    // 2 × 10 × 5 − 64 × 7 + 8 × 3 × 11 is −84.
    ("report 0", "2 0 0 0 0 0 18446744073709551532"),
    ("L 4607 0 1024 1024 8 0 0", ""),
    ("roll 0", "1 18446744073709551532"),
    // What is cut does not come back.
    ("L 4608 0 1024 63 8 0 0", ""),
    ("check", "1 0"),
    ("L 4608 0 1024 1024 8 0 0", ""),
    ("C 1 0", ""),
    ("check", "0 0"),
    ("open 16 1 0", "3 264"),
    ("move 0 255 -9223372036854775808", "4 264"),
    ("order 0 0 0 0 1 0", "4 264"),
];

fn form() -> Case {
    let (mut input, mut output) = (String::new(), String::new());
    for (command, answer) in FORM {
        input += &format!("{command}\n");
        if !answer.is_empty() {
            output += &format!("{answer}\n");
        }
    }
    Case { name: "form".to_string(), input: input.into(), output: output.into() }
}

/// A call script being written, with its answers. What stands in the buffers is kept by hand, for the checksums.
#[derive(Default)]
pub struct Calls {
    input: String,
    output: String,
    pub standing: Buffers,
}

impl Calls {
    pub fn case(self, name: &str) -> Case {
        Case { name: name.to_string(), input: self.input.into(), output: self.output.into() }
    }

    pub fn set(&mut self, buffer: Buffer, number: usize, value: i64) {
        self.input += &format!("{}\n", Command::Set { buffer, number, value });
        self.standing.numbers_mut(buffer)[number] = value;
    }

    pub fn lengths(&mut self, lengths: [usize; 5]) {
        self.input += &format!("{}\n", Command::Lengths(lengths));
        for (buffer, length) in Buffer::ALL.into_iter().zip(lengths) {
            self.standing.resize(buffer, length);
        }
    }

    /// Answered with the checksum at the end.
    pub fn call(&mut self, call: Command, answer: &str) {
        self.call_without_sum(call, &format!("{answer} {}", self.standing.sum()));
    }

    pub fn call_without_sum(&mut self, call: Command, answer: &str) {
        self.input += &format!("{call}\n");
        self.output += &format!("{answer}\n");
    }
}
