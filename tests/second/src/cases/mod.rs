//! The stored cases: session inputs and call scripts with their answers. Figures of S1 to S12, the two orders, the
//! session and the cover test are document 01's own; the other answers are worked out by hand from its rules and from
//! #101 to #104. Nothing here asks the second program's rules, but for the answers of one long session.

mod app;
mod calls;
mod day;
mod floats;
mod lines;
mod long;
mod malformed;
mod settlement;
mod settlement_calls;
mod stricter;
mod stricter_places;
mod sums;
mod trouble;

pub use app::QUOTIENTS;
pub use floats::{Quotient, bits_of_whole};
pub use sums::{GROUP_ONE, Held, SUMS, Sum, row_a};

use crate::frame::Frame;
use calls::Calls;

pub struct Case {
    pub name: String,
    pub input: Vec<u8>,
    pub output: Vec<u8>,
}

/// The sessions of tests/cases: NAME.in and NAME.out.
pub fn sessions() -> Vec<Case> {
    let mut cases = lines::cases();
    cases.extend(sums::cases());
    cases.extend([sums::session(), day::session(), trouble::session(), stricter::session()]);
    cases.extend(settlement::cases());
    cases.extend([malformed::session(), long::session()]);
    cases
}

/// The call scripts of tests/cases: NAME.calls and NAME.answers.
pub fn scripts() -> Vec<Case> {
    let mut cases = calls::cases();
    cases.extend([trouble::script(), app::script(), stricter_places::script(), settlement_calls::script()]);
    cases
}

/// What the engine's session program is run on where it is proved, standard input and output of its crate: document 01's
/// session, its last line without the newline.
pub fn program() -> Case {
    let mut case = lines::document();
    case.input.pop();
    Case { name: "session".to_string(), ..case }
}

/// A case being written, line by line.
struct Script(Case);

impl Script {
    fn new(name: &str) -> Script {
        Script(Case { name: name.to_string(), input: Vec::new(), output: Vec::new() })
    }

    /// A line and the digits it is answered with.
    fn line(&mut self, line: &[u8], answer: &str) {
        self.0.input.extend_from_slice(line);
        self.0.input.push(b'\n');
        self.0.output.extend_from_slice(answer.as_bytes());
        self.0.output.push(b'\n');
    }

    /// A frame and its code.
    fn say(&mut self, frame: Frame, code: u8) {
        self.line(&frame.line(), &format!("{code:02x}"));
    }

    fn set(&mut self, place: usize, number: i64) {
        self.say(Frame::Set { place, number }, 0);
    }

    /// A report of the five figures in the document's columns.
    fn report(&mut self, account: i64, figures: [i64; 5]) {
        let figures: String = figures.iter().map(|figure| format!("{figure:016x}")).collect();
        self.line(&Frame::Report { account }.line(), &format!("00{figures}"));
    }

    /// A report that is turned away, with five zeros.
    fn no_report(&mut self, account: i64, code: u8) {
        let zeros = "0".repeat(5 * 16);
        self.line(&Frame::Report { account }.line(), &format!("{code:02x}{zeros}"));
    }

    /// The last line lacks its newline.
    fn bare_end(mut self) -> Case {
        self.0.input.pop();
        self.0
    }
}
