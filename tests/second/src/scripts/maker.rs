//! The script being made: each command is also obeyed at once, so that the scenes can steer by the state it leads to.

use super::{SHARES, Script};
use crate::generate::Random;
use crate::script::{Answer, Buffer, Buffers, Command, obey};

pub struct Maker {
    pub random: Random,
    seed: u64,
    buffers: Buffers,
    script: Script,
}

impl Maker {
    pub fn new(seed: u64) -> Maker {
        let script = Script { text: Vec::new(), pairs: Vec::new() };
        Maker { random: Random::new(seed), seed, buffers: Buffers::default(), script }
    }

    pub fn into_script(self) -> Script {
        self.script
    }

    pub fn buffers(&self) -> &Buffers {
        &self.buffers
    }

    /// What falls to this seed of `count` things that `shares` seeds share out.
    pub fn share_of(&self, count: usize, shares: u64) -> impl Iterator<Item = usize> + use<> {
        ((self.seed % shares) as usize..count).step_by(shares as usize)
    }

    pub fn share(&self, count: usize) -> impl Iterator<Item = usize> + use<> {
        self.share_of(count, SHARES)
    }

    fn say(&mut self, command: Command) -> Option<Answer> {
        self.script.text.extend(format!("{command}\n").into_bytes());
        obey(&mut self.buffers, &command).expect("a number within the lent length")
    }

    pub fn reset(&mut self) {
        self.say(Command::Reset);
    }

    pub fn call(&mut self, command: Command) -> Answer {
        self.say(command).expect("a call")
    }

    pub fn set(&mut self, buffer: Buffer, number: usize, value: i64) {
        self.say(Command::Set { buffer, number, value });
    }

    /// Writes the lengths and numbers that differ.
    pub fn lend(&mut self, wanted: &Buffers) {
        if self.buffers.lengths() != wanted.lengths() {
            self.say(Command::Lengths(wanted.lengths()));
        }
        for buffer in Buffer::ALL {
            for (number, &value) in wanted.numbers(buffer).iter().enumerate() {
                if self.buffers.numbers(buffer)[number] != value {
                    self.set(buffer, number, value);
                }
            }
        }
    }

    pub fn note_pair(&mut self, pair: String) {
        self.script.pairs.push(pair);
    }
}
