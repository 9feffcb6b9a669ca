//! A generated session as a script: the same calls, and every buffer looked at after each of them.

use super::maker::Maker;
use crate::frame::Frame;
use crate::generate;
use crate::script::{Buffer, Command};
use crate::tables::PLACES;

pub fn scene(maker: &mut Maker) {
    const LINES: usize = 200;
    let seed = maker.random.between(1, i64::MAX) as u64;
    let session = generate::session(seed, LINES);
    for frame in session.split(|&byte| byte == b'\n').filter_map(Frame::read) {
        match frame {
            Frame::Set { place, number } if place < PLACES => {
                let (buffer, at) = Buffer::of_place(place);
                maker.set(buffer, at, number);
                continue;
            }
            // A script sets no number beyond a length.
            Frame::Set { .. } => continue,
            Frame::Open { account, kind, code } => maker.call(Command::Open { account, kind, code }),
            Frame::Move(wanted) => maker.call(Command::Move(wanted)),
            Frame::Order(wanted) => maker.call(Command::Order(wanted)),
            Frame::Roll { account } => maker.call(Command::Roll { account }),
            Frame::Report { account } => {
                maker.call(Command::Report { account });
                maker.call(Command::App { account });
                maker.call(Command::Unapp)
            }
        };
    }
}
