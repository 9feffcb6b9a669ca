//! Wrong lengths of each buffer, before every call that is lent it, and before those that are not.

use super::blocks::calls_of;
use super::books::{draw_block, draw_tables};
use super::maker::Maker;
use crate::script::{Buffer, Command};
use crate::units::*;

pub fn scene(maker: &mut Maker) {
    // Few rows, since what is cut off has to be written again.
    let mut right = draw_tables(&mut maker.random, 10, 50);
    let account = maker.random.below(ACCOUNTS);
    *right.block_mut(account) = draw_block(&mut maker.random, &right);
    for buffer in Buffer::ALL {
        let length = buffer.right_length();
        let row =
            maker.random.pick(&[length / 2, length - length.div_ceil(16), length + length.div_ceil(8), 2 * length]);
        for wrong in [0, length - 1, length + 1, row] {
            let mut wanted = right.clone();
            wanted.resize(buffer, wrong);
            maker.lend(&wanted);
            for call in calls_of(account).into_iter().chain([Command::Check, Command::Unapp]) {
                maker.call(call);
            }
        }
        maker.lend(&right);
        maker.call(Command::Check);
    }
}
