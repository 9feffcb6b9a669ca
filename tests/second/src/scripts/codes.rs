//! Document 02, #104: settlement codes that no run of calls makes. Five blocks on one, kinds mixed, a block that is not
//! open, a damaged one, an unlisted holding, numbers 13 that are no codes; each stops every account of the code, and a new
//! one, and nobody else.

use super::blocks::{bounds_of, call_all, share_code, some_accounts};
use super::books::{draw_block, draw_tables};
use super::maker::Maker;
use crate::block::{self, CODE, KIND, LISTED_POOL, NOT_OPEN, ORDINARY, holding_start};
use crate::row::Bounds;
use crate::script::{Buffers, Command};
use crate::tables::Tables;
use crate::units::*;

/// A sound code, and accounts that are not on it.
struct Scene {
    sound: Buffers,
    kind: i64,
    code: i64,
    /// From two to four.
    members: Vec<usize>,
    /// Open, without a code.
    outsider: usize,
    /// Not open.
    empty: [usize; 3],
}

pub fn scene(maker: &mut Maker) {
    let scene = Scene::new(maker);
    for fault in [
        Scene::none,
        Scene::five,
        Scene::another_kind,
        Scene::not_open,
        Scene::damaged,
        Scene::unlisted,
        Scene::no_code,
        Scene::same_number_that_is_no_code,
        Scene::code_zero,
    ] {
        let wanted = fault(&scene, maker);
        scene.ask(maker, &wanted);
    }
}

impl Scene {
    fn new(maker: &mut Maker) -> Scene {
        // Few rows, so that there is something unlisted.
        let mut sound = draw_tables(&mut maker.random, 20, 30);
        let accounts: [usize; MEMBERS + 4] = some_accounts(&mut maker.random);
        let (members, others) = accounts.split_at(maker.random.between(2, MEMBERS as i64) as usize);
        let [outsider, empty @ ..] = *others.first_chunk::<4>().expect("four more");
        for &account in members.iter().chain([&outsider]) {
            *sound.block_mut(account) = draw_block(&mut maker.random, &sound);
        }
        let (kind, code) = (maker.random.between(ORDINARY, LISTED_POOL), maker.random.between(1, MOST_CODE));
        share_code(&mut sound, members, kind, code);
        Scene { sound, kind, code, members: members.to_vec(), outsider, empty }
    }

    /// Every call of two members; a new account on the code, of its kind and of another; an outsider.
    fn ask(&self, maker: &mut Maker, wanted: &Buffers) {
        for account in [self.members[0], self.members[1]] {
            call_all(maker, wanted, account);
        }
        let (account, another) = (self.empty[0] as i64, 1 + self.kind % LISTED_POOL);
        for kind in [self.kind, another] {
            maker.lend(wanted);
            maker.call(Command::Open { account, kind, code: self.code });
        }
        maker.lend(wanted);
        maker.call(Command::Open { account, kind: self.kind, code: 1 + self.code % MOST_CODE });
        maker.call(Command::Report { account: self.outsider as i64 });
    }

    fn none(&self, _: &mut Maker) -> Buffers {
        self.sound.clone()
    }

    fn five(&self, _: &mut Maker) -> Buffers {
        let mut wanted = self.sound.clone();
        let more: Vec<_> = self.empty[1..].iter().chain([&self.outsider]).copied().collect();
        share_code(&mut wanted, &more[..MEMBERS + 1 - self.members.len()], self.kind, self.code);
        wanted
    }

    /// The first or the second of those that are asked.
    fn one(&self, maker: &mut Maker) -> usize {
        maker.random.pick(&[self.members[0], self.members[1], self.members[1]])
    }

    fn another_kind(&self, maker: &mut Maker) -> Buffers {
        let mut wanted = self.sound.clone();
        wanted.block_mut(self.one(maker))[KIND] = 1 + self.kind % LISTED_POOL;
        wanted
    }

    /// Where there are four on the code, one of them is emptied but for its number 13.
    fn not_open(&self, _: &mut Maker) -> Buffers {
        let mut wanted = self.sound.clone();
        let account = if self.members.len() < MEMBERS { self.empty[1] } else { self.members[MEMBERS - 1] };
        wanted.block_mut(account).fill(NOT_OPEN);
        wanted.block_mut(account)[CODE] = self.code;
        wanted
    }

    fn damaged(&self, maker: &mut Maker) -> Buffers {
        let mut wanted = self.sound.clone();
        let number = maker.random.pick(&[1, 9, 10, 14, 15, holding_start(0), BLOCK - 1]);
        let Bounds { lowest, highest } = bounds_of(number);
        let value = maker.random.pick(&[lowest - 1, highest + 1, i64::MIN, i64::MAX]);
        wanted.block_mut(self.one(maker))[number] = value;
        wanted
    }

    /// Of an asset that is listed by chance it is a holding like any other.
    fn unlisted(&self, maker: &mut Maker) -> Buffers {
        let mut wanted = self.sound.clone();
        let tables: Tables = self.sound.tables().expect("right lengths");
        let asset = (0..ASSETS).rev().find(|&asset| !tables.is_listed(asset)).unwrap_or_default();
        let number = holding_start(asset) + maker.random.below(2 * DATES + 1);
        wanted.block_mut(self.one(maker))[number] = 1;
        wanted
    }

    fn no_code(&self, maker: &mut Maker) -> Buffers {
        let mut wanted = self.sound.clone();
        let account = self.one(maker);
        wanted.block_mut(account)[CODE] = maker.random.pick(&[MOST_CODE + 1, 255, 256, -1, i64::MIN, i64::MAX]);
        wanted
    }

    fn same_number_that_is_no_code(&self, maker: &mut Maker) -> Buffers {
        let mut wanted = self.sound.clone();
        let number = maker.random.pick(&[MOST_CODE + 1, 255, -1, i64::MIN, i64::MAX]);
        share_code(&mut wanted, &self.members, self.kind, number);
        wanted
    }

    /// Of code 0 five and more, of all kinds, and a damaged one among them.
    fn code_zero(&self, _: &mut Maker) -> Buffers {
        let mut wanted = self.sound.clone();
        share_code(&mut wanted, &self.members, self.kind, 0);
        share_code(&mut wanted, &self.members[1..], 1 + self.kind % LISTED_POOL, 0);
        share_code(&mut wanted, &self.empty[1..], self.kind, 0);
        wanted.block_mut(self.empty[2])[block::RUBLES] = MOST_RUBLES + 1;
        wanted
    }
}
