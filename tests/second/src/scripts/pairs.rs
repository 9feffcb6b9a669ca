//! Two grounds of refusal at once: the earlier in document 01's table answers. Each ground is shown alone first, so that
//! both are known to be there.

use super::maker::Maker;
use super::unapp::{draw_feed, draw_nan};
use crate::block::{self, LISTED_POOL, ORDINARY, holding_start};
use crate::calls::{BUY, Move, Order, SELL};
use crate::cases::{GROUP_ONE, row_a};
use crate::generate::Random;
use crate::record::RECORD;
use crate::row::{
    ACCEPTANCE_SHARE, COVERED_SALES, FALL, GROUP, LOW, MARKET_LIMIT, OUTER_UP, PRICE, RAISED_RISE, date_start,
};
use crate::script::{Buffer, Buffers, Command};
use crate::units::*;

/// Each call, and the pairs of codes whose grounds can be there at once, the earlier first. The others cannot: an account
/// that is not there has no block that could break, be closed, leave its bounds or have a limit; an empty block leaves no
/// bounds by a good order; and a withdrawal of a wrong asset or amount, or from an empty block, leaves no limit to judge.
#[rustfmt::skip]
pub const CALLS: [(&str, &[(u8, u8)]); 8] = [
    ("check", &[(1, 2), (1, 13), (2, 13)]),
    ("open", &[(1, 3), (1, 6), (1, 5), (1, 7), (3, 7), (6, 7), (5, 7)]),
    ("move", &[(1, 2), (1, 13), (1, 3), (1, 6), (1, 4), (1, 7), (1, 8), (1, 9), (1, 10), (2, 13), (2, 3), (2, 6),
        (2, 4), (2, 7), (2, 8), (2, 9), (2, 10), (13, 3), (13, 6), (13, 4), (13, 7), (13, 8), (13, 9), (13, 10),
        (3, 7), (3, 8), (6, 4), (6, 7), (6, 8), (6, 9), (6, 10), (4, 7), (4, 8), (4, 9), (7, 8), (7, 9), (8, 9),
        (9, 10)]),
    ("order", &[(1, 2), (1, 13), (1, 3), (1, 6), (1, 4), (1, 7), (1, 8), (1, 9), (1, 10), (2, 13), (2, 3), (2, 6),
        (2, 4), (2, 7), (2, 8), (2, 9), (2, 10), (13, 3), (13, 6), (13, 4), (13, 7), (13, 8), (13, 9), (13, 10),
        (3, 7), (3, 8), (6, 4), (6, 7), (6, 8), (6, 9), (6, 10), (4, 7), (4, 8), (4, 10), (7, 8), (7, 9), (7, 10),
        (8, 9), (8, 10), (9, 10)]),
    ("roll", &[(1, 3), (1, 6), (1, 4), (1, 9), (6, 4), (6, 9)]),
    ("report", REPORT),
    ("app", APP),
    ("unapp", &[(1, 9)]),
];
#[rustfmt::skip]
const REPORT: &[(u8, u8)] = &[
    (1, 2), (1, 13), (1, 3), (1, 6), (1, 4), (2, 13), (2, 3), (2, 6), (2, 4), (13, 3), (13, 6), (13, 4), (6, 4),
];
/// With 9, which takes four blocks and comes in a scene of its own.
#[rustfmt::skip]
const APP: &[(u8, u8)] = &[
    (1, 2), (1, 13), (1, 3), (1, 6), (1, 4), (2, 13), (2, 3), (2, 6), (2, 4), (13, 3), (13, 6), (13, 4), (6, 4),
    (1, 9), (2, 9), (13, 9), (6, 9),
];

/// So many seeds share out the pairs.
const SHARES: u64 = 6;
/// Faults of the block come before those of the call, and its emptying before all.
const MAKING: [u8; 11] = [4, 5, 6, 9, 10, 7, 8, 3, 13, 2, 1];
/// An asset without a row.
const UNLISTED: usize = 1;
/// What an account of `world` has of asset 0, and owes at date 0.
const HELD: i64 = 100;

pub fn title(call: &str, first: u8, second: u8) -> String {
    format!("{call}: {first} before {second}")
}

pub fn scene(maker: &mut Maker) {
    let pairs = CALLS.iter().flat_map(|(call, pairs)| pairs.iter().map(move |pair| (*call, *pair)));
    let pairs: Vec<_> = pairs.filter(|&(call, (_, second))| call != "app" || second != 9).collect();
    for (call, (first, second)) in maker.share_of(pairs.len(), SHARES).map(|at| pairs[at]) {
        let good = Situation::new(maker, call, first == 7);
        for (grounds, code) in [(&[first][..], first), (&[second], second), (&[first, second], first)] {
            let mut situation = good.clone();
            for ground in MAKING.into_iter().filter(|ground| grounds.contains(ground)) {
                situation.spoil(&mut maker.random, ground, grounds);
            }
            maker.lend(&situation.buffers);
            let answer = maker.call(situation.command).code();
            assert_eq!(answer, code, "{} with grounds {grounds:?}", situation.command);
        }
        maker.note_pair(title(call, first, second));
    }
}

/// An account under row A that could do with a unit less, or trade one; a good order and a good withdrawal.
pub fn world(maker: &mut Maker, account: usize) -> (Buffers, Order, Move) {
    let mut buffers = Buffers::default();
    buffers.numbers_mut(Buffer::Clearing)[..ROW].copy_from_slice(&row_a());
    if maker.random.percent(50) {
        buffers.numbers_mut(Buffer::Own)[..ROW].copy_from_slice(&row_a());
    }
    buffers.numbers_mut(Buffer::Groups)[0] = GROUP_ONE;
    buffers.numbers_mut(Buffer::Feed).copy_from_slice(&draw_feed(&mut maker.random));
    let block = buffers.block_mut(account);
    block[block::KIND] = ORDINARY;
    block[block::RUBLES] = 1_000_000_000;
    block[holding_start(0)] = HELD;
    block[holding_start(0) + block::OBLIGATIONS.start] = HELD;
    let date = maker.random.below(DATES) as i64;
    let account = account as i64;
    let order = Order { account, asset: 0, date, side: BUY, quantity: 1, money: 10_000 };
    (buffers, order, Move { account, asset: 0, amount: -1 })
}

#[derive(Clone)]
pub struct Situation {
    pub buffers: Buffers,
    account: usize,
    /// An account that is not open, to come onto the settlement code.
    beside: usize,
    pub command: Command,
}

impl Situation {
    /// One in which the call is done.
    pub fn new(maker: &mut Maker, call: &str, buys: bool) -> Situation {
        let account = maker.random.below(ACCOUNTS);
        let (mut buffers, mut order, moved) = world(maker, account);
        if !buys && maker.random.percent(50) {
            (order.side, order.money) = (SELL, 0);
        }
        let number = account as i64;
        let command = match call {
            "check" => Command::Check,
            "open" => {
                let (kind, code) = (maker.random.between(ORDINARY, LISTED_POOL), maker.random.between(0, MOST_CODE));
                Command::Open { account: number, kind, code }
            }
            "move" => Command::Move(moved),
            "order" => Command::Order(order),
            "roll" => Command::Roll { account: number },
            "report" => Command::Report { account: number },
            "app" => Command::App { account: number },
            _ => Command::Unapp,
        };
        if let Command::Open { .. } = command {
            buffers.block_mut(account).fill(0);
        }
        let beside = (account + 1 + maker.random.below(ACCOUNTS - 1)) % ACCOUNTS;
        Situation { buffers, account, beside, command }
    }

    /// Brings in the ground of a code; `grounds` are all that are to be there.
    pub fn spoil(&mut self, random: &mut Random, code: u8, grounds: &[u8]) {
        let block = self.buffers.block_mut(self.account);
        match code {
            1 => self.spoil_length(random),
            2 => self.spoil_tables(random),
            3 => self.spoil_account(random),
            4 => block.fill(0),
            5 => block[block::KIND] = random.between(ORDINARY, LISTED_POOL),
            6 => self.spoil_block(random, grounds),
            7 => self.spoil_choice(random, grounds),
            8 => self.spoil_amount(random, grounds),
            9 => self.spoil_bounds(random),
            13 => self.spoil_own_row(random),
            _ => block[block::RUBLES] = 0,
        }
    }

    fn spoil_length(&mut self, random: &mut Random) {
        self.spoil_length_of(random, self.command.lent());
    }

    /// Of one of these buffers.
    pub fn spoil_length_of(&mut self, random: &mut Random, buffers: &[Buffer]) {
        let buffer = random.pick(buffers);
        let length = buffer.right_length();
        // What stands there is not cut: the other ground may be in it.
        self.buffers.resize(buffer, random.pick(&[length + 1, length + BLOCK, 2 * length]));
    }

    fn spoil_tables(&mut self, random: &mut Random) {
        let (buffer, number) = random.pick(&[
            (Buffer::Groups, GROUPS - 1),
            (Buffer::Own, ROW * UNLISTED + 7),
            (Buffer::Clearing, ROW * (ASSETS - 1) + 63),
        ]);
        self.buffers.numbers_mut(buffer)[number] = random.pick(&[51, i64::MIN, i64::MAX]);
    }

    /// A number of the own row a step laxer than row A's; a pool share of the whole cannot be.
    fn spoil_own_row(&mut self, random: &mut Random) {
        let (number, by) = random.pick(&[
            (PRICE, 1),
            (ACCEPTANCE_SHARE, 1),
            (COVERED_SALES, 1),
            (FALL, -1),
            (RAISED_RISE, -1),
            (MARKET_LIMIT, 1),
            (GROUP, -1),
            (date_start(0) + LOW, 1),
            (date_start(7) + OUTER_UP, -1),
        ]);
        let own = &mut self.buffers.numbers_mut(Buffer::Own)[..ROW];
        own.copy_from_slice(&row_a());
        own[number] += by;
    }

    fn spoil_account(&mut self, random: &mut Random) {
        let wrong = random.pick(&[-1, ACCOUNTS as i64, 255, i64::MIN, i64::MAX]);
        match &mut self.command {
            Command::Open { account, .. } | Command::Roll { account } => *account = wrong,
            Command::Report { account } | Command::App { account } => *account = wrong,
            Command::Move(wanted) => wanted.account = wrong,
            Command::Order(wanted) => wanted.account = wrong,
            _ => unreachable!("a call without an account"),
        }
    }

    fn spoil_block(&mut self, random: &mut Random, grounds: &[u8]) {
        let lends_tables = self.command.lent().len() > 1;
        let block = self.buffers.block_mut(self.account);
        let head = random.between(10, 15) as usize;
        let is_own = grounds.contains(&4) || matches!(self.command, Command::Open { .. });
        match random.below(if is_own { 3 } else { 5 }) {
            0 if lends_tables => block[holding_start(UNLISTED + 4) + 3] = 1,
            1 if !grounds.contains(&4) => block[block::KIND] = random.pick(&[-1, 4, i64::MIN, i64::MAX]),
            0..3 => block[head] = random.pick(&[MOST_CODE + 1, -1, i64::MIN, i64::MAX]),
            _ => self.spoil_beside(random, lends_tables),
        }
    }

    /// Another block on the account's settlement code is of another kind, not open, damaged, or holds an unlisted asset.
    fn spoil_beside(&mut self, random: &mut Random, lends_tables: bool) {
        let code = random.between(1, MOST_CODE);
        let kind = self.buffers.block(self.account)[block::KIND];
        self.buffers.block_mut(self.account)[block::CODE] = code;
        let beside = self.buffers.block_mut(self.beside);
        (beside[block::KIND], beside[block::CODE]) = (kind, code);
        match random.below(4) {
            0 if lends_tables => beside[holding_start(UNLISTED + 4) + 3] = 1,
            0 | 1 => beside[block::KIND] = random.pick(&[1 + kind % LISTED_POOL, LISTED_POOL + 1, -1]),
            2 => beside[block::KIND] = block::NOT_OPEN,
            _ => beside[block::RUBLES] = random.pick(&[MOST_RUBLES + 1, i64::MIN]),
        }
    }

    fn spoil_choice(&mut self, random: &mut Random, grounds: &[u8]) {
        let far = random.pick(&[-1, i64::MIN, i64::MAX, 256]);
        // The other ground is asked of an asset's place, or of the money.
        let needs_place = grounds.contains(&9) || grounds.contains(&10);
        let asset = if needs_place { UNLISTED as i64 } else { random.pick(&[UNLISTED as i64, 16, 254, far]) };
        match &mut self.command {
            Command::Open { kind, code, .. } => match random.below(2) {
                0 => *kind = random.pick(&[0, 4, far]),
                _ => *code = random.pick(&[MOST_CODE + 1, 255, far]),
            },
            Command::Move(wanted) => wanted.asset = asset,
            Command::Order(wanted) => match random.below(if needs_place { 1 } else { 3 }) {
                0 => wanted.asset = asset,
                1 => wanted.date = random.pick(&[DATES as i64, far]),
                _ => wanted.side = random.pick(&[2, far]),
            },
            _ => unreachable!("a call without a choice"),
        }
    }

    fn spoil_amount(&mut self, random: &mut Random, grounds: &[u8]) {
        let bounds = grounds.contains(&9);
        let limit = grounds.contains(&10);
        match &mut self.command {
            Command::Move(wanted) if bounds => wanted.amount = random.pick(&[-MOST_UNITS - 1, i64::MIN]),
            Command::Move(wanted) => {
                wanted.amount = random.pick(&[0, MOST_UNITS + 1, -MOST_UNITS - 1, i64::MIN, i64::MAX]);
            }
            // A buy leaves bounds by its money, a sell by its quantity; the other one is wrong.
            Command::Order(wanted) if wanted.side == SELL => {
                wanted.money = if limit { -1 } else { random.pick(&[-1, MOST_RUBLES + 1, i64::MIN, i64::MAX]) };
            }
            Command::Order(wanted) => {
                wanted.quantity = if limit { 0 } else { random.pick(&[0, -1, MOST_UNITS + 1, i64::MIN, i64::MAX]) };
            }
            _ => unreachable!("a call without an amount"),
        }
    }

    fn spoil_bounds(&mut self, random: &mut Random) {
        if let Command::Unapp = self.command {
            let place = random.below(RECORD);
            self.buffers.numbers_mut(Buffer::Feed)[place] = draw_nan(random);
            return;
        }
        let block = self.buffers.block_mut(self.account);
        match self.command {
            Command::Move(_) => block[holding_start(0)] = 0,
            Command::Order(Order { side: BUY, date, .. }) => block[block::NETS.start + date as usize] = -MOST_RUBLES,
            Command::Order(Order { date, .. }) => {
                block[holding_start(0) + block::OBLIGATIONS.start + date as usize] = MOST_UNITS;
            }
            _ if random.percent(50) => {
                block[block::RUBLES] = MOST_RUBLES;
                block[block::NETS.start] = 1;
            }
            _ => {
                block[holding_start(0)] = MOST_UNITS;
                block[holding_start(0) + block::CLAIMS.start] = HELD + 1;
            }
        }
    }
}
