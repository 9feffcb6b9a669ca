//! Damaged blocks: every number past its bounds, in an open block and in one that is not; and unlisted holdings.

use super::books::{draw_block, draw_tables};
use super::maker::Maker;
use crate::block::{self, CODE, LISTED_POOL, ORDINARY, holding_start};
use crate::calls::{BUY, Move, Order, RUBLES};
use crate::generate::Random;
use crate::row::Bounds;
use crate::script::{Buffer, Buffers, Command};
use crate::units::*;

/// What a number of an open block may be. A kind of 0 is one too, of a block that is not open.
pub fn bounds_of(number: usize) -> Bounds {
    let units = |number: usize| (number - holding_start(0)) % (holding_start(1) - holding_start(0));
    let (lowest, highest) = match number {
        block::KIND => (block::NOT_OPEN, LISTED_POOL),
        CODE => (0, MOST_CODE),
        _ if number < block::NETS.end => (-MOST_RUBLES, MOST_RUBLES),
        _ if number < holding_start(0) => (0, 0),
        _ if units(number) == block::COLLATERAL => (-MOST_UNITS, MOST_UNITS),
        _ => (0, MOST_UNITS),
    };
    Bounds { lowest, highest }
}

/// Different accounts.
pub fn some_accounts<const COUNT: usize>(random: &mut Random) -> [usize; COUNT] {
    let mut accounts: [usize; ACCOUNTS] = std::array::from_fn(|account| account);
    std::array::from_fn(|at| {
        accounts.swap(at, at + random.below(ACCOUNTS - at));
        accounts[at]
    })
}

/// Puts blocks onto one settlement code; all of one are of one kind.
pub fn share_code(buffers: &mut Buffers, accounts: &[usize], kind: i64, code: i64) {
    for &account in accounts {
        let block = buffers.block_mut(account);
        (block[block::KIND], block[CODE]) = (kind, code);
    }
}

/// One of each call for an account.
pub fn calls_of(account: usize) -> [Command; 6] {
    let account = account as i64;
    [
        Command::Open { account, kind: ORDINARY, code: 0 },
        Command::Move(Move { account, asset: RUBLES, amount: 1 }),
        Command::Order(Order { account, asset: 0, date: 0, side: BUY, quantity: 1, money: 0 }),
        Command::Roll { account },
        Command::Report { account },
        Command::App { account },
    ]
}

/// The account shares a settlement code with a second one, which is stopped by the damage; a third one is not.
pub fn damaged(maker: &mut Maker) {
    let mut wanted = draw_tables(&mut maker.random, 100, 30);
    let [account, second, other, empty] = some_accounts(&mut maker.random);
    for account in [account, second, other] {
        *wanted.block_mut(account) = draw_block(&mut maker.random, &wanted);
    }
    let (kind, code) = (wanted.block(account)[block::KIND], maker.random.between(1, MOST_CODE));
    share_code(&mut wanted, &[account, second], kind, code);
    for number in maker.share(BLOCK) {
        let Bounds { lowest, highest } = bounds_of(number);
        for value in [lowest - 1, highest + 1, i64::MIN, i64::MAX] {
            let mut damaged = wanted.clone();
            damaged.block_mut(account)[number] = value;
            call_all(maker, &damaged, account);
            call_all(maker, &damaged, second);
            maker.call(Command::Open { account: empty as i64, kind, code });
        }
        if number != block::KIND {
            let extreme = maker.random.pick(&[i64::MIN, i64::MAX]);
            let mut not_open = wanted.clone();
            not_open.block_mut(account).fill(0);
            not_open.block_mut(account)[number] = maker.random.pick(&[1, -1, extreme]);
            call_all(maker, &not_open, account);
        }
        // Another account's damage does not matter.
        maker.call(Command::Report { account: other as i64 });
        maker.lend(&wanted);
        maker.set(Buffer::Book, account * BLOCK + number, bounds_of(number).highest + 1);
        maker.call(Command::Open { account: empty as i64, kind: LISTED_POOL, code: 0 });
    }
}

pub fn call_all(maker: &mut Maker, wanted: &Buffers, account: usize) {
    for call in calls_of(account) {
        maker.lend(wanted);
        maker.call(call);
    }
}

/// Any nonzero number of an asset that is not listed. A roll is lent no tables, so it does not stop there.
pub fn unlisted_holdings(maker: &mut Maker) {
    let account = maker.random.below(ACCOUNTS);
    for number in maker.share(BLOCK - holding_start(0)) {
        let mut wanted = Buffers::default();
        let place = holding_start(0) + number;
        let block = wanted.block_mut(account);
        block[block::KIND] = maker.random.between(ORDINARY, LISTED_POOL);
        block[place] = maker.random.pick(&[1, bounds_of(place).highest]);
        call_all(maker, &wanted, account);
        maker.set(Buffer::Book, account * BLOCK + place, 0);
        maker.call(Command::Report { account: account as i64 });
    }
}
