//! Arguments at their bounds, just past them and at the ends of 64 bits, one at a time in a call that is good without.

use super::maker::Maker;
use super::pairs::world;
use crate::block;
use crate::calls::{Move, Order, RUBLES};
use crate::script::Command;
use crate::units::*;

/// Past every choice of a byte's size. A byte's worth more looks like a good one to who cuts it.
const FAR: [i64; 4] = [i64::MIN, i64::MAX, -1, 256];

pub fn scene(maker: &mut Maker) {
    let account = maker.random.below(ACCOUNTS);
    let (mut base, order, moved) = world(maker, account);
    for call in of_order(order).into_iter().chain(of_move(moved)).chain(of_others(account as i64)) {
        // All of them in two seeds or three.
        if maker.random.percent(50) {
            maker.lend(&base);
            maker.call(call);
        }
    }
    let account = account as i64;
    base.block_mut(account as usize).fill(block::NOT_OPEN);
    for kind in [1, 2, 3, 0, 4, 257].into_iter().chain(FAR) {
        maker.lend(&base);
        maker.call(Command::Open { account, kind, code: 0 });
    }
    for code in [0, 1, 15, 16, 255, 257].into_iter().chain(FAR) {
        maker.lend(&base);
        maker.call(Command::Open { account, kind: 1, code });
    }
}

fn of_order(good: Order) -> Vec<Command> {
    let far = |more: &'static [i64]| FAR.into_iter().chain(more.iter().copied());
    let mut orders = vec![good];
    orders.extend(far(&[16]).map(|account| Order { account, ..good }));
    orders.extend(far(&[1, 15, 16, 254, 255]).map(|asset| Order { asset, ..good }));
    orders.extend(far(&[0, 7, 8]).map(|date| Order { date, ..good }));
    orders.extend(far(&[0, 1, 2, 257]).map(|side| Order { side, ..good }));
    orders.extend(far(&[0, 1, MOST_UNITS, MOST_UNITS + 1]).map(|quantity| Order { quantity, ..good }));
    orders.extend(far(&[0, MOST_RUBLES, MOST_RUBLES + 1]).map(|money| Order { money, ..good }));
    orders.into_iter().map(Command::Order).collect()
}

fn of_move(good: Move) -> Vec<Command> {
    let mut moves = vec![good];
    moves.extend(FAR.into_iter().chain([16]).map(|account| Move { account, ..good }));
    moves.extend(FAR.into_iter().chain([1, 15, 16, 254, 255, 511]).map(|asset| Move { asset, ..good }));
    for (asset, most) in [(good.asset, MOST_UNITS), (RUBLES, MOST_RUBLES)] {
        let amounts = [i64::MIN, i64::MIN + 1, i64::MAX, 0, 1, -1, most, -most, most + 1, -most - 1];
        moves.extend(amounts.map(|amount| Move { asset, amount, ..good }));
    }
    moves.into_iter().map(Command::Move).collect()
}

fn of_others(account: i64) -> Vec<Command> {
    let accounts = FAR.into_iter().chain([0, 15, 16, account, account + 256]);
    accounts
        .flat_map(|account| {
            [
                Command::Roll { account },
                Command::Report { account },
                Command::App { account },
                Command::Open { account, kind: 1, code: 0 },
            ]
        })
        .collect()
}
