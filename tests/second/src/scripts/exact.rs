//! Document 02, #104: four full blocks of one settlement code, whose figures come to 2^53 and beyond. The record for the
//! phone app answers 9 from there on, the report does not. Nothing less than four blocks comes so far.

use super::app::ask;
use super::blocks::{share_code, some_accounts};
use super::maker::Maker;
use super::pairs::title;
use super::unapp::draw_feed;
use crate::block::{self, CLAIMS, COLLATERAL, LISTED_POOL, NETS, OBLIGATIONS, ORDINARY, RUBLES, holding_start};
use crate::cases::row_a;
use crate::limit::{Figures, figures};
use crate::record::RECORD;
use crate::row::*;
use crate::script::{Buffer, Buffers, Command};
use crate::units::*;

/// So many seeds share out the scenes, each of which takes many lines.
const SHARES: u64 = 11;
/// No float of this size or above is sure to be a whole number.
pub const SIZE: i64 = 1 << 53;

/// All claimed or all owed, without risk or with a market risk of the whole.
pub fn scene(maker: &mut Maker) {
    for number in maker.share_of(4, SHARES) {
        let (claimed, risk) = (number % 2 == 0, number >= 2);
        let accounts = some_accounts(&mut maker.random);
        let wanted = four_blocks(maker, accounts, claimed, if risk { WHOLE } else { 0 });
        let sign = if claimed { 1 } else { -1 };
        // What is steered: all that is claimed has the greater valuation, all that is owed at risk the lower limit.
        let of_limit = risk && !claimed;
        for by in [-2, -1, 0, 1] {
            let steered = steer(&wanted, accounts, sign * (SIZE + by), of_limit);
            for account in accounts {
                if by != -2 {
                    maker.lend(&steered);
                    maker.call(Command::Report { account: account as i64 });
                }
                ask(maker, &steered, account);
            }
        }
        let [good, nine] = [SIZE - 1, SIZE].map(|size| steer(&wanted, accounts, sign * size, of_limit));
        before_nine(maker, [&good, &nine], accounts);
    }
}

/// Price 10^7, no dates, shares and rates as said.
fn row(rate: i64) -> Row {
    let mut row = [0; ROW];
    row[..=RAISED_RISE].copy_from_slice(&[SECURITY, MOST_PRICE, WHOLE, WHOLE, RECORDED, 0, rate, rate, rate, rate]);
    row
}

fn four_blocks(maker: &mut Maker, accounts: [usize; MEMBERS], claimed: bool, rate: i64) -> Buffers {
    let mut wanted = Buffers::default();
    wanted.numbers_mut(Buffer::Feed).copy_from_slice(&draw_feed(&mut maker.random));
    for asset in 0..ASSETS {
        wanted.numbers_mut(Buffer::Clearing)[ROW * asset..ROW * (asset + 1)].copy_from_slice(&row(rate));
    }
    let (kind, code) = (maker.random.between(ORDINARY, LISTED_POOL), maker.random.between(1, MOST_CODE));
    share_code(&mut wanted, &accounts, kind, code);
    for account in accounts {
        for holding in block::holdings_mut(wanted.block_mut(account)) {
            holding[COLLATERAL] = if claimed { MOST_UNITS } else { -MOST_UNITS };
            holding[if claimed { CLAIMS } else { OBLIGATIONS }].fill(MOST_UNITS);
        }
    }
    wanted
}

/// The rubles of the four blocks such that the valuation, or the limit, is this.
fn steer(wanted: &Buffers, accounts: [usize; MEMBERS], target: i64, of_limit: bool) -> Buffers {
    let mut steered = wanted.clone();
    let figures: Figures = figures(wanted.blocks(), accounts[0], &wanted.tables().expect("right lengths"));
    let mut rubles = target - if of_limit { figures.limit() } else { figures.valuation };
    for account in accounts {
        for place in [RUBLES].into_iter().chain(NETS) {
            let put = rubles.clamp(-MOST_RUBLES, MOST_RUBLES);
            steered.block_mut(account)[place] = put;
            rubles -= put;
        }
    }
    assert_eq!(rubles, 0, "four blocks hold so much");
    steered
}

/// 9 comes after every code of a report; each ground alone first, then both at once.
fn before_nine(maker: &mut Maker, [good, nine]: [&Buffers; 2], accounts: [usize; MEMBERS]) {
    let account = maker.random.pick(&accounts) as i64;
    for code in [1, 2, 13, 6] {
        let other = maker.random.pick(&accounts);
        for (buffers, wanted) in [(good, [0, code]), (nine, [9, code])] {
            maker.lend(buffers);
            let alone = maker.call(Command::App { account }).code();
            let mut spoiled = buffers.clone();
            spoil(&mut spoiled, code, other);
            maker.lend(&spoiled);
            let both = maker.call(Command::App { account }).code();
            assert_eq!([alone, both], wanted);
        }
        maker.note_pair(title("app", code, 9));
    }
}

fn spoil(buffers: &mut Buffers, code: u8, account: usize) {
    match code {
        1 => buffers.resize(Buffer::Feed, RECORD + 1),
        2 => buffers.numbers_mut(Buffer::Groups)[GROUPS - 1] = MOST_DISCOUNT + 1,
        // Its price is another.
        13 => buffers.numbers_mut(Buffer::Own)[..ROW].copy_from_slice(&row_a()),
        _ => buffers.block_mut(account)[holding_start(0)] = MOST_UNITS + 1,
    }
}
