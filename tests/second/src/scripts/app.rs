//! Document 02, #102, on hand-made blocks: each gauge and its edges, quotients of every kind, figures as great as they get,
//! and refusals that leave the feed as it was.

use super::maker::Maker;
use super::pairs::Situation;
use super::unapp::draw_feed;
use crate::block::{self, Block, CLAIMS, COLLATERAL, NETS, OBLIGATIONS, ORDINARY, RUBLES};
use crate::limit::{Figures, figures};
use crate::record::RECORD;
use crate::row::*;
use crate::script::{Buffer, Buffers, Command};
use crate::units::*;

/// Of an account that holds listed assets under tables that pass: as it is, at the edges, and without any risk.
pub fn gauges(maker: &mut Maker, wanted: &Buffers, account: usize) {
    let mut wanted = wanted.clone();
    around(maker, &mut wanted, account);
    block::holdings_mut(wanted.block_mut(account)).as_flattened_mut().fill(0);
    around(maker, &mut wanted, account);
}

/// A kopeck of rubles is a kopeck of valuation and of limit, and what risk takes stays: the valuation is steered to −1,
/// 0 and 1, to a limit of −1, 0 and 1, to quotients that are exact and that are not, and to both ends.
fn around(maker: &mut Maker, wanted: &mut Buffers, account: usize) {
    ask(maker, wanted, account);
    let Figures { valuation, market_risk, interest_risk, discount } =
        figures(wanted.blocks(), account, &wanted.tables().expect("right lengths"));
    let taken = market_risk + interest_risk - discount;
    let some = maker.random.up_to(MOST_RUBLES);
    let part = maker.random.between(0, taken);
    let times = maker.random.pick(&[2, 4, 8, 1024]);
    let odd = maker.random.pick(&[3, 5, 7, 10, 1_000]);
    let near = [-1, 0, 1, taken - 1, taken, taken + 1];
    for valued in
        near.into_iter().chain([part, taken + some, taken + some / 1_000, some, -some, times * taken, odd * taken])
    {
        let rubles = block_rubles(wanted.block(account)) + valued - valuation;
        if rubles.abs() <= (1 + DATES as i64) * MOST_RUBLES {
            let mut steered = wanted.clone();
            spread(rubles, steered.block_mut(account));
            ask(maker, &steered, account);
        }
    }
}

/// The call, and what it wrote read back.
pub fn ask(maker: &mut Maker, wanted: &Buffers, account: usize) {
    maker.lend(wanted);
    maker.call(Command::App { account: account as i64 });
    maker.call(Command::Unapp);
}

fn block_rubles(block: &Block) -> i64 {
    block[RUBLES] + block[NETS].iter().sum::<i64>()
}

/// Over collateral and the nets of the dates, each within its bounds.
fn spread(mut rubles: i64, block: &mut Block) {
    for place in [RUBLES].into_iter().chain(NETS) {
        block[place] = rubles.clamp(-MOST_RUBLES, MOST_RUBLES);
        rubles -= block[place];
    }
}

/// So many seeds share out the blocks with the greatest figures, each of which takes many lines.
const SHARES: u64 = 11;

/// Every asset at the greatest price, rates and widths, and as many units as there can be: all claimed, all owed, or half
/// and half in one group, which gives the greatest discount. The lowest limit is −5.22 × 10^15, below −2^52.
pub fn greatest(maker: &mut Maker) {
    for side in maker.share_of(3, SHARES) {
        let mut wanted = Buffers::default();
        let account = maker.random.below(ACCOUNTS);
        for asset in 0..ASSETS {
            wanted.numbers_mut(Buffer::Clearing)[ROW * asset..ROW * (asset + 1)].copy_from_slice(&greatest_row());
        }
        wanted.numbers_mut(Buffer::Groups)[0] = MOST_DISCOUNT;
        let block = wanted.block_mut(account);
        block[block::KIND] = ORDINARY;
        for (asset, holding) in block::holdings_mut(block).iter_mut().enumerate() {
            let claimed = [true, false, asset % 2 == 0][side];
            holding[COLLATERAL] = if claimed { MOST_UNITS } else { -MOST_UNITS };
            holding[if claimed { CLAIMS } else { OBLIGATIONS }].fill(MOST_UNITS);
        }
        for kopecks in [MOST_RUBLES, -MOST_RUBLES, maker.random.between(-MOST_RUBLES, MOST_RUBLES)] {
            wanted.block_mut(account)[RUBLES..NETS.end].fill(kopecks);
            ask(maker, &wanted, account);
        }
    }
}

fn greatest_row() -> Row {
    let mut row = [0; ROW];
    row[..=GROUP]
        .copy_from_slice(&[SECURITY, MOST_PRICE, WHOLE, WHOLE, RECORDED, 0, WHOLE, WHOLE, WHOLE, WHOLE, 0, 0, 1]);
    for date in 0..DATES {
        row[date_start(date)..date_start(date + 1)].copy_from_slice(&[0, -WIDEST, WIDEST, -WIDEST, WIDEST]);
    }
    row
}

/// Every code of a report, with a feed of five numbers and of other counts; and those counts alone.
pub fn refusals(maker: &mut Maker) {
    let good = Situation::new(maker, "app", false);
    for code in [0, 1, 2, 13, 3, 6, 4] {
        let mut situation = good.clone();
        match code {
            0 => {}
            1 => situation.spoil_length_of(&mut maker.random, &Buffer::OF_REPORT),
            _ => situation.spoil(&mut maker.random, code, &[code]),
        }
        for count in [RECORD, 0, RECORD - 1, RECORD + 1] {
            let feed = draw_feed(&mut maker.random);
            *situation.buffers.numbers_mut(Buffer::Feed) = feed.into_iter().cycle().take(count).collect();
            maker.lend(&situation.buffers);
            let answer = maker.call(situation.command).code();
            assert_eq!(answer, if count == RECORD { code } else { 1 }, "{} with {count} numbers", situation.command);
        }
    }
}
