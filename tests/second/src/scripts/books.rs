//! Hand-made books under hand-made tables: blocks that no run of calls makes, reported, and then brought to the edges.

use super::blocks::{share_code, some_accounts};
use super::maker::Maker;
use super::unapp::draw_feed;
use super::{app, edges};
use crate::block::{self, Block, CLAIMS, COLLATERAL, LISTED_POOL, NETS, OBLIGATIONS, ORDINARY, RUBLES};
use crate::generate::{Random, draw_over, draw_row};
use crate::row::{COMMODITY, GROUP, INTEREST_LIMIT, KIND, MARKET_LIMIT, SECURITY};
use crate::script::{Buffer, Buffers, Command};
use crate::tables::Tables;
use crate::units::*;

/// Blocks that are made, of which some or all share a settlement code.
const MADE: usize = MEMBERS;

pub fn scene(maker: &mut Maker) {
    let mut wanted = draw_tables(&mut maker.random, 80, 40);
    let accounts: [usize; MADE] = some_accounts(&mut maker.random);
    for account in accounts {
        *wanted.block_mut(account) = draw_block(&mut maker.random, &wanted);
    }
    let (sharing, code) = (maker.random.below(MADE + 1), maker.random.between(1, MOST_CODE));
    let kind = maker.random.between(ORDINARY, LISTED_POOL);
    share_code(&mut wanted, &accounts[..sharing], kind, code);
    if sharing > 1 && maker.random.percent(50) {
        mirror(maker, &mut wanted, &accounts[..2]);
    }
    maker.lend(&wanted);
    maker.call(Command::Check);
    // The last has no code, unless it shares that of all the others.
    for account in [accounts[0], accounts[MADE - 1]] {
        maker.call(Command::Report { account: account as i64 });
        edges::of(maker, &wanted, account);
        app::gauges(maker, &wanted, account);
    }
}

/// The second block claims what the first owes and owes what it claims, but for one asset or two.
fn mirror(maker: &mut Maker, wanted: &mut Buffers, accounts: &[usize]) {
    let first = *wanted.block(accounts[0]);
    for asset in 0..ASSETS {
        if maker.random.percent(85) {
            let holding = &mut block::holdings_mut(wanted.block_mut(accounts[1]))[asset];
            *holding = block::holdings(&first)[asset];
            let claims: Vec<_> = holding[CLAIMS].to_vec();
            holding.copy_within(OBLIGATIONS, CLAIMS.start);
            holding[OBLIGATIONS].copy_from_slice(&claims);
        }
    }
}

/// Tables that pass the check, so many rows in a hundred listed and so many of those with an own row, which is stricter; and a feed
/// that holds something.
pub fn draw_tables(random: &mut Random, listed: i64, owned: i64) -> Buffers {
    let mut tables = Buffers::default();
    for asset in 0..ASSETS {
        // One at least, so that there is an asset to trade.
        if asset > 0 && !random.percent(listed) {
            continue;
        }
        let kind = random.between(SECURITY, COMMODITY);
        let rows = ROW * asset..ROW * (asset + 1);
        let clearing = some_row(random, kind);
        tables.numbers_mut(Buffer::Clearing)[rows.clone()].copy_from_slice(&clearing);
        if random.percent(owned) {
            tables.numbers_mut(Buffer::Own)[rows].copy_from_slice(&draw_over(random, &clearing));
        }
    }
    for group in 0..GROUPS {
        let some = random.between(0, MOST_DISCOUNT);
        tables.numbers_mut(Buffer::Groups)[group] = random.pick(&[some, some, some, MOST_DISCOUNT]);
    }
    tables.numbers_mut(Buffer::Feed).copy_from_slice(&draw_feed(random));
    tables
}

/// Few groups, so that assets meet in them.
fn some_row(random: &mut Random, kind: i64) -> crate::row::Row {
    let group = random.between(1, GROUPS as i64);
    let mut row = draw_row(random, kind, group);
    row[GROUP] = random.pick(&[group, 1 + group % 3]);
    row
}

/// A sound block whose holdings are listed.
pub fn draw_block(random: &mut Random, tables: &Buffers) -> Block {
    let tables = tables.tables().expect("right lengths");
    let mut block = [0; BLOCK];
    block[block::KIND] = random.between(ORDINARY, LISTED_POOL);
    for place in [RUBLES].into_iter().chain(NETS) {
        let some = random.up_to(MOST_RUBLES);
        block[place] = random.pick(&[0, 0, some, -some]);
    }
    for asset in (0..ASSETS).filter(|&asset| tables.is_listed(asset)) {
        if random.percent(40) {
            draw_holding(random, &tables, asset, &mut block);
        }
    }
    block
}

fn draw_holding(random: &mut Random, tables: &Tables, asset: usize, block: &mut Block) {
    let row = tables.row_in_force(asset);
    debug_assert!(row[KIND] != 0);
    let holding = &mut block::holdings_mut(block)[asset];
    let near = random.pick(&[row[MARKET_LIMIT], row[INTEREST_LIMIT], 100]).min(MOST_UNITS - 1);
    let units = |random: &mut Random| {
        let some = random.up_to(MOST_UNITS);
        let about = (near + random.between(-1, 1)).clamp(0, MOST_UNITS);
        random.pick(&[about, about, some, MOST_UNITS])
    };
    if random.percent(60) {
        holding[COLLATERAL] = units(random) * random.pick(&[1, 1, -1]);
    }
    for date in 0..DATES {
        if random.percent(25) {
            holding[CLAIMS.start + date] = units(random);
        }
        if random.percent(25) {
            holding[OBLIGATIONS.start + date] = units(random);
        }
    }
    // Claims and obligations that cancel out, or nearly.
    if random.percent(20) {
        let owed = holding[CLAIMS].iter().sum::<i64>() - random.between(-1, 1);
        holding[OBLIGATIONS].fill(0);
        holding[OBLIGATIONS.start + 2] = owed.clamp(0, MOST_UNITS);
    }
}
