//! Scenes about the tables: rows drawn within the rules, then numbers at and just past their bounds, probed and mended.

use super::maker::Maker;
use super::random::Random;
use super::stricter::{draw_over, follow, settle_over};
use super::trades;
use crate::block::{self, is_zero};
use crate::row::{self, *};
use crate::tables::{Tables, clearing_place, group_place, own_place};
use crate::units::*;

/// A row with at most so many numbers that are not zero is soon taken off the list.
const LEAN: usize = 6;
/// At most so many changed numbers are soon changed back.
const FEW: usize = 3;

/// Numbers that wrap where they are added to or negated carelessly.
pub const EXTREMES: [i64; 6] =
    [i64::MIN, i64::MIN + 1, i64::MIN + MOST_PRICE, i64::MAX, i64::MAX - 1, i64::MAX - MOST_PRICE];

/// A row within the rules.
pub fn draw(random: &mut Random, kind: i64, group: i64) -> Row {
    let mut row = [0; ROW];
    row[KIND] = kind;
    row[PRICE] = random.pick(&[1, 3, 10_000, MOST_PRICE, 0]);
    if row[PRICE] == 0 {
        row[PRICE] = random.up_to(MOST_PRICE);
    }
    row[ACCEPTANCE_SHARE] = draw_share(random);
    row[POOL_SHARE] = if random.percent(50) { WHOLE } else { draw_share(random) };
    row[COVERED_SALES] = random.pick(&[RECORDED, RECORDED, RECORDED, NOT_RECORDED, PARTIAL]);
    row[SPECIAL_DELIVERY] = i64::from(random.percent(20));
    for rate in [FALL, RISE, RAISED_FALL, RAISED_RISE] {
        row[rate] = random.up_to(WHOLE);
    }
    for limit in [MARKET_LIMIT, INTEREST_LIMIT] {
        let most = random.pick(&[10, 1_000, 1_000, MOST_CONCENTRATION]);
        row[limit] = random.up_to(most);
    }
    row[GROUP] = if random.percent(75) { group } else { random.between(0, GROUPS as i64) };
    for date in 0..DATES {
        if random.percent(40) {
            draw_date(random, &mut row, date);
        }
    }
    settle(&mut row);
    row
}

fn draw_share(random: &mut Random) -> i64 {
    random.pick(&[0, 0, 1, 5_000, 3_333, 7_777, WHOLE - 1, WHOLE])
}

/// A row with little more than its price.
fn draw_lean(random: &mut Random, kind: i64) -> Row {
    let mut row = [0; ROW];
    row[KIND] = kind;
    row[PRICE] = random.up_to(MOST_PRICE);
    row[random.pick(&[ACCEPTANCE_SHARE, POOL_SHARE, RAISED_FALL])] = draw_share(random);
    settle(&mut row);
    row
}

fn draw_date(random: &mut Random, row: &mut Row, date: usize) {
    let widest = random.pick(&[1, 100, 100, 10_000, WIDEST]);
    let mid = random.between(-widest, widest);
    let (low, up) = (mid - random.up_to(widest), mid + random.up_to(widest));
    let (outer_low, outer_up) = (low - random.up_to(widest), up + random.up_to(widest));
    let start = date_start(date);
    row[start..date_start(date + 1)].copy_from_slice(&[mid, low, up, outer_low, outer_up]);
}

/// Brings each number within its bounds, by rising number.
pub fn settle(row: &mut Row) {
    for number in 0..ROW {
        let Bounds { lowest, highest } = row::bounds(row)[number];
        row[number] = row[number].clamp(lowest, highest);
    }
}

/// A listed clearing row or, as often, an own row where there is any: its first place and its numbers.
fn some_row(maker: &mut Maker) -> Option<(usize, Row)> {
    let owned: Vec<_> = (0..ASSETS).filter(|&asset| maker.has_own_row(asset)).collect();
    if !owned.is_empty() && maker.random.percent(50) {
        let asset = maker.random.pick(&owned);
        return Some((own_place(asset, 0), maker.tables().own[asset]));
    }
    let asset = maker.asset(true)?;
    Some((clearing_place(asset, 0), maker.tables().clearing[asset]))
}

/// Any number of a row, though the zeros less often.
fn some_number(random: &mut Random) -> usize {
    let (first, date) = (random.below(GROUP + 1), date_start(random.below(DATES)) + random.below(DATE));
    let any = random.below(ROW);
    random.pick(&[first, date, any, any])
}

/// Sets what differs.
pub fn write(maker: &mut Maker, start: usize, row: &Row) {
    for (number, &wanted) in row.iter().enumerate() {
        if maker.parameter(start + number) != wanted {
            maker.set(start + number, wanted);
        }
    }
}

pub fn list(maker: &mut Maker) {
    let Some(asset) = maker.asset(false) else { return };
    let kind = maker.random.between(SECURITY, COMMODITY);
    let lean = maker.random.percent(35);
    let group = maker.group;
    let row = if lean { draw_lean(&mut maker.random, kind) } else { draw(&mut maker.random, kind, group) };
    write(maker, clearing_place(asset, 0), &row);
}

/// An own row that comes, changes or goes.
pub fn lend_own_row(maker: &mut Maker) {
    let Some(asset) = maker.asset(true) else { return };
    let clearing = maker.tables().clearing[asset];
    let mut row = [0; ROW];
    if !maker.has_own_row(asset) || maker.random.percent(50) {
        row = draw_over(&mut maker.random, &clearing);
    }
    write(maker, own_place(asset, 0), &row);
}

/// Prices, rates or dates change under the accounts, which may leave their limits below 0. An own row stays stricter;
/// where the clearing row changes under it, it follows, at once or a call later.
pub fn shock(maker: &mut Maker) {
    let Some((start, mut row)) = some_row(maker) else { return };
    let asset = start % TABLE / ROW;
    let number = maker.random.pick(&[PRICE, FALL, RISE, MARKET_LIMIT, INTEREST_LIMIT, SPECIAL_DELIVERY, COVERED_SALES]);
    let Bounds { lowest, highest } = row::bounds(&row)[number];
    row[number] = maker.random.between(lowest, highest);
    let date = maker.random.below(DATES);
    draw_date(&mut maker.random, &mut row, date);
    if start < TABLE {
        settle(&mut row);
    } else {
        settle_over(&mut row, &maker.tables().clearing[asset]);
    }
    write(maker, start, &row);
    if maker.random.percent(50) {
        trades::probe(maker);
    }
    follow(maker, asset);
    for _ in 0..2 {
        trades::probe(maker);
    }
}

/// A number goes just past one of its bounds, or far past, is probed, and is mended.
pub fn number_past_its_bound(maker: &mut Maker) {
    let Some((start, row)) = some_row(maker) else { return };
    let number = some_number(&mut maker.random);
    let Bounds { lowest, highest } = bounds_at(&maker.tables(), start + number);
    let extreme = maker.random.pick(&EXTREMES);
    let past = maker.random.pick(&[lowest - 1, lowest - 1, highest + 1, highest + 1, extreme]);
    maker.set(start + number, past);
    trades::probe(maker);
    maker.set(start + number, row[number]);
}

/// What the number at a place of the tables may be. A clearing row's kind may be any, an own row's is the clearing
/// row's.
pub fn bounds_at(tables: &Tables, place: usize) -> Bounds {
    let (asset, number) = (place % TABLE / ROW, place % ROW);
    let kind = tables.clearing[asset][KIND];
    match (place < TABLE, number) {
        (true, KIND) => Bounds { lowest: UNLISTED, highest: COMMODITY },
        (true, _) => row::bounds(&tables.clearing[asset])[number],
        (false, KIND) => Bounds { lowest: kind, highest: kind },
        (false, _) => row::bounds(&tables.own[asset])[number],
    }
}

/// A number goes to one of its bounds and the numbers after it follow, sometimes the own row too. The tables pass the
/// check afterwards.
pub fn number_at_its_bound(maker: &mut Maker) {
    let Some((start, row)) = some_row(maker) else { return };
    let asset = start % TABLE / ROW;
    let own = maker.tables().own[asset];
    let number = some_number(&mut maker.random);
    let Bounds { lowest, highest } = row::bounds(&row)[number];
    let mut settled = row;
    settled[number] = maker.random.pick(&[lowest, highest]);
    settle(&mut settled);
    // Said even where it stood there before.
    maker.set(start + number, settled[number]);
    write(maker, start, &settled);
    if start < TABLE && maker.random.percent(50) {
        follow(maker, asset);
    }
    trades::probe(maker);
    let few = settled.iter().zip(&row).filter(|(now, before)| now != before).count() <= FEW;
    if !maker.tables_pass() || (few && maker.random.percent(70)) {
        write(maker, start, &row);
        write(maker, own_place(asset, 0), &own);
    }
}

pub fn unlisted_row_broken(maker: &mut Maker) {
    let Some(asset) = maker.asset(false) else { return };
    let place = clearing_place(asset, maker.random.below(ROW));
    let extreme = maker.random.pick(&EXTREMES);
    let broken = maker.random.pick(&[-1, 1, COMMODITY, COMMODITY + 1, extreme]);
    maker.set(place, broken);
    trades::probe(maker);
    maker.set(place, 0);
}

pub fn own_row_over_unlisted(maker: &mut Maker) {
    let Some(asset) = maker.asset(false) else { return };
    let place = own_place(asset, maker.random.below(ROW));
    let broken = maker.random.pick(&[-1, 1, COMMODITY]);
    maker.set(place, broken);
    trades::probe(maker);
    maker.set(place, 0);
}

/// A group's percent at, within or past its bounds; mended where broken.
pub fn group_percent(maker: &mut Maker) {
    let place = group_place(maker.random.below(GROUPS));
    let extreme = maker.random.pick(&EXTREMES);
    let percent = maker.random.pick(&[-1, 0, MOST_DISCOUNT, MOST_DISCOUNT + 1, extreme]);
    maker.set(place, percent);
    trades::probe(maker);
    let mended = maker.random.between(1, MOST_DISCOUNT);
    maker.set(place, mended);
}

/// The percent of the session's group.
pub fn percent_to_begin_with(maker: &mut Maker) {
    let percent = maker.random.between(1, MOST_DISCOUNT);
    maker.set(group_place(maker.group as usize - 1), percent);
}

/// An asset that an account holds leaves the list, and comes back.
pub fn unlist_what_is_held(maker: &mut Maker) {
    let lean = |maker: &Maker, asset: usize| {
        let listed = maker.tables().clearing[asset];
        !is_zero(&listed) && !maker.has_own_row(asset) && listed.iter().filter(|&&number| number != 0).count() <= LEAN
    };
    let assets: Vec<_> = (0..ASSETS).filter(|&asset| lean(maker, asset)).collect();
    let (Some(account), Some(&asset)) = (maker.ready_account(), assets.first()) else { return };
    if is_zero(&block::holdings(maker.block(account))[asset]) {
        maker.move_units(account, asset, 7);
    }
    let row = maker.tables().clearing[asset];
    write(maker, clearing_place(asset, 0), &[0; ROW]);
    maker.report(account);
    maker.move_rubles(account, 1);
    maker.buy(account, asset, 1, 1, 1);
    if maker.random.percent(50) {
        maker.roll(account);
    }
    trades::probe(maker);
    write(maker, clearing_place(asset, 0), &row);
}
