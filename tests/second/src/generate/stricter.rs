//! Document 02, #103: own rows that are stricter than the clearing rows, and scenes that take a number of one to either
//! side of the clearing row's, with a broken number beside it too.

use super::maker::Maker;
use super::random::Random;
use super::rows::{draw, settle, write};
use super::trades::{self, towards};
use crate::block::{self, COLLATERAL};
use crate::row::{self, *};
use crate::stricter::{self, Stand, stand};
use crate::tables::{clearing_place, group_place, is_present, own_place};
use crate::units::*;

/// The clearing row itself, or one that is stricter in a few numbers or in many.
pub fn draw_over(random: &mut Random, clearing: &Row) -> Row {
    let mut own = *clearing;
    match random.below(5) {
        0 => {}
        1 | 2 => {
            for _ in 0..random.between(1, 4) {
                let number = some_compared(random);
                tighten(random, &mut own, clearing, number);
            }
        }
        _ => own = draw(random, clearing[KIND], clearing[GROUP]),
    }
    settle_over(&mut own, clearing);
    own
}

/// Any number that is compared, though those of dates less often.
fn some_compared(random: &mut Random) -> usize {
    let head = random.between(PRICE as i64, GROUP as i64) as usize;
    let date = date_start(random.below(DATES)) + random.below(DATE);
    random.pick(&[head, date, date])
}

/// What a number of an own row may be that is to be stricter, as the numbers before it stand.
fn bounds_over(own: &Row, clearing: &Row, number: usize) -> Bounds {
    let [within, over] = [row::bounds(own)[number], stricter::bounds(number, clearing[number])];
    Bounds { lowest: within.lowest.max(over.lowest), highest: within.highest.min(over.highest) }
}

/// Brings each number of an own row within its rule and to the clearing row's stricter side, by rising number.
pub fn settle_over(own: &mut Row, clearing: &Row) {
    own[KIND] = clearing[KIND];
    for number in PRICE..ROW {
        let Bounds { lowest, highest } = bounds_over(own, clearing, number);
        own[number] = own[number].clamp(lowest, highest);
    }
}

/// Takes a number a step to the stricter side of the clearing row's, some way, or as far as it goes.
fn tighten(random: &mut Random, own: &mut Row, clearing: &Row, number: usize) {
    let Bounds { lowest, highest } = bounds_over(own, clearing, number);
    let (sign, room) = match stand(number) {
        Stand::NoGreater => (-1, clearing[number] - lowest),
        Stand::NoSmaller => (1, highest - clearing[number]),
        Stand::Same | Stand::Free => return,
    };
    if room > 0 {
        let some = random.up_to(room).max(1);
        own[number] = clearing[number] + sign * random.pick(&[1, some, some, room]);
    }
}

/// The own row, where there is one, follows its clearing row.
pub fn follow(maker: &mut Maker, asset: usize) {
    let [mut own, clearing] = rows_of(maker, asset);
    if is_present(&own) {
        settle_over(&mut own, &clearing);
        write(maker, own_place(asset, 0), &own);
    }
}

fn rows_of(maker: &Maker, asset: usize) -> [Row; 2] {
    let tables = maker.tables();
    [tables.own[asset], tables.clearing[asset]]
}

/// An asset with an own row; where there is none, one gets it.
fn owned(maker: &mut Maker) -> Option<usize> {
    let owned: Vec<_> = (0..ASSETS).filter(|&asset| maker.has_own_row(asset)).collect();
    if !owned.is_empty() {
        return Some(maker.random.pick(&owned));
    }
    let asset = maker.asset(true)?;
    let clearing = maker.tables().clearing[asset];
    let own = draw_over(&mut maker.random, &clearing);
    write(maker, own_place(asset, 0), &own);
    Some(asset)
}

/// The own row with a number so far from the clearing row's, as its rule lets it. The numbers that its rule looks at are
/// the clearing row's.
pub fn moved(own: &Row, clearing: &Row, number: usize, by: i64) -> Row {
    let looked_at = match date_of(number) {
        Some((date, _)) => date_start(date)..date_start(date + 1),
        None if (FALL..=RAISED_RISE).contains(&number) => FALL..RAISED_RISE + 1,
        None => number..number + 1,
    };
    let mut moved = *own;
    moved[looked_at.clone()].copy_from_slice(&clearing[looked_at]);
    moved[number] += by;
    settle(&mut moved);
    moved
}

/// A number that can be a step laxer, where a few draws find one.
fn some_with_room(random: &mut Random, own: &Row, clearing: &Row) -> usize {
    const DRAWS: usize = 4;
    let steps = |number: usize| match stand(number) {
        Stand::Same => [-1, 1],
        Stand::NoGreater => [1, 1],
        Stand::NoSmaller | Stand::Free => [-1, -1],
    };
    let has_room = |&number: &usize| {
        steps(number).into_iter().all(|by| moved(own, clearing, number, by)[number] == clearing[number] + by)
    };
    let drawn = [(); DRAWS].map(|()| some_compared(random));
    drawn.into_iter().find(has_room).unwrap_or(drawn[0])
}

/// A number a step below the clearing row's, at it and a step above it; then the row is as it was.
pub fn either_side(maker: &mut Maker) {
    let Some(asset) = owned(maker) else { return };
    let [own, clearing] = rows_of(maker, asset);
    let number = some_with_room(&mut maker.random, &own, &clearing);
    for by in [-1, 0, 1] {
        write(maker, own_place(asset, 0), &moved(&own, &clearing, number, by));
        trades::probe(maker);
    }
    write(maker, own_place(asset, 0), &own);
}

/// A laxer number and a broken one, at a lower place or a higher one; the broken one is mended first.
pub fn beside_broken(maker: &mut Maker) {
    let Some(asset) = owned(maker) else { return };
    let [own, clearing] = rows_of(maker, asset);
    let number = some_with_room(&mut maker.random, &own, &clearing);
    let by = maker.random.pick(&[-1, 1]);
    write(maker, own_place(asset, 0), &moved(&own, &clearing, number, by));
    let broken = some_place(maker, asset);
    let before = maker.parameter(broken);
    maker.set(broken, -1);
    trades::probe(maker);
    maker.set(broken, before);
    trades::probe(maker);
    write(maker, own_place(asset, 0), &own);
}

/// A place where −1 is broken: in the clearing table, in the asset's own row, in one before or behind it, of a group.
fn some_place(maker: &mut Maker, asset: usize) -> usize {
    let (any, group) = (maker.random.below(ASSETS), maker.random.below(GROUPS));
    let last = ROW - 1;
    let first = own_place(asset, KIND);
    let own = maker.random.pick(&[first, first + PRICE, first + SPECIAL_DELIVERY, first + GROUP, first + last]);
    maker.random.pick(&[clearing_place(any, last), own_place(any, last), own, group_place(group)])
}

/// A stricter number of an own row decides a figure: it is taken there, and the account to a position that it is asked
/// of.
pub fn in_force(maker: &mut Maker) {
    let (Some(account), Some(asset)) = (maker.ready_account(), owned(maker)) else { return };
    let [mut own, clearing] = rows_of(maker, asset);
    let number = some_compared(&mut maker.random);
    tighten(&mut maker.random, &mut own, &clearing, number);
    settle_over(&mut own, &clearing);
    write(maker, own_place(asset, 0), &own);
    let (any_date, any_sign) = (maker.random.below(DATES), maker.random.pick(&[1, -1]));
    let positions = maker.positions(account, asset);
    let sum = positions.iter().sum();
    let (date, position, limit, sign) = match (number, date_of(number)) {
        (ACCEPTANCE_SHARE | POOL_SHARE | SPECIAL_DELIVERY, _) => return collateral_in_force(maker, account, asset),
        (_, Some((date, LOW | OUTER_LOW))) => (date, positions[date], INTEREST_LIMIT, 1),
        (_, Some((date, _))) => (date, positions[date], INTEREST_LIMIT, -1),
        (FALL | RAISED_FALL, None) => (any_date, sum, MARKET_LIMIT, 1),
        (RISE | RAISED_RISE, None) => (any_date, sum, MARKET_LIMIT, -1),
        (_, None) => (any_date, sum, MARKET_LIMIT, any_sign),
    };
    let beyond = maker.row_in_force(asset)[limit].min(MOST_UNITS / 2) + maker.random.between(1, 100);
    towards(maker, account, asset, date, sign * beyond - position);
    maker.report(account);
}

/// More of the asset than is sold.
fn collateral_in_force(maker: &mut Maker, account: usize, asset: usize) {
    let held = block::holdings(maker.block(account))[asset][COLLATERAL];
    let units = maker.random.between(2, 1_000);
    if held < units {
        maker.move_units(account, asset, units - held.max(0));
    }
    maker.report(account);
}
