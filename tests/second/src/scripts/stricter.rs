//! Document 02, #103, place by place: each number of an own row a step to either side of the clearing row's and at it,
//! with a second laxer number behind it, and with a broken one before or behind it.

use super::books::draw_tables;
use super::maker::Maker;
use super::places::some_call;
use crate::generate::{Random, draw_over, moved_over};
use crate::row::*;
use crate::script::{Buffer, Buffers, Command};
use crate::stricter::{Stand, compared, stand};
use crate::tables::{clearing_place, group_place, own_place};
use crate::units::*;

pub fn scene(maker: &mut Maker) {
    let background = draw_tables(&mut maker.random, 20, 60);
    let numbers: Vec<_> = compared().collect();
    for at in maker.share(ASSETS * numbers.len()) {
        let (asset, number) = (at / numbers.len(), numbers[at % numbers.len()]);
        let place = Place { asset, number, clearing: roomy(&mut maker.random, number) };
        place.either_side(maker, &background);
        if number == SPECIAL_DELIVERY {
            // What is not set can be set, and what is set cannot be dropped.
            let mut clearing = place.clearing;
            clearing[number] = 1 - clearing[number];
            Place { clearing, ..place }.either_side(maker, &background);
        }
    }
}

/// A clearing row of which no number but special delivery stands at a bound. A rise rate that is laxer alone is of no commodity.
fn roomy(random: &mut Random, number: usize) -> Row {
    let kind = if [RISE, RAISED_RISE].contains(&number) { CURRENCY } else { COMMODITY };
    let kind = random.between(SECURITY, kind);
    let mut row = [0; ROW];
    row[KIND] = kind;
    row[PRICE] = random.between(2, MOST_PRICE - 1);
    row[COVERED_SALES] = NOT_RECORDED;
    row[SPECIAL_DELIVERY] = random.between(0, 1);
    row[GROUP] = random.between(1, GROUPS as i64 - 1);
    for share in [ACCEPTANCE_SHARE, POOL_SHARE] {
        row[share] = random.between(1, WHOLE - 1);
    }
    let highest = random.between(3, WHOLE - 1);
    for (base, raised) in [(FALL, RAISED_FALL), (RISE, RAISED_RISE)] {
        row[raised] = random.between(3, highest);
        row[base] = random.between(1, row[raised] - 1);
    }
    if kind == COMMODITY {
        (row[RISE], row[RAISED_RISE]) = (row[FALL], row[RAISED_FALL]);
    }
    for limit in [MARKET_LIMIT, INTEREST_LIMIT] {
        row[limit] = random.between(1, MOST_CONCENTRATION - 1);
    }
    for date in 0..DATES {
        let mid = random.between(1, MOST_PRICE - 1) - row[PRICE];
        let mut width = || 1 + random.up_to(WIDEST / 2 - 2);
        let (low, up) = (mid - width(), mid + width());
        let five = [mid, low, up, low - width(), up + width()];
        row[date_start(date)..date_start(date + 1)].copy_from_slice(&five);
    }
    row
}

/// A number of an own row, and the clearing row under it.
#[derive(Clone, Copy)]
struct Place {
    asset: usize,
    number: usize,
    clearing: Row,
}

impl Place {
    fn either_side(&self, maker: &mut Maker, background: &Buffers) {
        let own = draw_over(&mut maker.random, &self.clearing);
        let mut wanted = background.clone();
        put(&mut wanted, Buffer::Clearing, self.asset, &self.clearing);
        for by in [-1, 0, 1] {
            put(&mut wanted, Buffer::Own, self.asset, &moved_over(&own, &self.clearing, self.number, by));
            check(maker, &wanted);
            if laxer_steps(self.number).contains(&by) {
                self.second(maker, &wanted);
                self.broken(maker, &wanted);
            }
        }
    }

    /// A laxer number behind it, in its row and in a later one.
    fn second(&self, maker: &mut Maker, laxer: &Buffers) {
        let mut both = laxer.clone();
        let [in_row, later] = [(); 2].map(|()| {
            maker.random.pick(&[POOL_SHARE, GROUP, date_start(4) + MID, date_start(4) + LOW, date_start(7) + OUTER_UP])
        });
        if in_row > self.number {
            both.numbers_mut(Buffer::Own)[ROW * self.asset + in_row] = self.clearing[in_row] + laxer_steps(in_row)[0];
        }
        check(maker, &both);
        if self.asset + 1 < ASSETS && maker.random.percent(30) {
            let asset = self.asset + 1 + maker.random.below(ASSETS - self.asset - 1);
            let clearing = roomy(&mut maker.random, later);
            put(&mut both, Buffer::Clearing, asset, &clearing);
            put(&mut both, Buffer::Own, asset, &moved_over(&clearing, &clearing, later, laxer_steps(later)[0]));
            check(maker, &both);
        }
    }

    /// A broken number before or behind it, which is named.
    fn broken(&self, maker: &mut Maker, laxer: &Buffers) {
        let (asset, last) = (maker.random.below(ASSETS), ROW - 1);
        let in_row = maker.random.pick(&[KIND, PRICE, SPECIAL_DELIVERY, GROUP + 1, last]);
        let group = maker.random.below(GROUPS);
        for broken in
            [clearing_place(asset, last), own_place(asset, last), own_place(self.asset, in_row), group_place(group)]
        {
            // Each one time in two.
            if maker.random.percent(50) {
                let (buffer, number) = Buffer::of_place(broken);
                let mut both = laxer.clone();
                both.numbers_mut(buffer)[number] = maker.random.pick(&[-1, i64::MIN]);
                check(maker, &both);
            }
        }
    }
}

/// Steps from the clearing row's number that are laxer.
fn laxer_steps(number: usize) -> &'static [i64] {
    match stand(number) {
        Stand::Same => &[-1, 1],
        Stand::NoGreater => &[1],
        Stand::NoSmaller => &[-1],
        Stand::Free => &[],
    }
}

fn put(buffers: &mut Buffers, table: Buffer, asset: usize, row: &Row) {
    buffers.numbers_mut(table)[ROW * asset..ROW * (asset + 1)].copy_from_slice(row);
}

/// Asks for the check, and now and then for another call that is lent the tables.
fn check(maker: &mut Maker, wanted: &Buffers) {
    maker.lend(wanted);
    maker.call(Command::Check);
    if maker.random.percent(15) {
        let call = some_call(maker);
        maker.call(call);
    }
}
