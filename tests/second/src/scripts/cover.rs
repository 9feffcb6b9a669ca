//! The cover test at its edge: the greatest width that passes and one more, on either side, in either table.

use super::books::draw_tables;
use super::maker::Maker;
use crate::row::*;
use crate::script::{Buffer, Command};
use crate::units::*;

pub fn scene(maker: &mut Maker) {
    let tables = draw_tables(&mut maker.random, 60, 50);
    maker.lend(&tables);
    for asset in (0..ASSETS as i64).chain([-1, 16, 255, 256, i64::MIN, i64::MAX]) {
        maker.call(Command::Cover { asset });
    }
    let asset = maker.random.below(ASSETS);
    for owned in [false, true] {
        for below in [false, true] {
            at_the_edge(maker, asset, owned, below);
        }
    }
}

/// `below` is whether outer low is the farther one.
fn at_the_edge(maker: &mut Maker, asset: usize, owned: bool, below: bool) {
    let kind = maker.random.between(SECURITY, COMMODITY);
    let price = WHOLE * maker.random.between(1, MOST_PRICE / WHOLE - 1) - maker.random.pick(&[0, 0, 1]);
    let raised = maker.random.between(1, WHOLE);
    // price + mid − w is not to fall below this.
    let least = (raised * price + WHOLE - 1) / WHOLE;
    let mid = maker.random.between(least - price + 1, MOST_PRICE - price);
    let widest = price + mid - least;
    for width in [widest, widest + 1] {
        let mut row = [0; ROW];
        row[..GROUP].copy_from_slice(&[kind, price, 0, 0, 0, 0, 0, 0, raised, raised, 0, 0]);
        row[date_start(0)..date_start(1)].copy_from_slice(&edge_date(maker, mid, width, below));
        let mut wanted = maker.buffers().clone();
        let start = ROW * asset;
        let (first, second) = if owned { (laxer(maker, &row), row) } else { (row, [0; ROW]) };
        wanted.numbers_mut(Buffer::Clearing)[start..start + ROW].copy_from_slice(&first);
        wanted.numbers_mut(Buffer::Own)[start..start + ROW].copy_from_slice(&second);
        maker.lend(&wanted);
        maker.call(Command::Check);
        maker.call(Command::Cover { asset: asset as i64 });
    }
}

/// A clearing row over which the row is stricter: it passes the test by far, or as nearly as the row does.
fn laxer(maker: &mut Maker, row: &Row) -> Row {
    let mut clearing = *row;
    if maker.random.percent(50) {
        clearing[RAISED_FALL..=RAISED_RISE].fill(0);
    }
    if maker.random.percent(70) {
        let mid = row[date_start(0)];
        clearing[date_start(0)..date_start(1)].fill(mid);
    }
    clearing
}

/// The five numbers of a date whose outer low or outer up is so far from the mid, and the other one nearer.
fn edge_date(maker: &mut Maker, mid: i64, width: i64, below: bool) -> [i64; DATE] {
    let nearer = maker.random.between(0, width - 1);
    let (down, up) = if below { (width, nearer) } else { (nearer, width) };
    let inner = maker.random.between(0, nearer);
    [mid, mid - inner, mid + inner, mid - down, mid + up]
}
