//! Scenes for what the sums of document 01 do not tell apart: 4.9 in every regime, and spreads, with special delivery
//! too.

use super::maker::Maker;
use super::trades::towards;
use crate::row::*;
use crate::tables::group_place;
use crate::units::*;

/// A currency with share 0 in one of the regimes, and claims of date 0.
pub fn claims_left_out(maker: &mut Maker) {
    let currency = |maker: &Maker, asset: usize| maker.row_in_force(asset)[KIND] == CURRENCY;
    let assets: Vec<_> = (0..ASSETS).filter(|&asset| currency(maker, asset)).collect();
    let Some(account) = maker.ready_account().filter(|_| !assets.is_empty()) else { return };
    let asset = maker.random.pick(&assets);
    let (covered, special) = maker.random.pick(&[(RECORDED, 0), (NOT_RECORDED, 0), (PARTIAL, 0), (RECORDED, 1)]);
    for (number, value) in [(ACCEPTANCE_SHARE, 0), (COVERED_SALES, covered), (SPECIAL_DELIVERY, special)] {
        maker.set_in_force(asset, number, value);
    }
    let units = maker.random.between(1, 300);
    towards(maker, account, asset, 0, units);
    maker.report(account);
}

/// Puts assets into a group with a percent.
fn into_group(maker: &mut Maker, group: i64, assets: &[usize]) {
    for &asset in assets {
        maker.set_in_force(asset, GROUP, group);
    }
    let percent = maker.random.between(1, MOST_DISCOUNT);
    maker.set(group_place(group as usize - 1), percent);
}

/// Trades of one date that put the first asset on the positive and the second on the negative side.
fn opposite(maker: &mut Maker, account: usize, positive: usize, negative: usize) {
    let date = maker.random.below(DATES);
    for (asset, sign) in [(positive, 1), (negative, -1)] {
        let sum: i64 = maker.positions(account, asset).iter().sum();
        let units = maker.random.between(1, 500) * sign;
        if sum.signum() != sign {
            towards(maker, account, asset, date, units - sum);
        }
    }
}

/// Two assets of one group on opposite sides.
pub fn spread(maker: &mut Maker) {
    let Some(account) = maker.ready_account() else { return };
    let [positive, negative, ..] = listed(maker)[..] else { return };
    let any = maker.random.between(1, GROUPS as i64);
    let group = maker.random.pick(&[maker.group, any]);
    into_group(maker, group, &[positive, negative]);
    opposite(maker, account, positive, negative);
    maker.report(account);
}

/// Two groups at once, each rounded by itself.
pub fn spreads_of_two_groups(maker: &mut Maker) {
    let Some(account) = maker.ready_account() else { return };
    let [one, two, three, four, ..] = listed(maker)[..] else { return };
    let group = maker.random.between(1, GROUPS as i64 - 1);
    into_group(maker, group, &[one, two]);
    into_group(maker, group + 1, &[three, four]);
    opposite(maker, account, one, two);
    opposite(maker, account, three, four);
    maker.report(account);
}

/// A special delivery asset whose dates cancel out, or nearly, in a group with another that is sold.
pub fn special_spread(maker: &mut Maker) {
    let Some(account) = maker.ready_account() else { return };
    let [special, other, ..] = listed(maker)[..] else { return };
    maker.set_in_force(special, SPECIAL_DELIVERY, 1);
    let group = maker.group;
    into_group(maker, group, &[special, other]);
    let units = maker.random.between(1, 500);
    towards(maker, account, special, 1, units);
    let sum: i64 = maker.positions(account, special).iter().sum();
    let left = maker.random.pick(&[0, 0, 1, -1]);
    towards(maker, account, special, 2, left - sum);
    let sold = maker.random.between(1, 500);
    towards(maker, account, other, 1, -sold);
    maker.report(account);
}

/// The listed assets, in a drawn order.
fn listed(maker: &mut Maker) -> Vec<usize> {
    let mut assets: Vec<_> = (0..ASSETS).filter(|&asset| maker.tables().is_listed(asset)).collect();
    for last in (1..assets.len()).rev() {
        assets.swap(last, maker.random.below(last + 1));
    }
    assets
}
