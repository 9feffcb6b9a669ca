//! Coverage of the figures: what each report that is done rests on, asset by asset, over the blocks of the account's code.

use super::{Step, codes, stricter, tally::Tally};
use crate::asset::Asset;
use crate::block::{self, Block, COLLATERAL, is_zero};
use crate::calls::DONE;
use crate::code::Members;
use crate::collateral::Regime;
use crate::discount::Spreads;
use crate::joint::Joint;
use crate::limit::of_blocks;
use crate::market::{market_risk, risk_of_fall, risk_of_rise, stepped};
use crate::row::{self, *};
use crate::tables::{Tables, is_present};
use crate::units::*;

const ACCOUNT: &str = "reports by kind of account";
const ROW_KIND: &str = "assets reported by kind of row";
const REGIME: &str = "collateral by regime";
const SHARE: &str = "share in force of positive collateral";
const POOL: &str = "pool share of positive collateral";
const FREE: &str = "N and C where the share counts";
const LEFT_OUT: &str = "claims of date 0 left out (4.9) by regime";
const MARKET: &str = "position sum and market limit";
const INTEREST: &str = "position of a date and interest limit";
const RISK: &str = "rates and dates in use";
const ROUNDING: &str = "rounding";
const SPECIAL: &str = "special delivery";
const GROUP_GIVES: &str = "discount by group";
const LIMIT: &str = "limit reported";

const SIDES: [&str; 6] =
    ["positive, within", "positive, at", "positive, above", "negative, within", "negative, at", "negative, above"];
const REGIMES: [&str; 4] = ["special", "not recorded", "partial", "accepted"];

pub fn expect(tally: &mut Tally) {
    tally.expect(ACCOUNT, block::ORDINARY..=block::LISTED_POOL);
    tally.expect(ROW_KIND, SECURITY..=COMMODITY);
    tally.expect(REGIME, REGIMES);
    tally.expect(SHARE, ["0", "odd", "10,000"]);
    tally.expect(POOL, ["kind 2, below 10,000", "kind 2, at 10,000", "kind 3, below 10,000", "kind 3, at 10,000"]);
    tally.expect(FREE, ["C below 0", "N to 0", "N from 1 to the share's part", "N from there to C", "N above C"]);
    tally.expect(LEFT_OUT, REGIMES);
    tally.expect(MARKET, SIDES.into_iter().chain(["zero, of dates that are not"]));
    tally.expect(INTEREST, SIDES);
    let rates = ["mid not 0", "raised fall", "raised rise", "outer low", "outer up"];
    let signs = ["interest sum positive", "interest sum negative", "dates of both signs"];
    tally.expect(RISK, rates.into_iter().chain(signs));
    tally.expect(ROUNDING, ["share's part", "market risk", "discount", "discounts of two groups"]);
    let groups = ["group, positive", "group, negative", "group, zero with risk"];
    tally.expect(SPECIAL, ["fall counts", "rise counts"].into_iter().chain(groups));
    tally.expect(GROUP_GIVES, 1..=GROUPS);
    tally.expect(LIMIT, ["below 0", "at 0", "above 0"]);
}

pub fn count(step: &Step, account: i64, tally: &mut Tally) {
    if step.code != DONE {
        return;
    }
    let tables = step.before.tables();
    let blocks = &Members::of(step.before.blocks(), account as usize);
    tally.count(ACCOUNT, blocks[0][block::KIND]);
    let mut spreads = Spreads::default();
    for number in 0..ASSETS {
        let Some(Joint { asset, .. }) = Joint::of(blocks, number, tables.row_in_force(number)) else { continue };
        tally.count(ROW_KIND, asset.row[KIND]);
        if is_present(&tables.own[number]) {
            stricter::count_in_force(blocks, number, asset.row, &tables.clearing[number], tally);
        }
        for block in blocks.iter() {
            count_collateral(block, number, asset.row, tally);
        }
        count_market(&asset, &tables, tally);
        count_interest(&asset, tally);
        spreads.add(asset.row[row::GROUP], asset.position_sum(), market_risk(&asset));
    }
    count_discount(&spreads, &tables, tally);
    count_limit(of_blocks(blocks, &tables).limit(), tally);
    codes::count_report(&step.before, account as usize, tally);
}

fn regime(asset: &Asset) -> &'static str {
    match asset.regime {
        Regime::Special => REGIMES[0],
        Regime::NotRecorded => REGIMES[1],
        Regime::Partial(_) => REGIMES[2],
        Regime::Accepted(_) => REGIMES[3],
    }
}

/// Within a block.
fn count_collateral(block: &Block, number: usize, row: &Row, tally: &mut Tally) {
    let (account_kind, holding) = (block[block::KIND], &block::holdings(block)[number]);
    let asset = Asset::new(account_kind, row, holding);
    let collateral = holding[COLLATERAL];
    tally.count_if(collateral != 0, REGIME, regime(&asset));
    tally.count_if(asset.left_out != 0, LEFT_OUT, regime(&asset));
    let (Regime::Partial(share) | Regime::Accepted(share)) = asset.regime else { return };
    if collateral <= 0 {
        return tally.count_if(collateral < 0, FREE, "C below 0");
    }
    tally.count_if(share == 0, SHARE, "0");
    tally.count_if(share % 2 == 1, SHARE, "odd");
    tally.count_if(share == WHOLE, SHARE, "10,000");
    let side = if asset.row[POOL_SHARE] < WHOLE { "below" } else { "at" };
    tally.count_if(account_kind != block::ORDINARY, POOL, format!("kind {account_kind}, {side} 10,000"));
    tally.count_if(share * collateral % WHOLE != 0, ROUNDING, "share's part");
    let part = share * collateral / WHOLE;
    let free = match asset.net {
        ..=0 => "N to 0",
        net if net <= part => "N from 1 to the share's part",
        net if net <= collateral => "N from there to C",
        _ => "N above C",
    };
    tally.count(FREE, free);
}

/// On which side of a limit a position stands.
fn side(position: i64, limit: i64) -> Option<&'static str> {
    let first = match position.signum() {
        0 => return None,
        1 => 0,
        _ => 3,
    };
    Some(SIDES[first + (position.abs().cmp(&limit) as i8 + 1) as usize])
}

fn count_market(asset: &Asset, tables: &Tables, tally: &mut Tally) {
    if asset.regime == Regime::Special {
        return count_special(asset, tables, tally);
    }
    let row = asset.row;
    let sum = asset.position_sum();
    match side(sum, row[MARKET_LIMIT]) {
        Some(side) => tally.count(MARKET, side),
        None => tally.count_if(!is_zero(&asset.positions), MARKET, "zero, of dates that are not"),
    }
    let (base, raised, name) =
        if sum < 0 { (RISE, RAISED_RISE, "raised rise") } else { (FALL, RAISED_FALL, "raised fall") };
    tally.count_if(sum.abs() > row[MARKET_LIMIT] && row[raised] > row[base], RISK, name);
    let risk = stepped(sum.abs(), row[MARKET_LIMIT], row[base], row[raised]) * row[PRICE];
    tally.count_if(risk % WHOLE != 0, ROUNDING, "market risk");
}

fn count_special(asset: &Asset, tables: &Tables, tally: &mut Tally) {
    let claims = asset.positions.iter().map(|position| position.max(&0)).sum();
    let obligations = asset.positions.iter().map(|position| -position.min(&0)).sum();
    let (fall, rise) = (risk_of_fall(asset.row, claims), risk_of_rise(asset.row, obligations));
    tally.count_if(fall > rise && rise > 0, SPECIAL, "fall counts");
    tally.count_if(rise > fall && fall > 0, SPECIAL, "rise counts");
    let group = asset.row[row::GROUP];
    if group == 0 || tables.groups[group as usize - 1] == 0 || fall.max(rise) == 0 {
        return;
    }
    let side = match asset.position_sum() {
        0 => "group, zero with risk",
        1.. => "group, positive",
        _ => "group, negative",
    };
    tally.count(SPECIAL, side);
}

fn count_interest(asset: &Asset, tally: &mut Tally) {
    let limit = asset.row[INTEREST_LIMIT];
    let mut sum = 0;
    for (date, &position) in asset.positions.iter().enumerate() {
        let Date { mid, low, up, outer_low, outer_up } = row::date(asset.row, date);
        let Some(side) = side(position, limit) else { continue };
        tally.count(INTEREST, side);
        tally.count_if(mid != 0, RISK, "mid not 0");
        tally.count_if(position > limit && outer_low < low, RISK, "outer low");
        tally.count_if(position < -limit && outer_up > up, RISK, "outer up");
        sum += match position {
            ..0 => -stepped(-position, limit, up - mid, outer_up - mid),
            _ => stepped(position, limit, mid - low, mid - outer_low),
        };
    }
    tally.count_if(sum > 0, RISK, "interest sum positive");
    tally.count_if(sum < 0, RISK, "interest sum negative");
    let sign = |sign: i64| asset.positions.iter().any(|position| position.signum() == sign);
    tally.count_if(sign(1) && sign(-1), RISK, "dates of both signs");
}

fn count_discount(spreads: &Spreads, tables: &Tables, tally: &mut Tally) {
    let unrounded = spreads.unrounded(tables.groups);
    for (group, &amount) in unrounded.iter().enumerate() {
        tally.count_if(amount >= HUNDRED, GROUP_GIVES, group + 1);
        tally.count_if(amount % HUNDRED != 0, ROUNDING, "discount");
    }
    let remainders: i64 = unrounded.iter().map(|amount| amount % HUNDRED).sum();
    tally.count_if(remainders >= HUNDRED, ROUNDING, "discounts of two groups");
}

fn count_limit(limit: i64, tally: &mut Tally) {
    let side = match limit {
        ..0 => "below 0",
        0 => "at 0",
        _ => "above 0",
    };
    tally.count(LIMIT, side);
}
