//! Document 02, #103, worked out by hand: an own row over row A that is typed in wrong, mended and made stricter. A
//! session, with the figures that a stricter number decides; the places are shown by the script of stricter_places.

use super::sums::lend_row_a;
use super::{Case, SUMS, Script, row_a};
use crate::block::{LISTED_POOL, ORDINARY, POOL};
use crate::calls::{BUY, Move, Order, RUBLES, SELL};
use crate::frame::Frame;
use crate::row::*;
use crate::tables::{clearing_place, group_place, own_place};

/// S2: forty units, of which twenty count.
const FORTY: [i64; 5] = SUMS[1].figures;
/// S6: all forty count.
const FORTY_OF_THE_LIST: [i64; 5] = SUMS[6].figures;
/// S4, but with rubles for all of it.
const SHORT: [i64; 5] = [32_000, 30_000, 2_000, 0, 0];
/// S4 without them: of collateral −10 the same figures.
const TEN_OWED: [i64; 5] = SUMS[4].figures;

/// Accounts with row A's asset.
const LONG: i64 = 0;
const OWES: i64 = 1;
const OF_THE_LIST: i64 = 2;
const BELOW_ZERO: i64 = 3;
/// Opened later.
const POOLED: i64 = 4;

pub fn session() -> Case {
    let mut script = Script::new("stricter");
    lend_row_a(&mut script);
    accounts(&mut script);
    typed_in(&mut script);
    nine_thousand_over_five_thousand(&mut script);
    the_same(&mut script);
    long(&mut script);
    short(&mut script);
    special_delivery(&mut script);
    limit_raised(&mut script);
    share_raised(&mut script);
    new_clearing_row(&mut script);
    script.0
}

fn own(script: &mut Script, number: usize, value: i64) {
    script.set(own_place(0, number), value);
}

fn moved(account: i64, asset: i64, amount: i64) -> Frame {
    Frame::Move(Move { account, asset, amount })
}

fn order(account: i64, date: i64, side: i64, quantity: i64) -> Frame {
    Frame::Order(Order { account, asset: 0, date, side, quantity, money: 0 })
}

fn accounts(script: &mut Script) {
    for (account, kind) in [(LONG, ORDINARY), (OWES, ORDINARY), (OF_THE_LIST, LISTED_POOL), (BELOW_ZERO, ORDINARY)] {
        script.say(Frame::Open { account, kind, code: 0 }, 0);
    }
    for account in [LONG, OF_THE_LIST] {
        script.say(moved(account, 0, 40), 0);
    }
    for (account, date) in [(OWES, 2), (BELOW_ZERO, 0)] {
        script.say(moved(account, RUBLES, 132_000), 0);
        script.say(order(account, date, SELL, 10), 0);
    }
    script.say(Frame::Roll { account: BELOW_ZERO }, 0);
    reports(script);
}

fn reports(script: &mut Script) {
    script.report(LONG, FORTY);
    script.report(OWES, SHORT);
    script.report(OF_THE_LIST, FORTY_OF_THE_LIST);
    script.report(BELOW_ZERO, SHORT);
}

/// The clearing row over again. Until it is all there it breaks or is laxer; then all is as it was.
fn typed_in(script: &mut Script) {
    for (number, &value) in row_a().iter().enumerate().filter(|(_, value)| **value != 0) {
        own(script, number, value);
        if [KIND, GROUP].contains(&number) {
            // There is no price yet; then nothing of the dates, whose lows of 0 are above row A's.
            script.no_report(LONG, if number == KIND { 2 } else { 13 });
        }
    }
    reports(script);
}

/// Every call that is lent tables answers 13, whatever else is wrong with it but a broken number; open and roll are lent
/// none.
fn nine_thousand_over_five_thousand(script: &mut Script) {
    own(script, ACCEPTANCE_SHARE, 9_000);
    for account in [LONG, OWES, OF_THE_LIST, POOLED, 16, 255] {
        script.no_report(account, 13);
    }
    for (account, asset, amount) in [(LONG, 0, 1), (LONG, RUBLES, 1), (LONG, 16, 0), (POOLED, 0, -1), (16, 0, 1)] {
        script.say(moved(account, asset, amount), 13);
    }
    for (account, date, quantity) in [(LONG, 0, 1), (LONG, 8, 0), (LONG, 0, 1_000_001), (POOLED, 0, 1), (16, 0, 1)] {
        script.say(order(account, date, BUY, quantity), 13);
    }
    script.say(Frame::Open { account: POOLED, kind: POOL, code: 0 }, 0);
    script.say(Frame::Roll { account: POOLED }, 0);
    // A broken number is 2, behind the share and before it.
    for (place, broken, good) in [
        (group_place(7), 51, 50),
        (own_place(3, PRICE), 1, 0),
        (own_place(0, KIND), 2, 1),
        (clearing_place(9, 63), 1, 0),
    ] {
        script.set(place, broken);
        script.no_report(16, 2);
        script.set(place, good);
        script.no_report(16, 13);
    }
    own(script, ACCEPTANCE_SHARE, 5_001);
    script.no_report(LONG, 13);
    own(script, ACCEPTANCE_SHARE, 5_000);
    reports(script);
}

/// Price, covered-sales mark, group and mids may not differ either way.
fn the_same(script: &mut Script) {
    for (number, right, others) in
        [(PRICE, 10_000, &[9_999, 10_001][..]), (COVERED_SALES, 0, &[1, 2]), (GROUP, 1, &[0, 2])]
    {
        for &other in others {
            own(script, number, other);
            script.no_report(LONG, 13);
        }
        own(script, number, right);
    }
    for date in [0, 7] {
        for mid in [-1, 1, 0] {
            own(script, date_start(date), mid);
            script.no_report(16, if mid == 0 { 3 } else { 13 });
        }
    }
    script.report(LONG, FORTY);
}

/// A number of the own row, and what an account then reports.
fn stricter(script: &mut Script, account: i64, number: usize, value: i64, figures: [i64; 5]) {
    own(script, number, value);
    script.report(account, figures);
}

/// Twenty units at 10,000: 2,000 of market risk each and 100 of interest risk.
fn long(script: &mut Script) {
    stricter(script, LONG, ACCEPTANCE_SHARE, 2_500, [100_000, 20_000, 1_000, 0, 79_000]);
    stricter(script, LONG, ACCEPTANCE_SHARE, 0, [0; 5]);
    stricter(script, LONG, ACCEPTANCE_SHARE, 5_000, FORTY);
    // Thirty of the forty.
    stricter(script, OF_THE_LIST, POOL_SHARE, 7_500, [300_000, 60_000, 3_000, 0, 237_000]);
    stricter(script, OF_THE_LIST, POOL_SHARE, 10_000, FORTY_OF_THE_LIST);
    stricter(script, LONG, FALL, 2_500, [200_000, 50_000, 2_000, 0, 148_000]);
    stricter(script, LONG, FALL, 2_000, FORTY);
    // Ten of them at the raised rate.
    stricter(script, LONG, MARKET_LIMIT, 10, [200_000, 60_000, 2_000, 0, 138_000]);
    stricter(script, LONG, RAISED_FALL, 5_000, [200_000, 70_000, 2_000, 0, 128_000]);
    stricter(script, LONG, MARKET_LIMIT, 100, FORTY);
    stricter(script, LONG, date_start(0) + LOW, -150, [200_000, 40_000, 3_000, 0, 157_000]);
    stricter(script, LONG, date_start(0) + LOW, -100, FORTY);
    // Fifteen of them by the outer low.
    stricter(script, LONG, INTEREST_LIMIT, 5, [200_000, 40_000, 3_500, 0, 156_500]);
    stricter(script, LONG, date_start(0) + OUTER_LOW, -300, [200_000, 40_000, 5_000, 0, 155_000]);
    stricter(script, LONG, INTEREST_LIMIT, 100, FORTY);
}

/// Ten units owed at date 2: 3,000 of market risk each and 200 of interest risk.
fn short(script: &mut Script) {
    stricter(script, OWES, RISE, 3_500, [32_000, 35_000, 2_000, 0, -5_000]);
    stricter(script, OWES, RISE, 3_000, SHORT);
    stricter(script, OWES, MARKET_LIMIT, 4, [32_000, 42_000, 2_000, 0, -12_000]);
    stricter(script, OWES, RAISED_RISE, 6_000, [32_000, 48_000, 2_000, 0, -18_000]);
    stricter(script, OWES, MARKET_LIMIT, 100, SHORT);
    stricter(script, OWES, date_start(2) + UP, 250, [32_000, 30_000, 2_500, 0, -500]);
    stricter(script, OWES, date_start(2) + UP, 200, SHORT);
    stricter(script, OWES, INTEREST_LIMIT, 4, [32_000, 30_000, 2_600, 0, -600]);
    stricter(script, OWES, date_start(2) + OUTER_UP, 400, [32_000, 30_000, 3_200, 0, -1_200]);
    stricter(script, OWES, INTEREST_LIMIT, 100, SHORT);
}

/// It may be set, and where it is set it may not be dropped. Nothing of the forty counts under it.
fn special_delivery(script: &mut Script) {
    stricter(script, LONG, SPECIAL_DELIVERY, 1, [0; 5]);
    script.set(clearing_place(0, SPECIAL_DELIVERY), 1);
    script.report(LONG, [0; 5]);
    own(script, SPECIAL_DELIVERY, 0);
    script.no_report(LONG, 13);
    script.set(clearing_place(0, SPECIAL_DELIVERY), 0);
    reports(script);
}

/// A stricter row can raise a limit: of collateral −10 nothing counts under special delivery. So the rubles can be
/// withdrawn, and without it the account is at −132,000.
fn limit_raised(script: &mut Script) {
    script.say(moved(BELOW_ZERO, RUBLES, -132_000), 10);
    stricter(script, BELOW_ZERO, SPECIAL_DELIVERY, 1, [132_000, 0, 0, 0, 132_000]);
    script.say(moved(BELOW_ZERO, RUBLES, -132_000), 0);
    script.report(BELOW_ZERO, [0; 5]);
    stricter(script, BELOW_ZERO, SPECIAL_DELIVERY, 0, TEN_OWED);
}

/// So can a smaller pool share: below the whole it stands in a pool for the acceptance share. Thirty-six of forty count,
/// and not twenty.
fn share_raised(script: &mut Script) {
    script.say(moved(POOLED, 0, 40), 0);
    script.report(POOLED, FORTY);
    stricter(script, POOLED, POOL_SHARE, 9_000, [360_000, 72_000, 3_600, 0, 284_400]);
    stricter(script, POOLED, POOL_SHARE, 10_000, FORTY);
}

/// The clearing house sends a price of 10,001: the own row has to follow. Twenty units at it have 2,000.2 of market risk
/// each.
fn new_clearing_row(script: &mut Script) {
    script.set(clearing_place(0, PRICE), 10_001);
    script.no_report(LONG, 13);
    stricter(script, LONG, PRICE, 10_001, [200_020, 40_004, 2_000, 0, 158_016]);
    // Its rates rise above ours; then our row goes, last of all its kind.
    script.set(clearing_place(0, RAISED_FALL), 5_001);
    script.no_report(LONG, 13);
    for number in (0..date_start(8)).rev() {
        if row_a()[number] != 0 {
            own(script, number, 0);
        }
    }
    script.report(LONG, [200_020, 40_004, 2_000, 0, 158_016]);
}
