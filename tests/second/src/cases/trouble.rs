//! Document 02, #101, worked out by hand: accounts below zero trade out of trouble, and withdrawals keep the old rule.
//! A session, whose accounts get there by new rows, and a call script, which is lent its account as it is.

use super::sums::{BOUGHT, Rows, buy_ten};
use super::{Calls, Case, GROUP_ONE, SUMS, Script, Sum, row_a};
use crate::block::{self, CLAIMS, COLLATERAL, NETS, OBLIGATIONS, ORDINARY, RUBLES, holding_start};
use crate::calls::{BUY, Move, Order, SELL};
use crate::frame::Frame;
use crate::row::{COVERED_SALES, FALL, PARTIAL, Row};
use crate::script::{Buffer, Command};
use crate::units::{BLOCK, MOST_RUBLES};

/// S4: an obligation of 10 at date 2, and a limit of −132,000.
const S4: &Sum = &SUMS[4];
/// Its account with 10 of the asset deposited. Of 10 at date 0 and −10 at date 2 nothing is left but interest risk:
/// 10 × 100 − 10 × 200.
const S4_COVERED: [i64; 5] = [0, 0, 1_000, 0, -1_000];
/// Collateral 40 of row A marked partial: 20 of them count for risk, none for value.
const PARTIAL_FORTY: [i64; 5] = [0, 40_000, 2_000, 0, -42_000];

/// The 10 bought back: no position is left, and the money is paid.
fn buy_back(account: i64, money: i64) -> Order {
    Order { account, asset: 0, date: 2, side: BUY, quantity: 10, money }
}

fn paid(money: i64) -> [i64; 5] {
    [-money, 0, 0, 0, -money]
}

fn row_a_with(number: usize, value: i64) -> Row {
    let mut row = row_a();
    row[number] = value;
    row
}

pub fn session() -> Case {
    let mut script = Script::new("trouble");
    let mut rows = Rows::new();
    S4.play(&mut script, &[0, 1, 2, 3, 4], &mut rows);
    buy_backs(&mut script);
    up_to_0_and_not_below(&mut script);
    deposit_that_loses_an_order(&mut script);
    second_set_of_rates(&mut script, &mut rows);
    withdrawals(&mut script, &mut rows);
    script.0
}

/// An order with its code, and a report after it.
fn order(script: &mut Script, order: Order, code: u8, figures: [i64; 5]) {
    script.say(Frame::Order(order), code);
    script.report(order.account, figures);
}

fn moved(script: &mut Script, account: i64, amount: i64, code: u8, figures: [i64; 5]) {
    script.say(Frame::Move(Move { account, asset: 0, amount }), code);
    script.report(account, figures);
}

/// A kopeck too dear, as dear as the trouble itself, and a kopeck less; at its worth; and for nothing, which leaves 0.
fn buy_backs(script: &mut Script) {
    order(script, buy_back(0, 132_001), 10, S4.figures);
    order(script, buy_back(0, 132_000), 10, S4.figures);
    order(script, buy_back(0, 131_999), 0, paid(131_999));
    order(script, buy_back(1, 100_000), 0, paid(100_000));
    order(script, buy_back(2, 0), 0, paid(0));
}

/// From below to −1; from there to −1, to 0, and from 0 to −1 again, by sells: 10 have 100,000 of value and 32,000 of
/// risk against them, one has 10,000 and 3,200.
fn up_to_0_and_not_below(script: &mut Script) {
    let sell = |quantity, money| Order { side: SELL, quantity, ..buy_back(3, money) };
    order(script, buy_back(3, 1), 0, paid(1));
    order(script, sell(10, 132_000), 10, paid(1));
    order(script, sell(10, 132_001), 0, [32_000, 30_000, 2_000, 0, 0]);
    order(script, sell(1, 13_199), 10, [32_000, 30_000, 2_000, 0, 0]);
}

/// The order that account 1 could give.
fn deposit_that_loses_an_order(script: &mut Script) {
    moved(script, 4, 10, 0, S4_COVERED);
    order(script, buy_back(4, 100_000), 10, S4_COVERED);
}

/// Two houses bought with a limit of 0 left, and the fall rate goes up to 3,000. One sells all of it and is a kopeck
/// better off, the other half of it for what that is worth.
fn second_set_of_rates(script: &mut Script, rows: &mut Rows) {
    const TROUBLE: [i64; 5] = [21_000, 30_000, 1_000, 0, -10_000];
    let sell = |account, quantity, money| Order { account, asset: 0, date: 1, side: SELL, quantity, money };
    for account in [5, 6] {
        buy_ten(script, account, 21_000, 0);
        script.report(account, BOUGHT);
    }
    rows.lend(script, 0, &row_a_with(FALL, 3_000));
    script.report(5, TROUBLE);
    order(script, sell(5, 10, 68_999), 10, TROUBLE);
    order(script, sell(5, 10, 69_000), 10, TROUBLE);
    order(script, sell(5, 10, 69_001), 0, paid(9_999));
    script.report(6, TROUBLE);
    order(script, sell(6, 5, 50_000), 0, [21_000, 15_000, 500, 0, 5_500]);
}

/// Half of the forty withdrawn would leave −21,000, which is more and not enough; all of them leave 0.
fn withdrawals(script: &mut Script, rows: &mut Rows) {
    rows.lend(script, 0, &row_a_with(COVERED_SALES, PARTIAL));
    script.say(Frame::Open { account: 7, kind: ORDINARY, code: 0 }, 0);
    moved(script, 7, 40, 0, PARTIAL_FORTY);
    moved(script, 7, -20, 10, PARTIAL_FORTY);
    moved(script, 7, -40, 0, [0; 5]);
}

/// The account of the call script.
const ACCOUNT: i64 = 3;
const CLAIM: usize = holding(CLAIMS.start + 2);
const OBLIGATION: usize = holding(OBLIGATIONS.start + 2);
const NET: usize = place(NETS.start + 2);

/// Where a number of the account's block stands in the book.
const fn place(number: usize) -> usize {
    BLOCK * ACCOUNT as usize + number
}

const fn holding(number: usize) -> usize {
    place(holding_start(0) + number)
}

pub fn script() -> Case {
    let mut calls = Calls::default();
    for (number, &value) in row_a().iter().enumerate().filter(|(_, value)| **value != 0) {
        calls.set(Buffer::Clearing, number, value);
    }
    calls.set(Buffer::Groups, 0, GROUP_ONE);
    calls.lend(&[(place(block::KIND), ORDINARY), (OBLIGATION, 10)]);
    calls.report(S4.figures);
    for money in [132_001, 132_000] {
        calls.refused(Command::Order(buy_back(ACCOUNT, money)));
    }
    for money in [131_999, 100_000, 1, 0] {
        calls.done(Command::Order(buy_back(ACCOUNT, money)), &[(CLAIM, 10), (NET, -money)]);
        calls.report(paid(money));
        calls.lend(&[(CLAIM, 0), (NET, 0)]);
    }
    calls.far_below();
    calls.deposit_that_loses_an_order();
    calls.withdrawals();
    calls.case("trouble")
}

impl Calls {
    fn lend(&mut self, numbers: &[(usize, i64)]) {
        for &(number, value) in numbers {
            self.set(Buffer::Book, number, value);
        }
    }

    fn refused(&mut self, call: Command) {
        self.call(call, "10");
    }

    /// A call, and the numbers of the book as it leaves them.
    fn done(&mut self, call: Command, left: &[(usize, i64)]) {
        for &(number, value) in left {
            self.standing.numbers_mut(Buffer::Book)[number] = value;
        }
        self.call(call, "0");
    }

    fn report(&mut self, figures: [i64; 5]) {
        self.call(
            Command::Report { account: ACCOUNT },
            &format!("0 {}", figures.map(|figure| figure.to_string()).join(" ")),
        );
    }

    /// All other rubles at their lowest: what an order has to bring is the same.
    fn far_below(&mut self) {
        const FAR: i64 = -8 * MOST_RUBLES;
        let low: Vec<_> = [RUBLES].into_iter().chain(NETS).map(place).filter(|&place| place != NET).collect();
        for &place in &low {
            self.lend(&[(place, -MOST_RUBLES)]);
        }
        self.report([FAR - 100_000, 30_000, 2_000, 0, FAR - 132_000]);
        self.refused(Command::Order(buy_back(ACCOUNT, 132_000)));
        self.done(Command::Order(buy_back(ACCOUNT, 131_999)), &[(CLAIM, 10), (NET, -131_999)]);
        self.report([FAR - 131_999, 0, 0, 0, FAR - 131_999]);
        for place in low.into_iter().chain([CLAIM, NET]) {
            self.lend(&[(place, 0)]);
        }
    }

    fn moved(amount: i64) -> Command {
        Command::Move(Move { account: ACCOUNT, asset: 0, amount })
    }

    fn deposit_that_loses_an_order(&mut self) {
        self.done(Calls::moved(10), &[(holding(COLLATERAL), 10)]);
        self.report(S4_COVERED);
        self.refused(Command::Order(buy_back(ACCOUNT, 100_000)));
    }

    fn withdrawals(&mut self) {
        self.lend(&[(holding(COLLATERAL), 40), (OBLIGATION, 0)]);
        self.set(Buffer::Clearing, COVERED_SALES, PARTIAL);
        self.report(PARTIAL_FORTY);
        self.refused(Calls::moved(-20));
        self.done(Calls::moved(-40), &[(holding(COLLATERAL), 0)]);
        self.report([0; 5]);
    }
}
