//! The session being made: each line is also answered at once, so that the scenes can steer by the state it leads to.

use super::Steered;
use super::random::Random;
use crate::block::{self, Block, CODE};
use crate::calls::{self, BUY, Move, Order, RUBLES, SELL};
use crate::code::Members;
use crate::frame::Frame;
use crate::joint::Joint;
use crate::limit::figures;
use crate::row::Row;
use crate::session::Session;
use crate::stricter;
use crate::tables::{Tables, clearing_place, is_present, own_place};
use crate::units::*;

pub struct Maker {
    pub random: Random,
    /// The spread group most rows of this session are in.
    pub group: i64,
    session: Session,
    text: Vec<u8>,
    left: usize,
}

impl Maker {
    pub fn new(seed: u64, lines: usize) -> Maker {
        let mut random = Random::new(seed);
        let group = random.between(1, GROUPS as i64);
        Maker { random, group, session: Session::default(), text: Vec::new(), left: lines }
    }

    pub fn is_full(&self) -> bool {
        self.left == 0
    }

    pub fn into_text(self) -> Vec<u8> {
        self.text
    }

    /// Adds a line of any form, while there is room.
    pub fn line(&mut self, line: &[u8]) {
        if self.is_full() {
            return;
        }
        self.left -= 1;
        self.text.extend_from_slice(line);
        self.text.push(b'\n');
        self.session.answer(line, &mut Vec::new());
    }

    pub fn say(&mut self, frame: &Frame) {
        self.line(&frame.line());
    }

    pub fn set(&mut self, place: usize, number: i64) {
        self.say(&Frame::Set { place, number });
    }

    pub fn open(&mut self, account: usize, kind: i64, code: i64) {
        self.say(&Frame::Open { account: account as i64, kind, code });
    }

    pub fn move_units(&mut self, account: usize, asset: usize, amount: i64) {
        self.say(&Frame::Move(Move { account: account as i64, asset: asset as i64, amount }));
    }

    pub fn move_rubles(&mut self, account: usize, amount: i64) {
        self.say(&Frame::Move(Move { account: account as i64, asset: RUBLES, amount }));
    }

    pub fn buy(&mut self, account: usize, asset: usize, date: usize, quantity: i64, money: i64) {
        self.say(&Frame::Order(order(account, asset, date, BUY, quantity, money)));
    }

    pub fn sell(&mut self, account: usize, asset: usize, date: usize, quantity: i64, money: i64) {
        self.say(&Frame::Order(order(account, asset, date, SELL, quantity, money)));
    }

    pub fn roll(&mut self, account: usize) {
        self.say(&Frame::Roll { account: account as i64 });
    }

    pub fn report(&mut self, account: usize) {
        self.say(&Frame::Report { account: account as i64 });
    }

    pub fn block(&self, account: usize) -> &Block {
        self.session.block(account)
    }

    pub fn parameter(&self, place: usize) -> i64 {
        self.session.parameters()[place]
    }

    pub fn tables(&self) -> Tables<'_> {
        self.session.lent().tables().expect("the session's tables have their lengths")
    }

    /// The table check passes.
    pub fn tables_pass(&self) -> bool {
        let tables = self.tables();
        tables.first_broken().is_none() && tables.first_laxer().is_none()
    }

    /// An account that is open, under tables that pass, and all whose holdings are listed.
    pub fn ready_account(&mut self) -> Option<usize> {
        self.account_with(|_| true)
    }

    /// A ready account whose limit is as asked.
    pub fn account_with(&mut self, is_asked: impl Fn(i64) -> bool) -> Option<usize> {
        let ready = |&account: &usize| self.limit(account).is_some_and(&is_asked);
        let accounts: Vec<_> = (0..ACCOUNTS).filter(ready).collect();
        (!accounts.is_empty()).then(|| self.random.pick(&accounts))
    }

    pub fn open_account(&mut self) -> Option<usize> {
        let open = |&account: &usize| self.block(account)[block::KIND] != block::NOT_OPEN;
        let accounts: Vec<_> = (0..ACCOUNTS).filter(open).collect();
        (!accounts.is_empty()).then(|| self.random.pick(&accounts))
    }

    pub fn closed_account(&mut self) -> Option<usize> {
        let closed = |&account: &usize| self.block(account)[block::KIND] == block::NOT_OPEN;
        let accounts: Vec<_> = (0..ACCOUNTS).filter(closed).collect();
        (!accounts.is_empty()).then(|| self.random.pick(&accounts))
    }

    pub fn asset(&mut self, listed: bool) -> Option<usize> {
        let assets: Vec<_> = (0..ASSETS).filter(|&asset| self.tables().is_listed(asset) == listed).collect();
        (!assets.is_empty()).then(|| self.random.pick(&assets))
    }

    pub fn has_own_row(&self, asset: usize) -> bool {
        is_present(&self.tables().own[asset])
    }

    /// The first place of the row in force.
    pub fn start_in_force(&self, asset: usize) -> usize {
        if self.has_own_row(asset) { own_place(asset, 0) } else { clearing_place(asset, 0) }
    }

    /// Sets a number of the row in force, where it differs. Where an own row would be laxer by it, the clearing row's
    /// number goes along.
    pub fn set_in_force(&mut self, asset: usize, number: usize, value: i64) {
        let clearing = self.tables().clearing[asset][number];
        if self.has_own_row(asset) && !stricter::bounds(number, clearing).contain(value) {
            self.set(clearing_place(asset, number), value);
        }
        let place = self.start_in_force(asset) + number;
        if self.parameter(place) != value {
            self.set(place, value);
        }
    }

    pub fn row_in_force(&self, asset: usize) -> Row {
        *self.tables().row_in_force(asset)
    }

    /// The limit a report would give, if it gives one.
    pub fn limit(&self, account: usize) -> Option<i64> {
        let lent = self.session.lent();
        let book = self.session.book();
        calls::report(book, &lent, account as i64).ok().map(|figures| figures.limit())
    }

    /// The limit of a ready account's code after a change to its block.
    pub fn limit_after(&self, account: usize, change: impl FnOnce(&mut Block)) -> i64 {
        let mut book = *self.session.blocks();
        change(&mut book[account]);
        figures(&book, account, &self.tables()).limit()
    }

    /// An order of a ready account, for nothing, whose money is to be chosen.
    pub fn steered(&self, free: Order) -> Steered {
        Steered::new(free, self.session.blocks(), &self.tables())
    }

    /// Of the account's code.
    pub fn positions(&self, account: usize, asset: usize) -> [i64; DATES] {
        let members = Members::of(self.session.blocks(), account);
        let tables = self.tables();
        Joint::of(&members, asset, tables.row_in_force(asset)).map_or([0; DATES], |joint| joint.asset.positions)
    }

    /// The accounts on an account's code, itself among them.
    pub fn members(&self, account: usize) -> Vec<usize> {
        let code = self.block(account)[CODE];
        (0..ACCOUNTS).filter(|&other| other == account || code != 0 && self.block(other)[CODE] == code).collect()
    }

    /// A ready account of a shared code, and another account of it.
    pub fn shared(&mut self) -> Option<[usize; 2]> {
        let shared = |&account: &usize| self.members(account).len() > 1 && self.limit(account).is_some();
        let accounts: Vec<_> = (0..ACCOUNTS).filter(shared).collect();
        let account = (!accounts.is_empty()).then(|| self.random.pick(&accounts))?;
        let others: Vec<_> = self.members(account).into_iter().filter(|&other| other != account).collect();
        Some([account, self.random.pick(&others)])
    }
}

pub fn order(account: usize, asset: usize, date: usize, side: i64, quantity: i64, money: i64) -> Order {
    Order { account: account as i64, asset: asset as i64, date: date as i64, side, quantity, money }
}
