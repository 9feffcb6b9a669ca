//! The tables. Every listed asset has another row: kinds 1 to 3, own rows over none, a third or all of the assets, special delivery, not recorded,
//! partial, shares of 0 and of the whole, four spread groups and none.

use second::row::{self, date_start};
use second::tables::Lent;
use second::units::*;

/// Over which of the listed assets an own row stands: of sixteen, over none, five or all.
#[derive(Clone, Copy)]
pub enum Owned {
    None,
    Third,
    All,
}

impl Owned {
    pub const EACH: [Owned; 3] = [Owned::None, Owned::Third, Owned::All];

    fn covers(self, asset: usize) -> bool {
        match self {
            Owned::None => false,
            Owned::Third => asset % 3 == 1,
            Owned::All => true,
        }
    }

    /// How many own rows there are.
    pub fn rows(self, listed: usize) -> usize {
        (0..listed).filter(|&asset| self.covers(asset)).count()
    }
}

#[derive(Clone)]
pub struct Tables {
    pub clearing: Vec<i64>,
    pub own: Vec<i64>,
    pub groups: Vec<i64>,
}

impl Tables {
    /// With the first `listed` assets listed.
    pub fn new(listed: usize, owned: Owned) -> Tables {
        let groups = (0..GROUPS as i64).map(|group| 10 + 5 * group).collect();
        let mut tables = Tables { clearing: vec![0; TABLE], own: vec![0; TABLE], groups };
        for asset in 0..listed {
            let place = ROW * asset..ROW * (asset + 1);
            write_row(&mut tables.clearing[place.clone()], asset as i64);
            if owned.covers(asset) {
                let own = &mut tables.own[place.clone()];
                own.copy_from_slice(&tables.clearing[place]);
                tighten(own);
            }
        }
        tables
    }

    pub fn lent(&self) -> Lent<'_> {
        Lent { clearing: &self.clearing, own: &self.own, groups: &self.groups }
    }

    /// The number at a place of the table check.
    pub fn at(&mut self, place: usize) -> &mut i64 {
        match place / TABLE {
            0 => &mut self.clearing[place],
            1 => &mut self.own[place - TABLE],
            _ => &mut self.groups[place - 2 * TABLE],
        }
    }
}

/// A row that keeps every rule.
fn write_row(numbers: &mut [i64], asset: i64) {
    let kind = 1 + asset % 3;
    let price = 5_000 + 1_370 * asset;
    let fall = 1_200 + 90 * asset;
    let rise = if kind == row::COMMODITY { fall } else { fall + 300 };
    numbers[row::KIND] = kind;
    numbers[row::PRICE] = price;
    numbers[row::ACCEPTANCE_SHARE] = [5_000, 0, 8_500, 10_000][(asset % 4) as usize];
    numbers[row::POOL_SHARE] = [10_000, 7_500, 0, 10_000][(asset % 4) as usize];
    numbers[row::COVERED_SALES] = (asset / 2) % 3;
    numbers[row::SPECIAL_DELIVERY] = i64::from(asset % 5 == 4);
    numbers[row::FALL] = fall;
    numbers[row::RISE] = rise;
    numbers[row::RAISED_FALL] = fall + 900;
    numbers[row::RAISED_RISE] = rise + 900;
    numbers[row::MARKET_LIMIT] = 400 + 700 * (asset % 4);
    numbers[row::INTEREST_LIMIT] = 100 + 60 * (asset % 5);
    numbers[row::GROUP] = asset % 5;
    for date in 0..DATES as i64 {
        let mid = 40 * date - 90 + asset;
        let five = [mid, mid - 30 - date, mid + 25 + asset, mid - 70 - 2 * date, mid + 80 + 2 * asset];
        let start = date_start(date as usize);
        numbers[start..start + row::DATE].copy_from_slice(&five);
    }
}

/// Makes of a clearing row an own row that is stricter in shares that are not 0, rates, concentration limits, lows and ups.
/// Special delivery stays, so that own rows do not change which work there is.
fn tighten(numbers: &mut [i64]) {
    for place in [row::ACCEPTANCE_SHARE, row::POOL_SHARE, row::MARKET_LIMIT, row::INTEREST_LIMIT] {
        numbers[place] -= numbers[place] / 10;
    }
    for place in [row::FALL, row::RISE, row::RAISED_FALL, row::RAISED_RISE] {
        numbers[place] += 70;
    }
    for date in 0..DATES {
        let start = date_start(date);
        for (of_date, further) in [(row::LOW, -5), (row::UP, 5), (row::OUTER_LOW, -10), (row::OUTER_UP, 10)] {
            numbers[start + of_date] += further;
        }
    }
}
