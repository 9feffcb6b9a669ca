//! Document 01, "From collateral to limit": the share in force (2.4.1, 2.4.2), the four regimes, C' and C'' (4.4 to
//! 4.10).

use crate::block::{LISTED_POOL, POOL};
use crate::row::{self, Row};
use crate::units::*;

/// How an asset counts as collateral.
#[derive(Clone, Copy, Debug, PartialEq)]
pub enum Regime {
    /// Special delivery (4.10).
    Special,
    /// Covered sales not recorded (4.7).
    NotRecorded,
    /// Covered sales recorded in part (4.8), with the share in force.
    Partial(i64),
    /// Covered sales recorded (4.4 to 4.6), with the share in force.
    Accepted(i64),
}

/// The share in force for an account of this kind.
pub fn share_in_force(account_kind: i64, row: &Row) -> i64 {
    let acceptance = row[row::ACCEPTANCE_SHARE];
    let pool = row[row::POOL_SHARE];
    if rule!(row[row::SPECIAL_DELIVERY] == 1; SpecialKeepsShare => false) {
        return 0; // House: special delivery makes it 0.
    }
    match account_kind {
        // 2.4.1: the pool share applies if it is less than 1.
        POOL if rule!(pool < WHOLE; PoolShareAlways => true, PoolShareNever => false) => pool,
        // 2.4.2: the pool share alone, whatever its value.
        LISTED_POOL => rule!(pool; ListedPoolAsPool => if pool < WHOLE { pool } else { acceptance }),
        _ => acceptance,
    }
}

impl Regime {
    pub fn of(row: &Row, share: i64) -> Regime {
        match (row[row::SPECIAL_DELIVERY], row[row::COVERED_SALES]) {
            (1, _) => Regime::Special,
            (_, row::NOT_RECORDED) => Regime::NotRecorded,
            (_, row::PARTIAL) => Regime::Partial(share),
            _ => Regime::Accepted(share),
        }
    }

    /// C' from C and N. `net` is N, made with raw collateral.
    pub fn adjusted(self, collateral: i64, net: i64) -> i64 {
        match self {
            Regime::Special => 0,
            Regime::NotRecorded => rule!(collateral.min(0); NotRecordedIsNothing => 0),
            Regime::Partial(share) | Regime::Accepted(share) => accepted(share, collateral, net),
        }
    }

    /// C'' from C': 4.8, for valuation only.
    pub fn valued(self, adjusted: i64) -> i64 {
        match self {
            Regime::Partial(_) => rule!(adjusted.min(0); PartialIgnored => adjusted),
            _ => adjusted,
        }
    }
}

/// 4.4 and 4.5: C − max(min(N, C), 0) + max(0, min(N, C, share·C/10,000 rounded down)). Share 0 gives 4.6.
fn accepted(share: i64, collateral: i64, net: i64) -> i64 {
    let free = rule!(net.min(collateral); FreeIsGreater => net.max(collateral));
    let part = share * collateral;
    let part = rule!(part.div_euclid(WHOLE); ShareRoundedUp => part.div_euclid(WHOLE) + i64::from(part % WHOLE != 0));
    collateral - free.max(0) + rule!(free.min(part); FreePartOfShareOnly => part).max(0)
}
