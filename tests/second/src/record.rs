//! Document 02, #102: the five figures of a report as one record of floats in kopecks, each exactly the whole number, and
//! the bits that it goes out as and is read from.

use crate::limit::Figures;

/// Floats of a record, and numbers lent for their bits.
pub const RECORD: usize = 5;

/// In report order. A refused report's has five +0.0, which is the default.
#[derive(Clone, Copy, Debug, Default, PartialEq)]
pub struct Record {
    pub valuation: f64,
    pub market_risk: f64,
    pub interest_risk: f64,
    pub discount: f64,
    pub limit: f64,
}

impl Record {
    pub fn of(figures: &Figures) -> Record {
        let (market_risk, interest_risk) = rule!((figures.market_risk, figures.interest_risk);
            MarketInPlaceOfInterest => (figures.interest_risk, figures.market_risk));
        Record {
            valuation: exact(figures.valuation),
            market_risk: exact(market_risk),
            interest_risk: exact(interest_risk),
            discount: exact(figures.discount),
            limit: exact(figures.limit()),
        }
    }

    /// The floats' bits in report order, as the signed numbers that the buffers hold.
    pub fn bits(&self) -> [i64; RECORD] {
        let Record { valuation, market_risk, interest_risk, discount, limit } = *self;
        let floats = rule!([valuation, market_risk, interest_risk, discount, limit];
            LimitWrittenFirst => [limit, valuation, market_risk, interest_risk, discount]);
        floats.map(signed_bits)
    }

    /// The record whose bits these are. None where one of them is a NaN's pattern.
    pub fn read(bits: &[i64; RECORD]) -> Option<Record> {
        let [valuation, market_risk, interest_risk, discount, limit] = bits.map(float);
        Some(Record {
            valuation: valuation?,
            market_risk: market_risk?,
            interest_risk: interest_risk?,
            discount: discount?,
            limit: rule!(limit?; NanOfLimitRead => f64::from_bits(bits[4].cast_unsigned())),
        })
    }
}

/// Below 2^53 in size. One block's figures always are; those of a settlement code may not be.
pub fn is_exact(number: i64) -> bool {
    const SIZE: u64 = 1 << f64::MANTISSA_DIGITS;
    let size = number.unsigned_abs();
    rule!(size < SIZE;
        NineAboveAlone => size <= SIZE,
        NineOneTooSoon => size < SIZE - 1,
        NineOfPositiveAlone => number < 1 << f64::MANTISSA_DIGITS,
        NineOfNegativeAlone => number > -(1 << f64::MANTISSA_DIGITS))
}

/// Every whole number below 2^53 in size is a float, so nothing is rounded. A greater one, which the call refuses, stops
/// the program.
pub fn exact(number: i64) -> f64 {
    rule!(assert!(is_exact(number), "{number} is 2^53 or more in size");
        NineForgotten => (),
        NineOfPositiveAlone => (),
        NineOfNegativeAlone => (),
        NineOfValuationAlone => (),
        NineOfLimitAlone => ());
    rule!(number as f64; ZeroIsNegative => -(-number as f64), RoundedToSingle => f64::from(number as f32))
}

pub fn signed_bits(float: f64) -> i64 {
    float.to_bits().cast_signed()
}

/// None for a NaN's pattern.
fn float(bits: i64) -> Option<f64> {
    let bits = bits.cast_unsigned();
    let refused = rule!(is_nan(bits);
        NanRead => false,
        SignallingNanRead => is_nan(bits) && bits & QUIET != 0,
        NegativeNanRead => is_nan(bits) && bits & SIGN == 0,
        InfinityNotRead => bits & !SIGN >= INFINITY);
    let bits = rule!(bits;
        NegativeZeroReadAsZero => if bits == SIGN { 0 } else { bits },
        SubnormalReadAsZero => if bits & INFINITY == 0 { bits & SIGN } else { bits });
    (!refused).then(|| f64::from_bits(bits))
}

const SIGN: u64 = 1 << 63;
/// All ones in the exponent and nothing behind it.
const INFINITY: u64 = 0x7ff << 52;
#[cfg(test)]
const QUIET: u64 = 1 << 51;

/// All ones in the exponent and something behind it, whatever the sign. Asked of the bits, since a NaN's own comparisons
/// say nothing.
pub fn is_nan(bits: u64) -> bool {
    bits & !SIGN > INFINITY
}
