//! Floats by whole numbers alone, so that what a float is to be can be said without the machine's own: IEEE 754, 64 bits,
//! one sign, eleven of the exponent with a bias of 1,023, and 52 behind the point.

use std::cmp::Ordering;

const BEHIND_POINT: u32 = 52;
const BIAS: u64 = 1_023;
/// The one before the point, which a normal float's bits leave out.
const BEFORE_POINT: u64 = 1 << BEHIND_POINT;

/// The bits of a whole number below 2^53 in size, by shifts.
pub fn bits_of_whole(number: i64) -> u64 {
    let size = number.unsigned_abs();
    let Some(exponent) = size.checked_ilog2() else { return 0 };
    let behind = (size << (BEHIND_POINT - exponent)) & (BEFORE_POINT - 1);
    let sign = u64::from(number < 0) << 63;
    sign | (BIAS + u64::from(exponent)) << BEHIND_POINT | behind
}

/// A quotient of whole numbers below 2^53, from 0 to 1, as it is before any rounding.
pub struct Quotient {
    pub dividend: i64,
    pub divisor: i64,
}

impl Quotient {
    /// How a float's bits stand to it, by the cross product. None where they are of no positive normal float to 1.
    pub fn met_by(&self, bits: u64) -> Option<Ordering> {
        self.excess(bits).map(|excess| excess.cmp(&0))
    }

    /// Whether no float is nearer.
    pub fn is_nearest(&self, bits: u64) -> bool {
        if self.dividend == 0 {
            return bits == 0;
        }
        let Some(excess) = self.excess(bits) else { return false };
        // The float below a power of two is half as far as the one above. A tie there cannot be: the divisor has too few
        // bits.
        let parts = if excess > 0 && bits.trailing_zeros() >= BEHIND_POINT { 4 } else { 2 };
        parts * excess.unsigned_abs() < self.divisor.unsigned_abs().into()
    }

    /// The float is m / 2^k with m of 53 bits: m × divisor − dividend × 2^k.
    fn excess(&self, bits: u64) -> Option<i128> {
        let one = BIAS << BEHIND_POINT;
        if !(BEFORE_POINT..=one).contains(&bits) {
            return None;
        }
        let whole = i128::from(bits % BEFORE_POINT + BEFORE_POINT);
        let shift = BIAS + u64::from(BEHIND_POINT) - bits / BEFORE_POINT;
        // Nothing near a quotient of such numbers is as small as that.
        let scaled = (shift < 110).then(|| i128::from(self.dividend).checked_mul(1 << shift)).flatten()?;
        Some(whole * i128::from(self.divisor) - scaled)
    }
}
