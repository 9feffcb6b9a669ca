//! Document 02, #102: feeds that are read. Every kind of float and of NaN's pattern at each place, feeds of any bits, and
//! feeds of another count.

use super::maker::Maker;
use crate::generate::Random;
use crate::record::{RECORD, is_nan};
use crate::script::{Buffer, Command};

/// Bits with the sign left out.
pub const PATTERNS: [(&str, u64); 11] = [
    ("zero", 0),
    ("least subnormal", 1),
    ("greatest subnormal", 0x000f_ffff_ffff_ffff),
    ("least normal", 0x0010_0000_0000_0000),
    ("one", 0x3ff0_0000_0000_0000),
    ("greatest finite", 0x7fef_ffff_ffff_ffff),
    ("infinity", 0x7ff0_0000_0000_0000),
    ("signalling NaN of least payload", 0x7ff0_0000_0000_0001),
    ("signalling NaN of greatest payload", 0x7ff7_ffff_ffff_ffff),
    ("quiet NaN of least payload", 0x7ff8_0000_0000_0000),
    ("quiet NaN of greatest payload", 0x7fff_ffff_ffff_ffff),
];

/// The bits with either sign, as the numbers of a buffer.
pub fn signs(bits: u64) -> [(&'static str, i64); 2] {
    [("+", bits.cast_signed()), ("-", (bits | 1 << 63).cast_signed())]
}

/// So many seeds share out the patterns.
const SHARES: u64 = 2;

pub fn scene(maker: &mut Maker) {
    let patterns = PATTERNS.iter().flat_map(|&(_, bits)| signs(bits)).map(|(_, bits)| bits);
    let placed: Vec<_> = patterns.flat_map(|bits| (0..RECORD).map(move |place| (place, bits))).collect();
    for (place, bits) in maker.share_of(placed.len(), SHARES).map(|at| placed[at]) {
        let mut feed = draw_feed(&mut maker.random);
        feed[place] = bits;
        read(maker, &feed);
    }
    any_bits(maker);
    wrong_counts(maker);
}

fn read(maker: &mut Maker, feed: &[i64]) {
    let mut wanted = maker.buffers().clone();
    *wanted.numbers_mut(Buffer::Feed) = feed.to_vec();
    maker.lend(&wanted);
    maker.call(Command::Unapp);
}

fn any_bits(maker: &mut Maker) {
    const FEEDS: usize = 8;
    for _ in 0..FEEDS {
        let feed = [(); RECORD].map(|()| maker.random.between(i64::MIN, i64::MAX));
        read(maker, &feed);
    }
    // More than one NaN's pattern.
    let mut feed = draw_feed(&mut maker.random);
    for _ in 0..RECORD {
        feed[maker.random.below(RECORD)] = draw_nan(&mut maker.random);
        read(maker, &feed);
    }
    let nans = [(); RECORD].map(|()| draw_nan(&mut maker.random));
    read(maker, &nans);
}

/// With and without a NaN's pattern; in a feed that is too long it may stand behind the five.
fn wrong_counts(maker: &mut Maker) {
    let some = maker.random.below(20);
    for count in [0, 1, RECORD - 1, RECORD + 1, 2 * RECORD, if some == RECORD { 0 } else { some }] {
        let mut feed: Vec<_> = (0..count).map(|_| draw_bits(&mut maker.random)).collect();
        read(maker, &feed);
        if count > 0 {
            let place = maker.random.below(count);
            feed[place] = draw_nan(&mut maker.random);
            read(maker, &feed);
        }
    }
    let five = draw_feed(&mut maker.random);
    read(maker, &five);
}

/// A feed that can be read, as a report could leave it or not.
pub fn draw_feed(random: &mut Random) -> [i64; RECORD] {
    [(); RECORD].map(|()| draw_bits(random))
}

/// Bits of no NaN: a whole number's, or any others.
fn draw_bits(random: &mut Random) -> i64 {
    let whole = random.up_to(1_000_000_000_000_000) as f64;
    let any = random.between(i64::MIN, i64::MAX);
    let bits = random.pick(&[whole.to_bits(), (-whole).to_bits(), any.cast_unsigned()]);
    if is_nan(bits) { 1 } else { bits.cast_signed() }
}

/// A NaN's pattern: quiet or signalling, of either sign and any payload.
pub fn draw_nan(random: &mut Random) -> i64 {
    let payload = random.between(1, (1 << 52) - 1);
    let payload = random.pick(&[payload, payload, 1, 1 << 51, (1 << 51) - 1, (1 << 52) - 1]);
    let sign = random.pick(&[0, i64::MIN]);
    sign | 0x7ff << 52 | payload
}
