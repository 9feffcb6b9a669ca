//! Document 02, #102: the feed read back, every kind of float and of NaN's pattern at each place.

use second::calls;
use second::cases::bits_of_whole;
use second::record::Record;

/// Zeros, subnormals, the least and the greatest, infinities.
const FLOATS: [u64; 7] =
    [0, 1, 0x000f_ffff_ffff_ffff, 0x0010_0000_0000_0000, 0x3ff8_0000_0000_0000, 0x7fef_ffff_ffff_ffff, 0x7ff << 52];
const NANS: [u64; 5] =
    [0x7ff0_0000_0000_0001, 0x7ff7_ffff_ffff_ffff, 0x7ff8_0000_0000_0000, 0x7ff8_0000_0000_0001, 0x7fff_ffff_ffff_ffff];

/// Each at each place, with either sign.
fn placed(patterns: &[u64]) -> impl Iterator<Item = [i64; 5]> {
    let signed = patterns.iter().flat_map(|&bits| [bits.cast_signed(), bits.cast_signed() | i64::MIN]);
    signed.flat_map(|bits| {
        (0..5).map(move |place| {
            let mut feed = [0x4059_0000_0000_0000; 5];
            feed[place] = bits;
            feed
        })
    })
}

#[test]
fn any_float_is_read_back_unchanged() {
    for feed in placed(&FLOATS) {
        assert_eq!(calls::unapp(&feed).map(|record| record.bits()), Ok(feed));
    }
}

#[test]
fn a_nans_pattern_is_9() {
    for feed in placed(&NANS) {
        assert_eq!(calls::code(&calls::unapp(&feed)), 9);
    }
}

#[test]
fn another_count_is_1_whatever_stands_there() {
    for count in [0, 1, 4, 6, 10, 288] {
        for bits in [0, -1, 1] {
            assert_eq!(calls::code(&calls::unapp(&vec![bits; count])), 1);
        }
    }
}

#[test]
fn the_record_has_its_figures_by_name() {
    let record = Record { valuation: 1.0, market_risk: 2.0, interest_risk: 3.0, discount: 4.0, limit: 5.0 };
    assert_eq!(record.bits(), [1, 2, 3, 4, 5].map(|figure| bits_of_whole(figure).cast_signed()));
    assert_eq!(calls::unapp(&record.bits()), Ok(record));
}
