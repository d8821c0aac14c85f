//! The census of short floats.
use lighting::{census, Census};

#[test]
fn the_half_prints_as_the_program_does() {
    let half = Census { zeros: 2, infinities: 2, nans: 2046, numbers: 63486 };
    assert_eq!(census(10, 5), half);
    assert_eq!(half.to_string(), "2 2 2046 63486");
}

#[test]
fn the_four_add_to_all_patterns_of_every_width() {
    for mantissa in 1..=12 {
        for exponent in 2..=7 {
            let Census { zeros, infinities, nans, numbers } = census(mantissa, exponent);
            assert_eq!(zeros + infinities + nans + numbers, 1 << (mantissa + exponent + 1), "{mantissa} and {exponent}");
        }
    }
}

#[test]
fn other_widths_give_four_zeros() {
    for (mantissa, exponent) in [(0, 5), (13, 5), (10, 1), (10, 8), (0, 0), (u32::MAX, 5), (10, u32::MAX), (u32::MAX, u32::MAX)] {
        assert_eq!(census(mantissa, exponent), Census::default(), "{mantissa} and {exponent}");
    }
}
