use crate::raw;

/// How many patterns of a short float the unit decodes as what: what [`census`] gives.
///
/// It prints as the program `census` does, the four totals on one line.
#[derive(Clone, Copy, Debug, Default, PartialEq, Eq, Hash)]
pub struct Census {
    /// +0 and −0.
    pub zeros: u32,
    /// Both infinities.
    pub infinities: u32,
    /// Patterns that are not a number.
    pub nans: u32,
    /// All other numbers.
    pub numbers: u32,
}

impl std::fmt::Display for Census {
    fn fmt(&self, f: &mut std::fmt::Formatter) -> std::fmt::Result {
        write!(f, "{} {} {} {}", self.zeros, self.infinities, self.nans, self.numbers)
    }
}

/// The census of a short float with a mantissa and an exponent of these widths, in bits, and a sign: of all its patterns,
/// how many the unit decodes as zeros, infinities, NaNs and other numbers.
///
/// Mantissas of 1 to 12 and exponents of 2 to 7 bits are counted; any other widths give four zeros. A light's position
/// is halves, 10 and 5, and its distance 20-bit floats, 12 and 7.
///
/// ```
/// use lighting::{census, Census};
///
/// let half = census(10, 5);
/// assert_eq!(half.to_string(), "2 2 2046 63486");
/// assert_eq!(half.nans, 2 * ((1 << 10) - 1));
///
/// // one bit of the mantissa given to the exponent: fewer NaNs, and so more numbers, of the same 16 bits
/// assert!(census(9, 6).numbers > half.numbers);
///
/// assert_eq!(census(13, 5), Census::default());
/// ```
pub fn census(mantissa: u32, exponent: u32) -> Census {
    let mut totals = [0; 4];
    // 0: a place of four words is never refused
    raw::census(mantissa, exponent, &mut totals);
    let [zeros, infinities, nans, numbers] = totals;
    Census { zeros, infinities, nans, numbers }
}
