//! The census of short floats: by the library's call, by the crate, by the function that visits every pattern and by the
//! program, beside a plain count over the module's `pica_float`.

use crate::boundary;
use crate::floats::proved::compare_count;
use std::path::Path;
use std::process::Command;

/// Zeros, infinities, NaNs and other numbers.
pub type Totals = [u32; 4];

/// Document 02's widths: "mantissa widths m from 1 to 12 and exponent widths 2 to 7".
pub fn widths() -> impl Iterator<Item = (u32, u32)> {
    (1..=12).flat_map(|mantissa| (2..=7).map(move |exponent| (mantissa, exponent)))
}

/// Every pattern of m + exponent + 1 bits, decoded by the module and classed by Rust.
#[cfg(oracle)]
pub fn plain_count(mantissa: u32, exponent: u32) -> Totals {
    use std::num::FpCategory::*;
    let mut totals = [0; 4];
    for bits in 0..1u32 << (mantissa + exponent + 1) {
        let class = match crate::oracle::access::pica_float(bits, mantissa, exponent).classify() {
            Zero => 0,
            Infinite => 1,
            Nan => 2,
            Subnormal | Normal => 3,
        };
        totals[class] += 1;
    }
    totals
}

/// The library's call; it is never refused four words.
pub fn called(mantissa: u32, exponent: u32) -> Totals {
    let mut totals = [u32::MAX; 4];
    assert_eq!(boundary::census(mantissa, exponent, &mut totals), 0);
    totals
}

/// The crate's function.
pub fn typed(mantissa: u32, exponent: u32) -> Totals {
    let census = lighting::census(mantissa, exponent);
    [census.zeros, census.infinities, census.nans, census.numbers]
}

/// The function that visits every pattern.
pub fn visited(mantissa: u32, exponent: u32) -> Totals {
    [0, 1, 2, 3].map(|at| compare_count(mantissa, exponent, at))
}

/// What the program prints, on its standard output and its standard error.
pub fn printed(arguments: &[&str]) -> (String, String) {
    let program = Path::new(env!("CARGO_MANIFEST_DIR")).join("../crates/census/out/census");
    let run = Command::new(program).args(arguments).output().expect("crates/census/out/census, which `rt run` in crates/census makes");
    assert!(run.status.success(), "{arguments:?}: {}", run.status);
    let text = |bytes| String::from_utf8(bytes).expect("ASCII");
    (text(run.stdout), text(run.stderr))
}

/// The totals as the program prints them.
pub fn line(totals: Totals) -> String {
    totals.map(|total| total.to_string()).join(" ") + "\n"
}
