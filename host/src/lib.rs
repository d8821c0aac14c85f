//! Comparisons and benchmarks of the proved lighting code beside the Rust module that it was written from. A renderer
//! uses the crate `lighting`; nothing depends on this package.
//!
//! In comparisons a float crosses as its word. A NaN comes back as 7FC00000, so the module's own words are brought
//! to that form by [`word`] before they are compared.

pub mod blocks;
pub mod boundary;
pub mod callers;
pub mod captures;
pub mod census;
pub mod colours;
pub mod drop_in;
pub mod floats;
pub mod forms;
pub mod lists;
pub mod machine;
pub mod patterns;
pub mod structs;
pub mod tables;
pub mod timing;
pub mod units;

/// The module, as it stands in the file that the build was given, with `access` appended.
#[cfg(oracle)]
#[allow(dead_code, clippy::all)]
pub mod oracle {
    include!(concat!(env!("OUT_DIR"), "/lighting.rs"));
}

/// The one NaN's word.
pub const NAN: u32 = 0x7FC0_0000;

/// A float's word, every NaN as 7FC00000.
pub fn word(x: f32) -> u32 {
    if x.is_nan() {
        NAN
    } else {
        x.to_bits()
    }
}
