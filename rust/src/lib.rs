//! A handheld's fragment lighting, from register writes and table uploads to two colours for each fragment.
//!
//! - [`Unit`] is the lighting unit: it takes register writes and saved tables, and reads them as a lighting.
//! - [`HardwareCopy`] is what a hardware renderer works from, a packed [`Block`] and a copy of the tables. A
//!   [hand-over](Unit::hand_over) brings it up to date.
//! - The copy shades a [`Fragment`] into its [`Colours`]; so does a block, together with tables.
//! - [`print_capture`] runs a recorded capture as the program `lightshow` does.
//! - [`census`] says what the patterns of a short float end as, for whoever chooses how positions are encoded.
//!
//! ```
//! use lighting::{Fragment, HardwareCopy, Unit};
//!
//! let mut unit = Unit::new();
//! let mut copy = HardwareCopy::new();
//! unit.write_all(&[
//!     [0x08F, 1],           // the lighting on
//!     [0x142, 0x0FF3_FCFF], // light 0's diffuse colour, white
//!     [0x145, 0x3C00],      // its z, 1
//!     [0x149, 1],           // directional
//!     [0x1C4, u32::MAX],    // no table, no shadow
//! ])?;
//!
//! unit.hand_over(&mut copy);
//! let colours = copy.shade(&Fragment::default()).expect("the lighting is on");
//! assert_eq!(colours.to_string(), "255 255 255 255 0 0 0 255");
//!
//! unit.write(0x08F, 0)?;
//! unit.hand_over(&mut copy);
//! assert_eq!(copy.shade(&Fragment::default()), None); // off
//! # Ok::<(), Box<dyn std::error::Error>>(())
//! ```
//!
//! Register numbers are those of the handheld, and document 01 says what each means; a refused call gives its number as
//! a [`Refusal`] and changes nothing. Nothing here panics, and nothing is shared between two units or copies, so they
//! may be used on several threads at once.
//!
//! # What is proved
//!
//! The work is done by the archive `liblighting_abi.a`. Each of its calls is proved equal to a definition written from
//! document 01, or document 02 for what was added to it; docs/READING.md leads from each sentence to its proof. Of every list of fewer than 2^64 register
//! writes, restores, cached reads and hand-overs it is proved that after a hand-over the copy shades as the registers
//! and tables say. Not proved is this crate itself, which lends its slices to the calls: that is tested.

#![deny(unsafe_code, missing_docs)]
#![cfg_attr(not(test), deny(clippy::unwrap_used, clippy::expect_used, clippy::panic, clippy::indexing_slicing, clippy::unreachable))]

mod block;
mod capture;
mod census;
mod copy;
mod fragment;
#[allow(unsafe_code)]
mod raw;
mod refusal;
mod unit;

pub use block::{shade_block_bytes, Block, LightNumber, BLOCK_WORDS};
pub use capture::print_capture;
pub use census::{census, Census};
pub use copy::{HardwareCopy, Shaded};
pub use fragment::{Colours, Fragment};
pub use refusal::{Refusal, Stopped};
pub use unit::{TableWords, Unit, REGISTERS, TABLE_WORDS};
