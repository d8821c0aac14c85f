//! Captures as text and pictures of scenes, for the people who light them.
//!
//! [`pack`] and [`unpack`] go from a text to a capture and back. [`drawing`] makes captures with a fragment for each pixel and has the
//! proved program `lightshow` colour them; nothing here computes a colour. The text form is described in docs/TEXT.md.

pub mod bodies;
pub mod curves;
pub mod drawing;
pub mod files;
pub mod names;
pub mod pack;
pub mod png;
pub mod shapes;
pub mod unpack;
pub mod values;

/// The Rust module, as it stands in the file that the build was given.
#[cfg(oracle)]
#[allow(dead_code, clippy::all)]
mod lighting {
    include!(concat!(env!("OUT_DIR"), "/lighting.rs"));
}

#[cfg(oracle)]
pub mod rust;
