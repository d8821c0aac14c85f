//! The caller over the Rust module.
use crate::oracle as lighting;

#[path = "renderer.rs"]
mod renderer;
pub use renderer::*;
