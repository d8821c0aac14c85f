//! The caller over the proved code.
use crate::drop_in as lighting;

#[path = "renderer.rs"]
mod renderer;
pub use renderer::*;
