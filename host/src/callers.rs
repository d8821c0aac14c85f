//! One caller, compiled twice: against the Rust module, and against its drop-in over the proved code. The two differ in
//! one `use`.
#![cfg(oracle)]
#![allow(clippy::duplicate_mod)]

pub mod proved;
pub mod reference;
