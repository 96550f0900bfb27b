//! An independent model of the scheduler in plain Rust, inputs made from a seed, and the proved code beside it, to compare the two.

pub mod compare;
pub mod generator;
pub mod model;
pub mod program;
pub mod state_bytes;

pub use urzalinda as library;
