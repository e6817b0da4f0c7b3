//! The crate as oracle. `fields`, `line`, `s2`, `c6` and `curve` ask the crate itself, which may panic; `answers` has
//! document 01's answer to any input: its refusals in its order (`rules`), and past them the crate's answer. `document` has its
//! formulas, written without the crate; `desk` has what the desk program writes. `noise`, `plain`, `dumps`, `lengths`, `maps`, `codes`,
//! `records` and `together` make inputs.
pub mod answers;
pub mod c6;
mod call;
pub mod codes;
pub mod curve;
pub mod desk;
pub mod document;
pub mod dumps;
pub mod fields;
pub mod lengths;
pub mod line;
pub mod maps;
pub mod noise;
pub mod plain;
pub mod records;
pub mod rules;
pub mod s2;
pub mod together;

pub use call::{Panic, quietly};

/// The words of blocks 0 to 10.
pub type Dump = [u32; 88];
