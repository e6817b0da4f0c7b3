//! Suongkivat from Rust: raw ADC counts of ESP32 boards and their kin into millivolts, by a library that is proved to give exactly the
//! answers of its rules.
//!
//! - **Answers.** A call takes any input, and gives [`Answer`]: its value, or the [`Refusal`] that says why there is none, and on a map
//!   which of its records is bad. No call panics, but for indexing a [`Table`] past its end.
//! - **Memory is lent.** A dump is a slice of words; a list of block lengths, a map or a log is one of bytes. Nothing is copied, kept or
//!   allocated. A refused call leaves what it was lent as it was.
//! - **Numbers that mean different things are different types**: [`Count`] and [`Millivolt`], [`Unit`] and [`Attenuation`], [`Source`],
//!   [`Chip`].
//! - **Threads.** The library has no state.
//!
//! ```
//! use suongkivat::{Attenuation, Board, Count, Millivolt, Unit, EIGHTS};
//! # let dump = [0; suongkivat::DUMP_WORDS];
//! # let fields = [(1, 0, 5), (2, 32, 1), (3, 64, 7), (4, 96, 7), (5, 128, 9), (6, 160, 9)];
//! # let map: Vec<u8> = fields.iter().flat_map(|&(id, start, count)| [id, 0, start, 0, count, 0, 0, 0]).collect();
//! let board = Board { dump: &dump, lengths: &EIGHTS, map: &map };
//! let table = board.table(Unit::ADC1, Attenuation::DB_11)?;
//! assert_eq!(table[Count(2880)], Millivolt(2462));
//! # Ok::<(), suongkivat::Refusal>(())
//! ```
//!
//! | to | use |
//! |---|---|
//! | turn an ESP32's counts into millivolts | [`Board`], [`Table`], [`LineRecord`] |
//! | answer a log of two boards | [`Log`], [`Session`] |
//! | correct a line answer by a chip's curve | [`correct`] |
//! | read calibration codes | [`s2`], [`c6`] |
//! | read a field of a dump, check a map | [`Field`], [`check_map`] |
//! | have the calls as C has them | [`raw`] |
#![deny(missing_docs, unsafe_code)]

mod board;
pub mod c6;
mod curve;
mod dump;
mod field;
mod line;
mod log;
mod map;
mod quantity;
#[allow(unsafe_code)] // the one place where C is called; it says why that is sound
pub mod raw;
mod refusal;
pub mod s2;
mod session;
mod table;
#[cfg(test)]
mod tests;

pub use board::Board;
pub use curve::correct;
pub use dump::dump_from_bytes;
pub use field::Field;
pub use line::LineRecord;
pub use log::{next_sample, Log, Sample};
pub use map::check_map;
pub use quantity::{Attenuation, Chip, Count, Millivolt, Source, Unit};
pub use refusal::{Answer, Reason, Refusal};
pub use session::Session;
pub use table::Table;

/// The version of the header that this crate is written to. The first number changes where a caller has to be changed.
pub const VERSION: &str = "4.0";

/// Words of a dump: blocks 0 to 10, with room for eight words each.
pub const DUMP_WORDS: usize = 88;

/// Bytes of a list of block lengths: how many words each block has, 0 to 8.
pub const BLOCKS: usize = 11;

/// The list of a chip whose blocks all have eight words.
pub const EIGHTS: [u8; BLOCKS] = [8; BLOCKS];

/// Bytes of an ESP32's map. A map is records of 8 bytes, one for each field of its chip.
pub const ESP32_MAP_BYTES: usize = 48;

/// Bytes of an S2's map.
pub const S2_MAP_BYTES: usize = 16;

/// Bytes of a C6's map.
pub const C6_MAP_BYTES: usize = 120;

/// Bytes of a log's record.
pub const SAMPLE_BYTES: usize = 4;

/// How many counts there are: 0 to 4095.
pub const COUNTS: usize = 4096;

// The examples of README.md are run with those above.
#[cfg(doctest)]
#[doc = include_str!("../README.md")]
struct Readme;
