//! What the tests hand in, and the plainest answer that they wait for.
use crate::{Answer, Reason, DUMP_WORDS};

pub const ZEROS: [u32; DUMP_WORDS] = [0; DUMP_WORDS];
pub const ONES: [u32; DUMP_WORDS] = [u32::MAX; DUMP_WORDS];

/// A map with one word of blocks 0 and 1 for each field: first id, and the fields' widths.
fn map(first: u8, widths: &[u8]) -> Vec<u8> {
    let record = |(k, width): (u8, &u8)| [first + k, k / 8, k % 8 * 32, 0, *width, 0, 0, 0];
    (0..).zip(widths).flat_map(record).collect()
}

pub fn esp32_map() -> Vec<u8> {
    map(1, &[5, 1, 7, 7, 9, 9])
}

pub fn s2_map() -> Vec<u8> {
    map(7, &[8, 8])
}

pub fn c6_map() -> Vec<u8> {
    map(9, &[15, 15, 15, 15, 10, 10, 10, 10, 4, 4, 4, 4, 4, 4, 4])
}

/// A refusal that tells no record.
pub fn refused<T>(reason: Reason) -> Answer<T> {
    Err(reason.into())
}
