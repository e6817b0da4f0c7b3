//! The plainest dump with given values: each field of a map has a word of its own.
use crate::Dump;
use crate::fields::Field;
use crate::rules::{MapChip, RECORD};

/// A map's record.
pub fn record(id: u8, field: Field) -> [u8; RECORD] {
    let [low, high] = field.bit_start.to_le_bytes();
    [id, field.block, low, high, field.bit_count as u8, 0, 0, 0]
}

/// A dump that holds the values in the order of the chip's ids, and its map. Fields have their largest bit counts.
pub fn dump_and_map(chip: MapChip, values: &[u32]) -> (Dump, Vec<u8>) {
    let mut dump = [0; 88];
    dump[..values.len()].copy_from_slice(values);
    let place = |k: u16, bit_count| Field { block: (k / 8) as u8, bit_start: 32 * (k % 8), bit_count };
    let rows = chip.rows().into_iter().zip(0..);
    (dump, rows.flat_map(|((id, _, largest), k)| record(id, place(k, largest.into()))).collect())
}
