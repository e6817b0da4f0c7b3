//! Field maps, good ones and ones with a fault.
use crate::dumps::any_place;
use crate::fields::Field;
use crate::noise::Noise;
use crate::plain::record;
use crate::rules::{MapChip, RECORD};

/// A good map with each field placed by its least and largest bit count.
fn map_of(chip: MapChip, mut place: impl FnMut(u8, u8) -> Field) -> Vec<u8> {
    chip.rows().into_iter().flat_map(|(id, least, largest)| record(id, place(least, largest))).collect()
}

/// A good map with its fields anywhere.
pub fn any_map(noise: &mut Noise, chip: MapChip) -> Vec<u8> {
    map_of(chip, |least, largest| {
        let count = noise.within(least.into(), largest.into());
        any_place(noise, count)
    })
}

/// A map as lent at another length. A longer one is refused for that, whatever it holds.
pub fn of_length(mut map: Vec<u8>, length: usize) -> Vec<u8> {
    map.resize(length, 0);
    map
}

fn start_at(record: &mut [u8], start: u16) {
    record[2..4].copy_from_slice(&start.to_le_bytes());
}

/// Spoils a record in one way or another.
pub fn spoil(noise: &mut Noise, record: &mut [u8]) {
    match noise.below(8) {
        0 => record[0] = record[0].wrapping_add(noise.pick(&[1, 255, 128])),
        1 => record[noise.within(5, 7) as usize] = noise.pick(&[1, 128, 255]),
        2 => record[1] = noise.pick(&[11, 12, 255]),
        3 => record[3] = noise.pick(&[1, 2, 255]),
        4 => start_at(record, 257 - u16::from(record[4])),
        5 => record[4] = record[4].wrapping_add(noise.pick(&[1, 255])),
        6 => record[4] = noise.pick(&[0, 16, 255]),
        _ => start_at(record, 255),
    }
}

/// A byte's place, in a record or a map, and what it becomes.
pub type Change = (usize, u8);

/// The bytes with some of them changed.
pub fn changed(bytes: &[u8], changes: &[Change]) -> Vec<u8> {
    let mut bytes = bytes.to_vec();
    changes.iter().for_each(|(at, byte)| bytes[*at] = *byte);
    bytes
}

/// Each byte that makes a good record bad by itself, in the order of the refusals: 3, 18 at each place, 4, 5, 6.
fn wrong_bytes(record: &[u8]) -> [Change; 7] {
    [(0, record[0] + 1), (5, 1), (6, 128), (7, 255), (1, 11), (3, 1), (4, 0)]
}

/// What makes a good record bad: one byte; two that should be zero; one of these with what is asked for before it, and after it.
pub fn record_faults(record: &[u8]) -> Vec<Vec<Change>> {
    let bytes = wrong_bytes(record);
    let [id, at_5, at_6, at_7, block, ..] = bytes;
    let two = [[at_5, at_6], [at_5, at_7], [at_6, at_7], [id, at_6], [at_7, block]];
    bytes.map(|byte| vec![byte]).into_iter().chain(two.map(Vec::from)).collect()
}

/// What makes a good map bad: all that in each record; and in each two records, a wrong byte of one kind or another in the first and a
/// wrong id in the other, which isn't told.
pub fn map_faults(good: &[u8]) -> Vec<Vec<Change>> {
    let in_map = |k: usize, (at, byte): Change| (RECORD * k + at, byte);
    let records: Vec<&[u8]> = good.chunks(RECORD).collect();
    let mut faults = Vec::new();
    for (k, record) in records.iter().enumerate() {
        let of_record = record_faults(record).into_iter();
        faults.extend(of_record.map(|fault| fault.into_iter().map(|byte| in_map(k, byte)).collect()));
    }
    for one in 0..records.len() {
        for other in one + 1..records.len() {
            let kinds = wrong_bytes(records[one]);
            let (first, id) = (kinds[faults.len() % kinds.len()], wrong_bytes(records[other])[0]);
            faults.push(vec![in_map(one, first), in_map(other, id)]);
        }
    }
    faults
}

/// Good maps: fields anywhere, at a block's end, at a block's start, and anywhere again.
pub fn good_of(noise: &mut Noise, chip: MapChip) -> [Vec<u8>; 4] {
    let last = |_, largest: u8| Field { block: 10, bit_start: 256 - u16::from(largest), bit_count: largest.into() };
    let first = |least: u8, _| Field { block: 0, bit_start: 0, bit_count: least.into() };
    [any_map(noise, chip), map_of(chip, last), map_of(chip, first), any_map(noise, chip)]
}
