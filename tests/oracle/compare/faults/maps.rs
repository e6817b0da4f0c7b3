//! Faults of maps.
use oracle::rules::{RECORD, Refusal};

use super::otherwise;
use crate::library::PROVED;
use crate::told::Outcome;

/// The map with a change in each of its records.
fn changed(map: &[u8], change: impl Fn(&mut [u8])) -> Vec<u8> {
    let mut map = map.to_vec();
    map.chunks_mut(RECORD).for_each(change);
    map
}

pub fn zero_byte_passed_over(chip: u8, lengths: &[u8], map: &[u8]) -> Outcome {
    (PROVED.check_map)(chip, lengths, &changed(map, |record| record.iter_mut().skip(7).for_each(|byte| *byte = 0)))
}

pub fn count_before_place(chip: u8, lengths: &[u8], map: &[u8]) -> Outcome {
    let told = (PROVED.check_map)(chip, lengths, map);
    let [number, record, _] = told.refused.in_c;
    if number != 5 {
        return told;
    }
    let started_at_0 = (PROVED.check_map)(chip, lengths, &changed(map, |record| record[2..4].fill(0)));
    if started_at_0.refused.in_c == [6, record, 0] { started_at_0 } else { told }
}

pub fn last_record_passed_over(chip: u8, lengths: &[u8], map: &[u8]) -> Outcome {
    let mut map = map.to_vec();
    if chip == 0 && map.len() == 48 {
        map[40..].copy_from_slice(&[6, 0, 0, 0, 9, 0, 0, 0]);
    }
    (PROVED.check_map)(chip, lengths, &map)
}

pub fn map_of_c3(chip: u8, lengths: &[u8], map: &[u8]) -> Outcome {
    (PROVED.check_map)(if chip == 2 { 1 } else { chip }, lengths, map)
}

/// Another refusal in place of one that tells a record, by that record's bytes.
fn told_otherwise(chip: u8, lengths: &[u8], map: &[u8], other: impl FnOnce(Refusal, &[u8]) -> Refusal) -> Outcome {
    let of_record = |refusal: Refusal| match refusal.record {
        Some(k) => other(refusal, &map[RECORD * usize::from(k)..][..RECORD]),
        None => refusal,
    };
    Outcome { refused: otherwise((PROVED.check_map)(chip, lengths, map).refused, of_record) }
}

/// The places of a record's bytes that should be zero and aren't.
fn stray(record: &[u8]) -> impl Iterator<Item = u8> {
    (5..8).filter(|at| record[usize::from(*at)] != 0)
}

pub fn next_record(chip: u8, lengths: &[u8], map: &[u8]) -> Outcome {
    told_otherwise(chip, lengths, map, |refusal, _| Refusal { record: refusal.record.map(|k| k + 1), ..refusal })
}

pub fn last_stray_byte(chip: u8, lengths: &[u8], map: &[u8]) -> Outcome {
    told_otherwise(chip, lengths, map, |refusal, record| Refusal { place: refusal.place.and(stray(record).last()), ..refusal })
}

pub fn byte_before_id(chip: u8, lengths: &[u8], map: &[u8]) -> Outcome {
    told_otherwise(chip, lengths, map, |refusal, record| match stray(record).next() {
        Some(place) => Refusal { number: 18, place: Some(place), ..refusal },
        None => refusal,
    })
}

pub fn place_with_id(chip: u8, lengths: &[u8], map: &[u8]) -> Outcome {
    told_otherwise(chip, lengths, map, |refusal, record| Refusal { place: stray(record).next(), ..refusal })
}

/// The record that the map ends in.
pub fn record_with_length(chip: u8, lengths: &[u8], map: &[u8]) -> Outcome {
    let ended = |refusal: Refusal| match refusal.number {
        2 => Refusal { record: Some((map.len() / RECORD) as u8), ..refusal },
        _ => refusal,
    };
    Outcome { refused: otherwise((PROVED.check_map)(chip, lengths, map).refused, ended) }
}
