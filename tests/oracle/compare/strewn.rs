//! Inputs with faults strewn in: the dump's length, the list of block lengths, the map's length, its records, unit and attenuation;
//! often two at once, so that the order of refusals shows.
use oracle::maps::{any_map, of_length, spoil};
use oracle::noise::Noise;
use oracle::plain::dump_and_map;
use oracle::rules::{MapChip, RECORD};
use oracle::{Dump, dumps, lengths};

use crate::fields::NO_DUMP;
use crate::fuses::Fuses;
use crate::maps::any_list;

/// Units and attenuations, good ones first, then the first that there isn't and the last number.
const UNITS: [u8; 4] = [0, 1, 2, 255];
const ATTENS: [u8; 6] = [0, 1, 2, 3, 4, 255];

/// Units and attenuations, each with each.
pub fn units_and_attens() -> impl Iterator<Item = (u8, u8)> {
    UNITS.into_iter().flat_map(|unit| ATTENS.into_iter().map(move |atten| (unit, atten)))
}

/// Good units and attenuations, each with each.
pub fn good_units_and_attens() -> impl Iterator<Item = (u8, u8)> {
    units_and_attens().filter(|(unit, atten)| *unit <= 1 && *atten <= 3)
}

/// A good unit and attenuation.
pub fn any_unit_and_atten(noise: &mut Noise) -> (u8, u8) {
    (noise.below(2) as u8, noise.below(4) as u8)
}

/// What a call with a map is handed: the last is a unit and an attenuation.
pub struct Strewn {
    pub dump: Vec<u32>,
    pub lengths: Vec<u8>,
    pub map: Vec<u8>,
    pub at: (u8, u8),
}

impl Strewn {
    pub fn fuses(&self) -> Fuses<'_> {
        Fuses { dump: &self.dump, lengths: &self.lengths }
    }
}

/// A list that is refused.
pub fn bad_list(noise: &mut Noise) -> Vec<u8> {
    let bad = lengths::bad(lengths::any(noise));
    bad[noise.below(bad.len() as u32) as usize].clone()
}

/// A dump under a good map with fields anywhere, a good list of block lengths, a good unit and attenuation; then up to three faults.
pub fn strewn(noise: &mut Noise, chip: MapChip, dump: &Dump) -> Strewn {
    let mut map = any_map(noise, chip);
    let mut lengths = any_list(noise, &map).to_vec();
    let whole = map.len();
    let (mut words, mut length) = (88, whole);
    let (mut unit, mut atten) = any_unit_and_atten(noise);
    for _ in 0..noise.below(4) {
        match noise.below(8) {
            0 => words = noise.pick(&NO_DUMP),
            1 => unit = noise.pick(&UNITS),
            2 => atten = noise.pick(&ATTENS),
            3 => length = noise.pick(&[0, 1, RECORD, whole - 1, whole + 1, whole + RECORD]),
            4 => lengths = bad_list(noise),
            _ => {
                let k = noise.below((whole / RECORD) as u32) as usize;
                spoil(noise, &mut map[RECORD * k..][..RECORD]);
            }
        }
    }
    Strewn { dump: dumps::lent(dump, words), lengths, map: of_length(map, length), at: (unit, atten) }
}

/// The plain map of a chip: a word of block 0 or 1 for each field.
pub fn plain_map(chip: MapChip) -> Vec<u8> {
    dump_and_map(chip, &[]).1
}
