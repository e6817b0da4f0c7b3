//! Field maps: every refusal of a map, from the call that checks it and from every other that takes one. The crate has no maps:
//! document 01's rules answer.
use oracle::maps::{good_of, of_length, spoil};
use oracle::noise::Noise;
use oracle::rules::{EIGHTS, Lengths, MapChip, RECORD};
use oracle::{answers, lengths};
use suongkivat::{Count, Sample};

use crate::fuses::{Fuses, whole};
use crate::input::Input;
use crate::library::Library;
use crate::strewn::good_units_and_attens;
use crate::tally::{Compared, Tally, outcome};
use crate::{c6, decode, logs, s2};

/// The chips that have maps, with their numbers.
pub const CHIPS: [(u8, MapChip); 3] = [(0, MapChip::Esp32), (1, MapChip::S2), (4, MapChip::C6)];

pub fn chip_of(number: u8) -> Option<MapChip> {
    CHIPS.into_iter().find(|(other, _)| *other == number).map(|(_, chip)| chip)
}

pub fn check(library: &Library, tally: &mut Tally, chip: u8, lengths: &[u8], map: &[u8]) -> Compared {
    let input = || Input::default().number("chip", chip).lengths(lengths).map(map);
    let wanted = || outcome(&answers::check_map(chip_of(chip), lengths, map));
    tally.same("check_map", input, (library.check_map)(chip, lengths, map), wanted)
}

/// A good map with every byte set to everything.
fn every_byte(good: &[u8], mut ask: impl FnMut(&[u8]) -> Compared) -> Compared {
    for place in 0..good.len() {
        let mut map = good.to_vec();
        for byte in 0..=255 {
            map[place] = byte;
            ask(&map)?;
        }
    }
    Ok(())
}

/// A good map for each chip number, at every length, with every byte set to everything; and with two faults, in blocks of any length too.
fn around(library: &Library, tally: &mut Tally, noise: &mut Noise, chip: u8, good: &[u8]) -> Compared {
    let mut in_whole_blocks = |chip: u8, map: &[u8]| check(library, tally, chip, &EIGHTS, map);
    (0..=255).try_for_each(|chip| in_whole_blocks(chip, good))?;
    (0..good.len() + 2 * RECORD + 1).try_for_each(|length| in_whole_blocks(chip, &of_length(good.to_vec(), length)))?;
    every_byte(good, |map| in_whole_blocks(chip, map))?;
    for _ in 0..100_000 {
        let mut map = good.to_vec();
        for _ in 0..2 {
            let k = noise.below((good.len() / RECORD) as u32) as usize;
            spoil(noise, &mut map[RECORD * k..][..RECORD]);
        }
        check(library, tally, chip, &any_list(noise, good), &map)?;
    }
    Ok(())
}

/// A good list: eleven eights, the least lengths that a good map fits, or any.
pub fn any_list(noise: &mut Noise, good: &[u8]) -> Lengths {
    match noise.below(4) {
        0 => lengths::any(noise),
        1 => lengths::least(good),
        _ => EIGHTS,
    }
}

pub fn maps(library: &Library, tally: &mut Tally, noise: &mut Noise) -> Compared {
    for (number, chip) in CHIPS {
        for good in good_of(noise, chip) {
            around(library, tally, noise, number, &good)?;
        }
    }
    Ok(())
}

/// Every call that takes a chip's map, of a unit and an attenuation.
pub fn decoding(
    library: &Library,
    tally: &mut Tally,
    noise: &mut Noise,
    chip: MapChip,
    fuses: Fuses,
    map: &[u8],
    at: (u8, u8),
) -> Compared {
    match chip {
        MapChip::Esp32 => {
            decode::decode(library, tally, fuses, map, at)?;
            [0, 1].into_iter().try_for_each(|board| {
                let sample = Sample { raw: Count(noise.below(4096) as u16), board, last: 4 * at.0 + at.1 };
                logs::sample(library, tally, ((fuses.dump, fuses.dump, fuses.lengths), map), sample)
            })
        }
        MapChip::S2 => s2::calls(library, tally, fuses, map, at),
        MapChip::C6 => c6::calls(library, tally, fuses, map, c6::any_minor_and_channel(noise), at),
    }
}

/// The same at every unit and attenuation.
pub fn decodings(library: &Library, tally: &mut Tally, noise: &mut Noise, chip: MapChip, fuses: Fuses, map: &[u8]) -> Compared {
    good_units_and_attens().try_for_each(|at| decoding(library, tally, noise, chip, fuses, map, at))
}

/// Good maps with every byte set to everything, in every call that takes one: none may lose the record on its way.
pub fn in_decoding(library: &Library, tally: &mut Tally, noise: &mut Noise) -> Compared {
    for (_, chip) in CHIPS {
        for good in good_of(noise, chip) {
            let dump = noise.dump();
            every_byte(&good, |map| decodings(library, tally, noise, chip, whole(&dump), map))?;
        }
    }
    Ok(())
}
