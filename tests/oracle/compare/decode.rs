//! ESP32 line calibration: decoding.
use oracle::codes::Codes;
use oracle::dumps::Builder;
use oracle::noise::Noise;
use oracle::plain::dump_and_map;
use oracle::rules::MapChip;
use oracle::{answers, dumps};

use crate::fuses::{Fuses, whole};
use crate::input::Input;
use crate::library::Library;
use crate::records::our_record;
use crate::strewn::{good_units_and_attens, strewn, units_and_attens};
use crate::tally::{Compared, Tally, told};
use crate::told::Decoded;

pub fn decode(library: &Library, tally: &mut Tally, fuses: Fuses, map: &[u8], (unit, atten): (u8, u8)) -> Compared {
    let input = || Input::default().number("unit", unit).number("attenuation", atten).fuses(fuses).map(map);
    let Fuses { dump, lengths } = fuses;
    let ours = (library.decode)(dump, lengths, map, unit, atten);
    let wanted = || answers::decode(dump, lengths, map, unit, atten).map(|record| Decoded::from(our_record(record)));
    tally.same("decode", input, ours, || told(wanted()))
}

/// Codes, each in a word of its own.
fn plainly(library: &Library, tally: &mut Tally, codes: Codes, at: (u8, u8)) -> Compared {
    let (dump, map) = dump_and_map(MapChip::Esp32, &codes.bits());
    decode(library, tally, whole(&dump), &map, at)
}

/// Codes in fields anywhere on noise.
fn scattered(library: &Library, tally: &mut Tally, noise: &mut Noise, codes: Codes, at: (u8, u8)) -> Compared {
    let mut dump = Builder::new(noise.dump());
    let map = codes.place(noise, &mut dump);
    decode(library, tally, whole(&dump.dump), &map, at)
}

/// Codes that ask for Vref: the reserve bit is 0, or one two-point code is, or all that.
fn asking_for_vref(vref: u32) -> [Codes; 6] {
    let two_point = Codes { vref, reserve: 1, low: [1; 2], high: [1; 2] };
    [
        Codes { vref, reserve: 0, low: [0; 2], high: [0; 2] },
        Codes { reserve: 0, ..two_point },
        Codes { low: [0, 1], ..two_point },
        Codes { low: [1, 0], ..two_point },
        Codes { high: [0, 1], ..two_point },
        Codes { high: [1, 0], ..two_point },
    ]
}

/// Every Vref code, unit and attenuation: on plain dumps, and on noise with the fields anywhere.
pub fn vref(library: &Library, tally: &mut Tally, noise: &mut Noise) -> Compared {
    for vref in 0..32 {
        for codes in asking_for_vref(vref) {
            units_and_attens().try_for_each(|at| plainly(library, tally, codes, at))?;
        }
    }
    for vref in 0..32 {
        for at in good_units_and_attens() {
            for _ in 0..100 {
                let codes = Codes::any(noise, 0).with_vref(vref);
                scattered(library, tally, noise, codes, at)?;
            }
        }
    }
    Ok(())
}

/// Every low code with every high one.
pub fn pairs() -> impl Iterator<Item = (u32, u32)> {
    (0..128).flat_map(|low| (0..512).map(move |high| (low, high)))
}

/// Every pair of two-point codes, unit and attenuation on plain dumps, and one unit and attenuation of each pair on noise. The other
/// unit has codes of its own.
pub fn two_point(library: &Library, tally: &mut Tally, noise: &mut Noise) -> Compared {
    for (low, high) in pairs() {
        for (unit, atten) in good_units_and_attens() {
            let codes = Codes::any(noise, 1).with(unit, low, high);
            plainly(library, tally, codes, (unit, atten))?;
        }
        let (unit, atten) = (noise.below(2) as u8, noise.below(4) as u8);
        let codes = Codes::any(noise, 1).with(unit, low, high);
        scattered(library, tally, noise, codes, (unit, atten))?;
    }
    Ok(())
}

/// Any codes under any map, with faults.
pub fn refused(library: &Library, tally: &mut Tally, noise: &mut Noise) -> Compared {
    for round in 0..1_000_000 {
        let dump = if round % 8 == 0 { dumps::ONES } else { noise.dump() };
        let strewn = strewn(noise, MapChip::Esp32, &dump);
        decode(library, tally, strewn.fuses(), &strewn.map, strewn.at)?;
    }
    Ok(())
}
