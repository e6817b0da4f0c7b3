//! The S2: readings, versions, codes, millivolts, flash encryption.
use oracle::dumps::Builder;
use oracle::fields::Field;
use oracle::noise::Noise;
use oracle::plain::record;
use oracle::rules::MapChip;
use oracle::{Dump, answers, dumps};

use crate::fields::NO_DUMP;
use crate::fuses::{Fuses, whole};
use crate::input::Input;
use crate::library::Library;
use crate::strewn::{good_units_and_attens, strewn, units_and_attens};
use crate::tally::{Compared, Tally, told};
use crate::told::Told;

/// The readings of a parameter, with the eFuse and without.
type Parameter = (fn(&[u32], &[u8], u8, u8, u8) -> Told<i32>, fn(u8, u8, u8) -> Told<i32>);

/// In the order of the crate's parameters.
fn parameters(library: &Library) -> [Parameter; 3] {
    [
        (library.s2_reading_vlow, library.s2_skipped_vlow),
        (library.s2_reading_vhigh, library.s2_skipped_vhigh),
        (library.s2_reading_vinit, library.s2_skipped_vinit),
    ]
}

const READING: [&str; 3] = ["s2_reading_vlow", "s2_reading_vhigh", "s2_reading_vinit"];
const SKIPPED: [&str; 3] = ["s2_skipped_vlow", "s2_skipped_vhigh", "s2_skipped_vinit"];

/// A version, unit and attenuation.
pub type Asked = (u8, u8, u8);

fn input((version, unit, atten): Asked) -> Input {
    Input::default().number("version", version).number("unit", unit).number("attenuation", atten)
}

/// The reading of a parameter.
pub fn reading_of(library: &Library, tally: &mut Tally, fuses: Fuses, asked: Asked, param: u8) -> Compared {
    let Fuses { dump, lengths } = fuses;
    let (version, unit, atten) = asked;
    let (ours, _) = parameters(library)[usize::from(param)];
    let wanted = || told(answers::s2_reading(dump, lengths, version, unit, atten, param));
    let input = || input(asked).fuses(fuses);
    tally.same(READING[usize::from(param)], input, ours(dump, lengths, version, unit, atten), wanted)
}

/// The readings of all parameters.
pub fn reading(library: &Library, tally: &mut Tally, fuses: Fuses, asked: Asked) -> Compared {
    (0..3).try_for_each(|param| reading_of(library, tally, fuses, asked, param))
}

pub fn skipped(library: &Library, tally: &mut Tally, asked: Asked) -> Compared {
    let (version, unit, atten) = asked;
    for (param, (_, ours)) in (0..).zip(parameters(library)) {
        let wanted = || told(answers::s2_skipped(version, unit, atten, param));
        tally.same(SKIPPED[usize::from(param)], || input(asked), ours(version, unit, atten), wanted)?;
    }
    Ok(())
}

/// The 16 readings by a version and unit, on both versions that read something.
pub fn paired() -> impl Iterator<Item = Asked> {
    [1, 2].into_iter().flat_map(|version| good_units_and_attens().map(move |(unit, atten)| (version, unit, atten)))
}

/// Every version, unit and attenuation, good or not.
pub fn every() -> impl Iterator<Item = Asked> {
    (0..=255).flat_map(|version| units_and_attens().map(move |(unit, atten)| (version, unit, atten)))
}

/// The calibration's bits of block 2: a field has at most 10 of them.
const FIRST_BIT: u16 = 144;
const FIELD: u16 = 10;

/// Every code of every field: all values of any ten bits in a row, on a block that is zero otherwise.
fn every_code(library: &Library, tally: &mut Tally) -> Compared {
    for bit_start in FIRST_BIT..=256 - FIELD {
        // A value whose lowest bit is 0 stands at the next start too.
        for value in (1..1 << FIELD).step_by(if bit_start == 256 - FIELD { 1 } else { 2 }) {
            let mut dump = Builder::new(dumps::ZEROS);
            dump.write(Field { block: 2, bit_start, bit_count: FIELD }, value);
            paired().try_for_each(|asked| reading(library, tally, whole(&dump.dump), asked))?;
        }
    }
    Ok(())
}

pub fn readings(library: &Library, tally: &mut Tally, noise: &mut Noise) -> Compared {
    every().try_for_each(|asked| skipped(library, tally, asked))?;
    every().try_for_each(|asked| reading(library, tally, whole(&dumps::ZEROS), asked))?;
    every_code(library, tally)?;
    every().try_for_each(|asked| reading(library, tally, whole(&dumps::ONES), asked))?;
    for _ in 0..20_000 {
        let dump = noise.dump();
        paired().try_for_each(|asked| reading(library, tally, whole(&dump), asked))?;
        let words = noise.pick(&NO_DUMP);
        let asked = (noise.byte(), noise.below(3) as u8, noise.below(5) as u8);
        reading(library, tally, whole(&dumps::lent(&dump, words)), asked)?;
    }
    Ok(())
}

fn map_input(fuses: Fuses, map: &[u8]) -> Input {
    Input::default().fuses(fuses).map(map)
}

pub fn version(library: &Library, tally: &mut Tally, fuses: Fuses, map: &[u8]) -> Compared {
    let Fuses { dump, lengths } = fuses;
    let wanted = || told(answers::s2_version(dump, lengths, map));
    tally.same("s2_version", || map_input(fuses, map), (library.s2_version)(dump, lengths, map), wanted)
}

pub fn flash_encryption(library: &Library, tally: &mut Tally, fuses: Fuses, map: &[u8]) -> Compared {
    let Fuses { dump, lengths } = fuses;
    let wanted = || told(answers::s2_flash_encryption(dump, lengths, map).map(u8::from));
    tally.same("s2_flash_encryption", || map_input(fuses, map), (library.s2_flash_encryption)(dump, lengths, map), wanted)
}

pub fn init_code(library: &Library, tally: &mut Tally, fuses: Fuses, map: &[u8], (unit, atten): (u8, u8)) -> Compared {
    let Fuses { dump, lengths } = fuses;
    let input = || map_input(fuses, map).number("unit", unit).number("attenuation", atten);
    let wanted = || told(answers::s2_init_code(dump, lengths, map, unit, atten));
    tally.same("s2_init_code", input, (library.s2_init_code)(dump, lengths, map, unit, atten), wanted)
}

pub fn cal_code(library: &Library, tally: &mut Tally, fuses: Fuses, map: &[u8], (unit, atten): (u8, u8)) -> Compared {
    let Fuses { dump, lengths } = fuses;
    let input = || map_input(fuses, map).number("unit", unit).number("attenuation", atten);
    let wanted = || told(answers::s2_cal_code(dump, lengths, map, unit, atten));
    tally.same("s2_cal_code", input, (library.s2_cal_code)(dump, lengths, map, unit, atten), wanted)
}

pub fn cal_mv(library: &Library, tally: &mut Tally, (unit, atten): (u8, u8)) -> Compared {
    let input = || Input::default().number("unit", unit).number("attenuation", atten);
    tally.same("s2_cal_mv", input, (library.s2_cal_mv)(unit, atten), || told(answers::s2_cal_mv(unit, atten)))
}

/// Every call that a map's fields answer.
pub fn calls(library: &Library, tally: &mut Tally, fuses: Fuses, map: &[u8], at: (u8, u8)) -> Compared {
    version(library, tally, fuses, map)?;
    flash_encryption(library, tally, fuses, map)?;
    init_code(library, tally, fuses, map, at)?;
    cal_code(library, tally, fuses, map, at)
}

/// A map and a dump whose version and crypt count hold a value, each as wide as asked, anywhere but in block 2.
pub fn holding(noise: &mut Noise, value: u32, width: u32) -> (Dump, Vec<u8>) {
    let mut dump = Builder::new(noise.dump()).keep(2);
    let mut field = |id| record(id, dump.holding(noise, value, width));
    let map = [field(7), field(8)].concat();
    (dump.dump, map)
}

/// Every version and crypt count of every width; the codes on many blocks; every unit's and attenuation's millivolts.
pub fn codes(library: &Library, tally: &mut Tally, noise: &mut Noise) -> Compared {
    let mut every_byte = (0..=255).flat_map(|unit| (0..=255).map(move |atten| (unit, atten)));
    every_byte.try_for_each(|at| cal_mv(library, tally, at))?;
    for (width, value) in (1..=8).flat_map(|width| (0..1 << width).map(move |value| (width, value))) {
        for at in good_units_and_attens() {
            let (dump, map) = holding(noise, value, width);
            calls(library, tally, whole(&dump), &map, at)?;
        }
    }
    for _ in 0..20_000 {
        let width = noise.within(2, 8);
        let (dump, map) = holding(noise, 2, width);
        good_units_and_attens().try_for_each(|at| calls(library, tally, whole(&dump), &map, at))?;
    }
    Ok(())
}

/// Any fields under any map, with faults.
pub fn refused(library: &Library, tally: &mut Tally, noise: &mut Noise) -> Compared {
    for _ in 0..400_000 {
        let dump = noise.dump();
        let strewn = strewn(noise, MapChip::S2, &dump);
        calls(library, tally, strewn.fuses(), &strewn.map, strewn.at)?;
    }
    Ok(())
}
