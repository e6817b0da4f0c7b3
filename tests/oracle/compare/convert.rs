//! ESP32 line calibration: converting.
use oracle::answers;
use oracle::noise::Noise;
use suongkivat::LineRecord;

use crate::library::Library;
use crate::records;
use crate::tally::{Compared, Tally, told};

pub fn convert_one(library: &Library, tally: &mut Tally, record: LineRecord, raw: u16) -> Compared {
    let input = || records::input(record).number("raw", raw);
    tally.same("convert", input, (library.convert)(record, raw), || told(answers::convert(records::crates(record), raw)))
}

/// Every record at every count and at some past the last; one record at every number; records outside their ranges.
pub fn convert(library: &Library, tally: &mut Tally, noise: &mut Noise) -> Compared {
    let all = records::all(noise);
    for record in &all {
        (0..4096).try_for_each(|raw| convert_one(library, tally, *record, raw))?;
        [4096, 4097, 8192, 65535].into_iter().try_for_each(|raw| convert_one(library, tally, *record, raw))?;
    }
    (4096..=65535).try_for_each(|raw| convert_one(library, tally, all[0], raw))?;
    for record in records::outside() {
        (0..=65535).step_by(64).chain([2879, 4095, 65535]).try_for_each(|raw| convert_one(library, tally, record, raw))?;
    }
    Ok(())
}
