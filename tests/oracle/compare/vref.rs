//! ESP32 line calibration: records by Vref, and every way in which another record is near one, in each call that takes a record.
use oracle::line::Record;
use oracle::noise::Noise;
use oracle::records::{beside, by_vref, exchanged, keys};
use suongkivat::{Attenuation, LineRecord, Source, Unit};

use crate::convert::convert_one;
use crate::fill::stretch;
use crate::library::Library;
use crate::records::{self, check, crates, our_record};
use crate::tally::{Compared, Tally};

/// Counts of the line, the blend and the lookup, and past the last: 10 comes before 8.
const COUNTS: [u16; 6] = [0, 2879, 2912, 4095, 4096, 65535];

/// First counts and lengths of stretches, the last ones past the table's end: 10 comes before 11.
const STRETCHES: [(u16, usize); 5] = [(0, 0), (2879, 3), (4095, 1), (4095, 2), (65535, 2)];

/// Sources, and bytes that name none.
const SOURCES: [Source; 4] = [Source::VREF, Source::TWO_POINT, Source(2), Source(255)];

/// A record in each call that takes one.
fn in_calls(library: &Library, tally: &mut Tally, record: LineRecord) -> Compared {
    check(library, tally, record)?;
    COUNTS.into_iter().try_for_each(|raw| convert_one(library, tally, record, raw))?;
    STRETCHES.into_iter().try_for_each(|(first, n)| stretch(library, tally, record, first, n))
}

/// The record, with a line beside its own, and with its line under another unit, attenuation and Vref.
fn near(record: LineRecord) -> impl Iterator<Item = LineRecord> {
    let own = crates(record);
    let others = beside(own).into_iter().chain(exchanged(own));
    [own].into_iter().chain(others).map(our_record)
}

/// Every record by Vref and those near it, from each source.
fn all_near(library: &Library, tally: &mut Tally) -> Compared {
    for record in records::by_vref().flat_map(near) {
        SOURCES.into_iter().try_for_each(|source| in_calls(library, tally, LineRecord { source, ..record }))?;
    }
    Ok(())
}

/// Records by Vref of each unit and attenuation, at both ends and in the middle.
fn chosen() -> impl Iterator<Item = Record> {
    [995, 1100, 1205].into_iter().flat_map(|vref| keys().map(move |(unit, atten)| by_vref(vref, unit, atten)))
}

/// Chosen records with every a and with every b.
fn every_line(library: &Library, tally: &mut Tally) -> Compared {
    for record in chosen() {
        (0..=131072).try_for_each(|coeff_a| check(library, tally, our_record(Record { coeff_a, ..record })))?;
        (0..=4096).try_for_each(|coeff_b| check(library, tally, our_record(Record { coeff_b, ..record })))?;
    }
    Ok(())
}

/// Chosen records with every Vref, and with every byte as the unit, the attenuation and the source.
fn every_part(library: &Library, tally: &mut Tally) -> Compared {
    for record in chosen().map(our_record) {
        (0..=65535).try_for_each(|vref| check(library, tally, LineRecord { vref, ..record }))?;
        for byte in 0..=255 {
            in_calls(library, tally, LineRecord { unit: Unit(byte), ..record })?;
            in_calls(library, tally, LineRecord { attenuation: Attenuation(byte), ..record })?;
            in_calls(library, tally, LineRecord { source: Source(byte), ..record })?;
        }
    }
    Ok(())
}

/// An attenuation and a source, every byte with every byte, on a record by Vref of each unit.
fn every_two_bytes(library: &Library, tally: &mut Tally) -> Compared {
    for record in [by_vref(1100, 0, 3), by_vref(1001, 1, 0)].map(our_record) {
        for (atten, source) in (0..=255).flat_map(|atten| (0..=255).map(move |source| (atten, source))) {
            check(library, tally, LineRecord { attenuation: Attenuation(atten), source: Source(source), ..record })?;
        }
    }
    Ok(())
}

pub fn records(library: &Library, tally: &mut Tally, _noise: &mut Noise) -> Compared {
    all_near(library, tally)?;
    every_line(library, tally)?;
    every_part(library, tally)?;
    every_two_bytes(library, tally)
}
