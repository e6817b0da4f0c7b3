//! ESP32 line calibration: the records that are converted by, and checking a record.
use oracle::codes::Codes;
use oracle::line::Record;
use oracle::noise::Noise;
use oracle::{records, rules};
use suongkivat::{Attenuation, LineRecord, Source, Unit};

use crate::input::Input;
use crate::library::Library;
use crate::tally::{Compared, Tally, outcome};
use crate::told::Decoded;

/// How many records of two-point codes, and how many made by hand, stand beside every record by Vref.
const TWO_POINT: usize = 10_000;
const BY_HAND: usize = 10_000;

pub fn input(record: LineRecord) -> Input {
    let LineRecord { coeff_a, coeff_b, vref, unit, attenuation, source } = record;
    let input = Input::default().number("a", coeff_a).number("b", coeff_b).number("vref", vref);
    input.number("unit", unit.0).number("attenuation", attenuation.0).number("source", source.0)
}

pub fn our_record(record: Record) -> LineRecord {
    let Record { coeff_a, coeff_b, vref, unit, atten, source } = record;
    LineRecord { coeff_a, coeff_b, vref, unit: Unit(unit), attenuation: Attenuation(atten), source: Source(source) }
}

/// The crate's record.
pub fn crates(record: LineRecord) -> Record {
    let LineRecord { coeff_a, coeff_b, vref, unit, attenuation, source } = record;
    Record { coeff_a, coeff_b, vref, unit: unit.0, atten: attenuation.0, source: source.0 }
}

/// What a decoding has to tell of a record.
impl From<LineRecord> for Decoded {
    fn from(record: LineRecord) -> Self {
        let [in_c @ .., _] = crates(record).bytes();
        Self { in_rust: record, in_c }
    }
}

/// A record by two points anywhere inside its ranges.
fn made_by_hand(noise: &mut Noise) -> LineRecord {
    LineRecord {
        coeff_a: noise.within(0, 131071),
        coeff_b: noise.within(0, 4095),
        vref: noise.within(995, 1205),
        unit: Unit(noise.below(2) as u8),
        attenuation: Attenuation(noise.pick(&[0, 1, 2, 3, 3, 3])),
        source: Source::TWO_POINT,
    }
}

/// Every record by Vref.
pub fn by_vref() -> impl Iterator<Item = LineRecord> {
    records::all_by_vref().into_iter().map(our_record)
}

/// Every record by Vref, and records of two-point codes and made by hand.
pub fn all(noise: &mut Noise) -> Vec<LineRecord> {
    let mut all: Vec<LineRecord> = by_vref().collect();
    let enough = all.len() + TWO_POINT;
    while all.len() < enough {
        let (unit, atten) = (noise.below(2) as u8, noise.pick(&[0, 1, 2, 3, 3, 3]));
        all.extend(Codes::any(noise, 1).decoded(unit, atten).ok().map(our_record));
    }
    all.extend(records::made(noise).into_iter().map(our_record));
    all.extend((0..BY_HAND).map(|_| made_by_hand(noise)));
    all
}

/// Records with one part outside its range.
pub fn outside() -> impl Iterator<Item = LineRecord> {
    records::outside().into_iter().map(our_record)
}

pub fn check(library: &Library, tally: &mut Tally, record: LineRecord) -> Compared {
    let wanted = || outcome(&rules::record(crates(record)));
    tally.same("check_record", || input(record), (library.check_record)(record), wanted)
}

/// Units, attenuations and sources, each with each.
fn bytes() -> impl Iterator<Item = (Unit, Attenuation, Source)> {
    let units = [0, 1, 2, 128, 255].into_iter().map(Unit);
    let attens = units.flat_map(|unit| [0, 2, 3, 4, 255].map(|atten| (unit, Attenuation(atten))));
    attens.flat_map(|(unit, atten)| [0, 1, 2, 3, 255].map(|source| (unit, atten, Source(source))))
}

/// Every record at and beside the ends of its ranges, part by part and together, and records anywhere inside.
pub fn records(library: &Library, tally: &mut Tally, noise: &mut Noise) -> Compared {
    for coeff_a in [0, 1, 65536, 131070, 131071, 131072, 131073, 1 << 31, u32::MAX] {
        for coeff_b in [0, 1, 4094, 4095, 4096, 4097, 65536, u32::MAX] {
            for vref in [0, 1, 994, 995, 996, 1100, 1204, 1205, 1206, 65536 + 1100, u32::MAX] {
                for (unit, attenuation, source) in bytes() {
                    check(library, tally, LineRecord { coeff_a, coeff_b, vref, unit, attenuation, source })?;
                }
            }
        }
    }
    outside().try_for_each(|record| check(library, tally, record))?;
    (0..100_000).try_for_each(|_| check(library, tally, made_by_hand(noise)))
}
