//! Line records that no decoding gives, and every record by Vref.
use crate::codes::{ATTENS, UNITS};
use crate::line::{self, Record, TWO_POINT, VREF};
use crate::noise::Noise;

/// The Vrefs of a record; codes give every seventh of them.
pub const VREFS: std::ops::RangeInclusive<u32> = 995..=1205;

/// Units and attenuations, each with each.
pub fn keys() -> impl Iterator<Item = (u8, u8)> {
    UNITS.into_iter().flat_map(|unit| ATTENS.map(|atten| (unit, atten)))
}

/// Records by two points made by hand, up to the ends of their ranges, with the lookup and without.
pub fn made(noise: &mut Noise) -> Vec<Record> {
    let mut records = Vec::new();
    for coeff_a in [0, 1, 32768, 65535, 65536, 131070, 131071] {
        for coeff_b in [0, 1, 4095] {
            for atten in [noise.pick(&[0, 1, 2]), 3] {
                let vref = noise.pick(&[995, 996, 999, 1000, 1001, 1100, 1199, 1200, 1201, 1204, 1205]);
                records.push(Record { coeff_a, coeff_b, vref, unit: noise.pick(&UNITS), atten, source: TWO_POINT });
            }
        }
    }
    records
}

/// The record of a Vref, a unit and an attenuation.
pub fn by_vref(vref: u32, unit: u8, atten: u8) -> Record {
    let (coeff_a, coeff_b) = line::by_vref(unit, atten, vref);
    Record { coeff_a, coeff_b, vref, unit, atten, source: VREF }
}

/// Every record by Vref.
pub fn all_by_vref() -> Vec<Record> {
    VREFS.flat_map(|vref| keys().map(move |(unit, atten)| by_vref(vref, unit, atten))).collect()
}

/// A record by Vref with a line beside its own: a or b one more or one less.
pub fn beside(record: Record) -> [Record; 4] {
    let Record { coeff_a, coeff_b, .. } = record;
    [
        Record { coeff_a: coeff_a + 1, ..record },
        Record { coeff_a: coeff_a - 1, ..record },
        Record { coeff_b: coeff_b + 1, ..record },
        Record { coeff_b: coeff_b - 1, ..record },
    ]
}

/// A record by Vref with its own line under another unit, another attenuation, or a Vref beside its own.
pub fn exchanged(record: Record) -> Vec<Record> {
    let mut records = vec![Record { unit: 1 - record.unit, ..record }];
    records.extend(ATTENS.into_iter().filter(|atten| *atten != record.atten).map(|atten| Record { atten, ..record }));
    records.extend([record.vref - 1, record.vref + 1].map(|vref| Record { vref, ..record }));
    records
}

/// A good record with one part outside its range: one by two points at the ends of its ranges, and one by Vref with its own line, or
/// with that of a Vref outside.
pub fn outside() -> Vec<Record> {
    let two_point = Record { coeff_a: 131071, coeff_b: 4095, vref: 1205, unit: 1, atten: 3, source: TWO_POINT };
    let mut records = Vec::new();
    records.extend([131072, u32::MAX].map(|coeff_a| Record { coeff_a, ..two_point }));
    records.extend([4096, u32::MAX].map(|coeff_b| Record { coeff_b, ..two_point }));
    records.extend([0, 994, 1206, 65536 + 1100, u32::MAX].map(|vref| Record { vref, ..two_point }));
    records.extend([994, 1206].map(|vref| by_vref(vref, 1, 3)));
    for good in [two_point, by_vref(1100, 1, 3)] {
        records.extend([2, 255].map(|unit| Record { unit, ..good }));
        records.extend([4, 255].map(|atten| Record { atten, ..good }));
        records.extend([2, 255].map(|source| Record { source, ..good }));
    }
    records
}
