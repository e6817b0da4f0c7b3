//! ESP32 line calibration: converting and filling.
use oracle::codes::{Codes, UNITS};
use oracle::line::{Record, TWO_POINT};
use oracle::noise::Noise;
use oracle::rules::number;
use oracle::{answers, records};

use crate::list::List;

/// Records that decoding gives: Vref codes at the ends and between, and two-point.
fn decoded_records(noise: &mut Noise) -> Vec<Record> {
    let mut records = Vec::new();
    for vref in [0x00, 0x0F, 0x1F, 0x0E, 0x1E, 0x08, 0x18, 0x11] {
        for unit in UNITS {
            for atten in [3, 3, 0, 1, 2] {
                let reserve = noise.below(2);
                let codes = Codes::any(noise, reserve).with_vref(vref);
                records.extend(codes.decoded(unit, atten));
            }
        }
    }
    records
}

/// A record and a count.
type Case = (Record, u16);

/// Records at the counts where the answer changes its way, and at others that each record draws.
fn good_cases(noise: &mut Noise) -> Vec<Case> {
    let joints: Vec<u16> = (1..19).flat_map(|k| [0, 1, 2].map(|side| 2880 + 64 * k + side - 1)).collect();
    let turns = [0, 1, 2879, 2880, 2881, 2911, 2912, 2913, 2943, 2944, 2945, 4094, 4095, 4096, 65535];
    let mut records = decoded_records(noise);
    records.extend(records::made(noise));
    let mut cases = Vec::new();
    for record in records {
        cases.extend(turns.map(|raw| (record, raw)));
        cases.extend((0..6).map(|_| (record, noise.pick(&joints))));
        cases.extend((0..5).map(|_| (record, noise.below(4096) as u16)));
        cases.extend((0..3).map(|_| (record, noise.within(2880, 2944) as u16)));
        cases.push((record, noise.within(4096, 65535) as u16));
    }
    cases
}

/// Every record by Vref at a count, more often than not one where the lookup counts, and the lines beside its own, which are refused
/// with 10, at good counts and past the last.
fn vref_cases(noise: &mut Noise) -> Vec<Case> {
    let mut cases = Vec::new();
    for record in records::all_by_vref() {
        let (first, last) = noise.pick(&[(0, 4095), (2880, 2944), (2945, 4095)]);
        cases.push((record, noise.within(first, last) as u16));
        for beside in records::beside(record) {
            let count = noise.below(4096) as u16;
            cases.push((beside, noise.pick(&[count, count, 4096, 65535])));
        }
    }
    cases
}

/// Lines of Vref under another unit, attenuation and Vref, and records with a part outside its range, on both sides of the last count.
fn refused_cases() -> Vec<Case> {
    let ends = [995, 1100, 1205].into_iter();
    let keys = ends.flat_map(|vref| records::keys().map(move |(unit, atten)| records::by_vref(vref, unit, atten)));
    let mut cases: Vec<Case> = keys.flat_map(records::exchanged).map(|record| (record, 2912)).collect();
    for record in records::outside() {
        cases.extend([0, 2880, 4095, 4096].map(|raw| (record, raw)));
    }
    cases
}

pub fn convert() -> List {
    let mut list = List::new("line_cases", "convert", 24);
    let noise = &mut Noise::new(5);
    let mut cases = good_cases(noise);
    cases.extend(vref_cases(noise));
    cases.extend(refused_cases());
    for (record, raw) in cases {
        let answer = answers::convert(record, raw);
        list.put(&record.bytes()).u16(raw).u8(number(&answer)).u8(0).u16(answer.unwrap_or(0)).zeros(2);
    }
    list
}

/// Whole tables of 4,096 answers.
pub fn fill() -> List {
    let mut list = List::new("line_cases", "fill", 16 + 2 * 4096);
    let noise = &mut Noise::new(6);
    let mut records = Vec::new();
    for (vref, unit, atten, reserve) in [
        (0x00, 0, 3, 0),
        (0x0F, 0, 3, 0),
        (0x1F, 0, 3, 0),
        (0x00, 1, 3, 0),
        (0x0F, 1, 3, 0),
        (0x1F, 1, 3, 0),
        (0x15, 0, 3, 1),
        (0x05, 1, 3, 1),
        (0x00, 0, 0, 0),
        (0x07, 1, 1, 1),
        (0x1A, 0, 2, 1),
    ] {
        let codes = Codes::any(noise, reserve).with(unit, 5, 9).with_vref(vref);
        records.push(codes.decoded(unit, atten).expect("codes that decode"));
    }
    for (coeff_a, coeff_b, vref, unit, atten) in [
        (131071, 4095, 995, 0, 3),
        (131071, 4095, 1205, 1, 0),
        (0, 0, 1205, 1, 3),
        (0, 4095, 995, 0, 1),
        (1, 0, 1000, 1, 3),
        (65536, 0, 1200, 0, 3),
        (65535, 1, 1100, 0, 2),
        (98303, 2047, 1205, 0, 3),
        (32767, 300, 995, 1, 3),
    ] {
        records.push(Record { coeff_a, coeff_b, vref, unit, atten, source: TWO_POINT });
    }
    // Vrefs that no code gives.
    records.extend([(996, 0), (1204, 1)].map(|(vref, unit)| records::by_vref(vref, unit, 3)));
    for record in records {
        list.put(&record.bytes());
        for mv in answers::fill(record, 0, 4096).expect("a good record") {
            list.u16(mv);
        }
    }
    list
}

/// Stretches at the ends of the table and across the blend; the sum of what is written stands for it.
pub fn stretches() -> List {
    let mut list = List::new("line_cases", "stretches", 28);
    let noise = &mut Noise::new(7);
    let mut records = records::made(noise);
    records.extend(decoded_records(noise));
    let by_vref = records::all_by_vref();
    let mut one = |record: Record, first: u16, n: u16| {
        let answer = answers::fill(record, first, n.into());
        list.put(&record.bytes()).u16(first).u16(n).u8(number(&answer)).zeros(3);
        list.u32(answer.unwrap_or_default().into_iter().map(u32::from).sum());
    };
    let ends = [(0, 0), (0, 1), (0, 4096), (0, 4097), (1, 4095), (1, 4096), (4095, 1), (4095, 2), (4096, 0), (4096, 1)];
    let past = [(4097, 0), (65535, 0), (65535, 1), (65535, 4100), (61440, 4096), (2, 4100)];
    let blend = [(2879, 1), (2879, 3), (2880, 64), (2880, 65), (2943, 3), (2944, 1), (2945, 1), (2816, 200)];
    for (first, n) in ends.into_iter().chain(past).chain(blend) {
        (0..6).for_each(|_| one(noise.pick(&records), first, n));
        one(noise.pick(&records::outside()), first, n);
        let record = noise.pick(&by_vref);
        one(record, first, n);
        one(noise.pick(&records::beside(record)), first, n);
        one(noise.pick(&records::exchanged(record)), first, n);
    }
    for _ in 0..80 {
        let first = noise.below(4097);
        one(noise.pick(&records), first as u16, noise.below(4097 - first) as u16);
    }
    list
}
