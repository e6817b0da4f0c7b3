//! What a refusal tells: its number, on a map the first bad record, and the place of a byte that should be zero.
use std::error::Error;

use super::inputs::{c6_map, esp32_map, refused, s2_map, ONES, ZEROS};
use crate::raw::SkvRefusal;
use crate::*;

const UNIT: Unit = Unit::ADC1;
const DB: Attenuation = Attenuation::DB_11;
const SAMPLE: Sample = Sample { raw: Count(0), board: 1, last: 7 };
const RECORD: usize = 8;
const SESSION: Session = Session { field: &ZEROS, reference: &ONES, lengths: &EIGHTS };

/// A call that takes a map: its name, a good map, and what it and C tell of another in its place.
type OnMap = (&'static str, Vec<u8>, fn(&[u8]) -> Answer<()>, fn(&[u8]) -> SkvRefusal);

/// Every call that takes a map.
#[rustfmt::skip] // a call two lines, what it tells in Rust and what it tells in C
fn calls_on_a_map() -> Vec<OnMap> {
    let (esp32, s2, c6) = (esp32_map(), s2_map(), c6_map());
    vec![
        ("check_map of an ESP32", esp32.clone(), |map| check_map(Chip::ESP32, &EIGHTS, map),
            |map| raw::check_map(Chip::ESP32.0, &EIGHTS, map).refusal),
        ("check_map of an S2", s2.clone(), |map| check_map(Chip::S2, &EIGHTS, map),
            |map| raw::check_map(Chip::S2.0, &EIGHTS, map).refusal),
        ("check_map of a C6", c6.clone(), |map| check_map(Chip::C6, &EIGHTS, map),
            |map| raw::check_map(Chip::C6.0, &EIGHTS, map).refusal),
        ("decode", esp32.clone(), |map| LineRecord::decode(&ZEROS, &EIGHTS, map, UNIT, DB).map(|_| ()),
            |map| raw::decode(&ZEROS, &EIGHTS, map, UNIT.0, DB.0).refusal),
        ("a board's table", esp32.clone(), |map| Board { dump: &ZEROS, lengths: &EIGHTS, map }.table(UNIT, DB).map(|_| ()),
            |map| raw::decode(&ZEROS, &EIGHTS, map, UNIT.0, DB.0).refusal),
        ("sample", esp32, |map| SESSION.sample(map, SAMPLE).map(|_| ()),
            |map| raw::sample(SAMPLE, &ZEROS, &ONES, &EIGHTS, map).refusal),
        ("s2::version", s2.clone(), |map| s2::version(&ZEROS, &EIGHTS, map).map(|_| ()),
            |map| raw::s2_version(&ZEROS, &EIGHTS, map).refusal),
        ("s2::flash_encryption", s2.clone(), |map| s2::flash_encryption(&ZEROS, &EIGHTS, map).map(|_| ()),
            |map| raw::s2_flash_encryption(&ZEROS, &EIGHTS, map).refusal),
        ("s2::init_code", s2.clone(), |map| s2::init_code(&ZEROS, &EIGHTS, map, UNIT, DB).map(|_| ()),
            |map| raw::s2_init_code(&ZEROS, &EIGHTS, map, UNIT.0, DB.0).refusal),
        ("s2::cal_code", s2, |map| s2::cal_code(&ZEROS, &EIGHTS, map, UNIT, DB).map(|_| ()),
            |map| raw::s2_cal_code(&ZEROS, &EIGHTS, map, UNIT.0, DB.0).refusal),
        ("c6::init_code", c6.clone(), |map| c6::init_code(&ZEROS, &EIGHTS, map, 0, UNIT, DB).map(|_| ()),
            |map| raw::c6_init_code(&ZEROS, &EIGHTS, map, 0, UNIT.0, DB.0).refusal),
        ("c6::cal_code", c6.clone(), |map| c6::cal_code(&ZEROS, &EIGHTS, map, 0, UNIT, DB).map(|_| ()),
            |map| raw::c6_cal_code(&ZEROS, &EIGHTS, map, 0, UNIT.0, DB.0).refusal),
        ("c6::get_chan_compens", c6, |map| c6::get_chan_compens(&ZEROS, &EIGHTS, map, UNIT, 6, DB).map(|_| ()),
            |map| raw::c6_get_chan_compens(&ZEROS, &EIGHTS, map, UNIT.0, 6, DB.0).refusal),
    ]
}

/// A byte of a record, another value for it, and what is then wrong.
const FAULTS: [(usize, u8, Reason); 7] = [
    (0, 255, Reason::MapId),
    (5, 1, Reason::MapByte),
    (6, 128, Reason::MapByte),
    (7, 255, Reason::MapByte),
    (1, 11, Reason::Block),
    (3, 1, Reason::BitRange),
    (4, 0, Reason::BitCount),
];

/// The map with other bytes: the record, the place in it and the byte.
fn with(map: &[u8], bytes: &[(usize, usize, u8)]) -> Vec<u8> {
    let mut map = map.to_vec();
    bytes.iter().for_each(|(k, at, byte)| map[RECORD * k + at] = *byte);
    map
}

#[test]
fn every_call_with_a_map_tells_the_bad_record() {
    for (name, good, call, in_c) in calls_on_a_map() {
        for (k, (at, byte, reason)) in (0..good.len() / RECORD).flat_map(|k| FAULTS.map(|fault| (k, fault))) {
            let map = with(&good, &[(k, at, byte)]);
            let place = (reason == Reason::MapByte).then_some(at as u8);
            assert_eq!(call(&map), Err(Refusal { reason, record: Some(k as u8), place }), "{name}, record {k}, byte {at}");
            let c = SkvRefusal { number: reason.number(), record: k as u8, place: place.unwrap_or(0) };
            assert_eq!(in_c(&map), c, "{name} in C, record {k}, byte {at}");
        }
        assert_eq!(call(&good[1..]), refused(Reason::Map), "{name}");
        assert_eq!(in_c(&good[1..]), SkvRefusal { number: Reason::Map.number(), record: 0, place: 0 }, "{name}");
    }
}

#[test]
fn the_first_bad_record_and_the_first_stray_byte_are_told() {
    let told = |bytes: &[(usize, usize, u8)]| {
        let refusal = check_map(Chip::ESP32, &EIGHTS, &with(&esp32_map(), bytes)).unwrap_err();
        (refusal.number(), refusal.record, refusal.place)
    };
    assert_eq!(told(&[(4, 0, 0), (2, 7, 9), (2, 6, 9)]), (18, Some(2), Some(6)));
    assert_eq!(told(&[(2, 0, 0), (2, 5, 9)]), (3, Some(2), None));
    assert_eq!(told(&[(2, 1, 11), (2, 7, 9)]), (18, Some(2), Some(7)));
    assert_eq!(told(&[(2, 1, 11), (3, 0, 0)]), (4, Some(2), None));
}

#[test]
fn no_other_call_tells_a_record() {
    let (bad_block, bad_range) =
        (Field { block: 11, bit_start: 0, bit_count: 1 }, Field { block: 0, bit_start: 256, bit_count: 0 });
    for (field, reason) in [(bad_block, Reason::Block), (bad_range, Reason::BitRange)] {
        let mut bytes = [0; 2];
        assert_eq!(field.read_u8(&ZEROS, &EIGHTS), refused(reason));
        assert_eq!(field.read_u16(&ZEROS, &EIGHTS), refused(reason));
        assert_eq!(field.read_u32(&ZEROS, &EIGHTS), refused(reason));
        assert_eq!(field.read_le(&ZEROS, &EIGHTS, &mut bytes), refused(reason));
    }
    assert_eq!(SESSION.view(0, 11), refused(Reason::Block));
}

#[test]
fn other_numbers_of_a_call_with_a_map_tell_no_record() {
    let bad_map = with(&esp32_map(), &[(3, 6, 1)]);
    let decode = |dump: &[u32], unit| LineRecord::decode(dump, &EIGHTS, &bad_map, unit, DB);
    assert_eq!((decode(&[], UNIT), decode(&ZEROS, Unit(2))), (refused(Reason::Dump), refused(Reason::Unit)));
    assert_eq!(SESSION.sample(&bad_map, Sample { board: 2, ..SAMPLE }), refused(Reason::Board));
    assert_eq!(SESSION.sample(&esp32_map(), Sample { raw: Count(4096), ..SAMPLE }), refused(Reason::Raw));
    assert_eq!(s2::init_code(&ZEROS, &EIGHTS, &s2_map(), UNIT, DB), refused(Reason::NoCode));
    assert_eq!(c6::cal_code(&ZEROS, &EIGHTS, &c6_map(), 0, UNIT, DB), refused(Reason::NoCode));
}

#[test]
fn a_reason_keeps_its_number() {
    assert_eq!(Reason::from_number(0), None);
    for number in 1..=255 {
        assert_eq!(Reason::from_number(number).map(Reason::number), Some(number));
    }
    assert_eq!(Reason::from_number(200), Some(Reason::Unknown(200)));
    for reason in Reason::ALL.iter().copied() {
        let refusal = Refusal::from(reason);
        assert_eq!((refusal.number(), refusal.words(), refusal.advice()), (reason.number(), reason.words(), reason.advice()));
    }
}

#[test]
fn a_refusal_is_told_in_words() {
    let told =
        |at: usize, byte| check_map(Chip::ESP32, &EIGHTS, &with(&esp32_map(), &[(3, at, byte)])).unwrap_err().to_string();
    assert_eq!(told(6, 1), "map record 3, byte 6: a byte among a map record's last three isn't zero (refusal 18)");
    assert_eq!(told(0, 9), "map record 3: a map record's id isn't that of its place (refusal 3)");
    let first = check_map(Chip::C6, &EIGHTS, &with(&c6_map(), &[(0, 1, 11)])).unwrap_err();
    assert_eq!(first.to_string(), "map record 0: block above 10 (refusal 4)");
    let alone = Field { block: 11, bit_start: 0, bit_count: 0 }.read_u8(&ZEROS, &EIGHTS).unwrap_err();
    assert_eq!(alone.to_string(), "block above 10 (refusal 4)");
    let error: Box<dyn Error> = Box::new(Refusal::from(Reason::Raw));
    assert_eq!(error.to_string(), "count above 4095 (refusal 8)");
    let unknown = Refusal::from(Reason::Unknown(200));
    assert_eq!(unknown.to_string(), "a refusal that this binding doesn't know (refusal 200)");
}
