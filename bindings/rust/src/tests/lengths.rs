//! Lists of block lengths: which are refused, and what each call reads by them.
use super::inputs::{c6_map, esp32_map, refused, s2_map, ONES, ZEROS};
use crate::*;

const UNIT: Unit = Unit::ADC1;
const DB: Attenuation = Attenuation::DB_11;
const FIELD: Field = Field { block: 0, bit_start: 0, bit_count: 1 };
const SAMPLE: Sample = Sample { raw: Count(0), board: 0, last: 3 };

/// A call that takes a list: its name, and what it says of a dump, a list, a unit and a map.
type OnList = (&'static str, fn(&[u32], &[u8], Unit, &[u8]) -> Answer<()>);

/// Every call that takes a dump and a list, asked for a block or a field that is none where it takes one.
const CALLS: [OnList; 16] = [
    ("read_u8", |dump, lengths, _, _| Field { block: 11, ..FIELD }.read_u8(dump, lengths).map(|_| ())),
    ("read_u16", |dump, lengths, _, _| Field { block: 11, ..FIELD }.read_u16(dump, lengths).map(|_| ())),
    ("read_u32", |dump, lengths, _, _| Field { bit_start: 256, ..FIELD }.read_u32(dump, lengths).map(|_| ())),
    ("read_le", |dump, lengths, _, _| Field { block: 11, ..FIELD }.read_le(dump, lengths, &mut [0; 2])),
    ("view", |dump, lengths, _, _| Session { field: dump, reference: &[], lengths }.view(0, 11).map(|_| ())),
    ("sample", |dump, lengths, _, map| Session { field: dump, reference: &[], lengths }.sample(map, SAMPLE).map(|_| ())),
    ("decode", |dump, lengths, unit, map| LineRecord::decode(dump, lengths, map, unit, DB).map(|_| ())),
    ("a board's table", |dump, lengths, unit, map| Board { dump, lengths, map }.table(unit, DB).map(|_| ())),
    ("s2::version", |dump, lengths, _, map| s2::version(dump, lengths, map).map(|_| ())),
    ("s2::flash_encryption", |dump, lengths, _, map| s2::flash_encryption(dump, lengths, map).map(|_| ())),
    ("s2::reading_vlow", |dump, lengths, unit, _| s2::reading_vlow(dump, lengths, 1, unit, DB).map(|_| ())),
    ("s2::init_code", |dump, lengths, unit, map| s2::init_code(dump, lengths, map, unit, DB).map(|_| ())),
    ("s2::cal_code", |dump, lengths, unit, map| s2::cal_code(dump, lengths, map, unit, DB).map(|_| ())),
    ("c6::init_code", |dump, lengths, unit, map| c6::init_code(dump, lengths, map, 0, unit, DB).map(|_| ())),
    ("c6::cal_code", |dump, lengths, unit, map| c6::cal_code(dump, lengths, map, 0, unit, DB).map(|_| ())),
    ("c6::get_chan_compens", |dump, lengths, unit, map| c6::get_chan_compens(dump, lengths, map, unit, 0, DB).map(|_| ())),
];

/// Eleven eights, but for one block's length.
fn with(block: usize, length: u8) -> [u8; BLOCKS] {
    let mut lengths = EIGHTS;
    lengths[block] = length;
    lengths
}

/// Lists of other lengths, and those with a length above 8 at one place.
fn bad_lists() -> Vec<Vec<u8>> {
    let others = [0, 1, 10, 12, 255].map(|length| vec![8; length]);
    let above = (0..BLOCKS).flat_map(|block| [9, 128, 255].map(|length| with(block, length).to_vec()));
    others.into_iter().chain(above).collect()
}

#[test]
fn a_bad_list_is_refused_right_after_the_dump() {
    for (name, call) in CALLS {
        for lengths in bad_lists() {
            assert_eq!(call(&ZEROS, &lengths, Unit(2), &[]), refused(Reason::Lengths), "{name} by {lengths:?}");
            assert_eq!(call(&ZEROS[1..], &lengths, Unit(2), &[]), refused(Reason::Dump), "{name} by {lengths:?}");
        }
        assert_ne!(call(&ZEROS, &EIGHTS, Unit(2), &[]), refused(Reason::Lengths), "{name}");
    }
}

#[test]
fn check_map_looks_at_the_list_first() {
    for lengths in bad_lists() {
        for (chip, map) in [(Chip::ESP32, esp32_map()), (Chip::S2, vec![]), (Chip::C3, c6_map()), (Chip(9), vec![])] {
            assert_eq!(check_map(chip, &lengths, &map), refused(Reason::Lengths), "{chip:?} by {lengths:?}");
        }
    }
}

#[test]
fn a_bad_board_is_told_before_a_bad_list() {
    let session = Session { field: &ZEROS, reference: &ONES, lengths: &[] };
    assert_eq!(session.view(2, 0), refused(Reason::Board));
    assert_eq!(session.sample(&[], Sample { board: 2, ..SAMPLE }), refused(Reason::Board));
}

#[test]
fn a_refused_list_leaves_the_bytes() {
    for lengths in bad_lists() {
        let mut bytes = [7; 3];
        assert_eq!(FIELD.read_le(&ONES, &lengths, &mut bytes), refused(Reason::Lengths));
        assert_eq!(bytes, [7; 3]);
    }
}

#[test]
fn a_field_ends_with_its_block() {
    for (block, length) in (0..BLOCKS as u8).flat_map(|block| (0..=8).map(move |length| (block, length))) {
        let lengths = with(block.into(), length);
        let bits = 32 * u16::from(length);
        for bit_start in bits.saturating_sub(9)..=bits + 1 {
            for bit_count in 0..=9 {
                let field = Field { block, bit_start, bit_count };
                let inside = bit_start <= 255 && bit_start + bit_count <= bits;
                let wanted = if inside { Ok(((1u32 << bit_count) - 1) as u16) } else { refused(Reason::BitRange) };
                assert_eq!(field.read_u16(&ONES, &lengths), wanted, "{field:?} by {lengths:?}");
            }
        }
    }
}

#[test]
fn a_view_is_the_blocks_own_words() {
    for (block, length) in (0..BLOCKS).flat_map(|block| (0..=8).map(move |length| (block, length))) {
        let lengths = with(block, length);
        let session = Session { field: &ZEROS, reference: &ONES, lengths: &lengths };
        for (board, dump) in [(0, session.field), (1, session.reference)] {
            let view = session.view(board, block as u8).unwrap();
            let own = &dump[8 * block..][..usize::from(length)];
            assert_eq!(view.as_ptr_range(), own.as_ptr_range(), "block {block} of {length} words");
        }
    }
}

/// The six fields stand in words 0 to 5 of block 0: with k words, record k is the first that lies past them.
#[test]
fn a_map_is_checked_by_the_list() {
    let map = esp32_map();
    for length in 0..=8 {
        let lengths = with(0, length);
        let wanted = match length {
            6.. => Ok(()),
            record => Err(Refusal { reason: Reason::BitRange, record: Some(record), place: None }),
        };
        assert_eq!(check_map(Chip::ESP32, &lengths, &map), wanted, "{length} words");
        assert_eq!(LineRecord::decode(&ZEROS, &lengths, &map, UNIT, DB).map(|_| ()), wanted, "{length} words");
        let session = Session { field: &ZEROS, reference: &ONES, lengths: &lengths };
        assert_eq!(session.sample(&map, SAMPLE).map(|_| ()), wanted, "{length} words");
    }
}

/// Version 1's low voltage at 0 dB is bits 208 to 213 of block 2, and at 11 dB 226 to 231.
#[test]
fn a_reading_needs_its_words() {
    for length in 0..=8 {
        let lengths = with(2, length);
        let reading = |attenuation| s2::reading_vlow(&ZEROS, &lengths, 1, UNIT, attenuation);
        let within = |words, value| if length < words { refused(Reason::BitRange) } else { Ok(value) };
        assert_eq!((reading(Attenuation::DB_0), reading(DB)), (within(7, 2231), within(8, 701)), "{length} words");
        assert_eq!(s2::reading_vlow(&ZEROS, &lengths, 2, UNIT, DB), Ok(0)); // unpaired, so nothing is read
    }
}

/// The codes read block 2 after the map: what lies past it there is of no record, and a record's is told.
#[test]
fn a_codes_refusal_tells_a_record_only_of_the_map() {
    let (map, mut dump) = (s2_map(), ZEROS);
    dump[0] = 2; // the version
    for (length, init, cal) in [(8, Ok(1685), Ok(6110)), (7, Ok(1685), refused(Reason::BitRange))] {
        let lengths = with(2, length);
        assert_eq!(s2::init_code(&dump, &lengths, &map, UNIT, DB), init);
        assert_eq!(s2::cal_code(&dump, &lengths, &map, UNIT, Attenuation::DB_0), cal);
    }
    assert_eq!(s2::init_code(&dump, &with(2, 0), &map, UNIT, DB), refused(Reason::BitRange));
    for length in [0, 1] {
        let told = Some(Refusal { reason: Reason::BitRange, record: Some(length), place: None });
        let lengths = with(0, length);
        assert_eq!(s2::init_code(&dump, &lengths, &map, UNIT, DB).err(), told);
        assert_eq!(s2::cal_code(&dump, &lengths, &map, UNIT, DB).err(), told);
        assert_eq!(s2::version(&dump, &lengths, &map).err(), told);
        assert_eq!(s2::flash_encryption(&dump, &lengths, &map).err(), told);
    }
    dump[0] = 1; // a version without codes: told before what they would read
    assert_eq!(s2::init_code(&dump, &with(2, 0), &map, UNIT, DB), refused(Reason::NoCode));
}
