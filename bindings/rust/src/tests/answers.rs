//! Each call once or more, answered and refused; what is particular to Rust. The answers themselves are compared with esp-hal's by
//! tests/oracle, through this crate.
use super::inputs::{c6_map, esp32_map, refused, s2_map, ONES, ZEROS};
use crate::*;

fn record() -> LineRecord {
    LineRecord::decode(&ZEROS, &EIGHTS, &esp32_map(), Unit::ADC1, Attenuation::DB_11).unwrap()
}

/// The same by two points, so that its parts may be any of their ranges.
fn by_two_points() -> LineRecord {
    LineRecord { source: Source::TWO_POINT, ..record() }
}

#[test]
fn a_record_converts() {
    let (unit, attenuation, source) = (Unit::ADC1, Attenuation::DB_11, Source::VREF);
    assert_eq!(record(), LineRecord { coeff_a: 52798, coeff_b: 142, vref: 1100, unit, attenuation, source });
    for (count, mv) in [(0, 142), (2880, 2462), (2912, 2483), (2944, 2502), (4095, 3134)] {
        assert_eq!(record().convert(Count(count)), Ok(Millivolt(mv)));
    }
    assert_eq!((record().check(), record().convert(Count(4096))), (Ok(()), refused(Reason::Raw)));
}

#[test]
fn a_record_says_where_it_came_from() {
    let (map, mut two_points) = (esp32_map(), ZEROS);
    two_points[1..6].fill(1); // the reserve bit, and no code is zero
    for (dump, source) in [(ZEROS, Source::VREF), (two_points, Source::TWO_POINT)] {
        for (unit, attenuation) in (0..8).map(|k| (Unit(k / 4), Attenuation(k % 4))) {
            let record = LineRecord::decode(&dump, &EIGHTS, &map, unit, attenuation).unwrap();
            assert_eq!((record.unit, record.attenuation, record.source), (unit, attenuation, source));
            assert_eq!((record.check(), record.uses_lookup()), (Ok(()), attenuation == Attenuation::DB_11));
        }
    }
}

#[test]
fn the_lookup_is_used_at_11_db_alone() {
    for attenuation in [Attenuation::DB_0, Attenuation::DB_2_5, Attenuation::DB_6] {
        let line = LineRecord { attenuation, ..by_two_points() };
        assert_eq!((line.uses_lookup(), line.convert(Count(4095))), (false, Ok(Millivolt(3441))));
    }
    assert_eq!((by_two_points().uses_lookup(), by_two_points().convert(Count(4095))), (true, Ok(Millivolt(3134))));
}

/// Every call with a record refuses it, before it looks at a count; what it was lent stays as it was.
fn refuses_the_record(bad: LineRecord) {
    let mut list = [Millivolt(7); 2];
    assert_eq!(bad.check(), refused(Reason::LineRecord), "{bad:?}");
    assert_eq!(bad.convert(Count(4096)), refused(Reason::LineRecord), "{bad:?}");
    assert_eq!(bad.fill(Count(4096), &mut list), refused(Reason::LineRecord), "{bad:?}");
    assert_eq!(list, [Millivolt(7); 2]);
}

#[test]
fn a_record_stays_inside_its_ranges() {
    for good in [record(), by_two_points()] {
        for (coeff_a, coeff_b) in [(131072, good.coeff_b), (good.coeff_a, 4096)] {
            refuses_the_record(LineRecord { coeff_a, coeff_b, ..good });
        }
        for vref in [994, 1206] {
            refuses_the_record(LineRecord { vref, ..good });
        }
        for byte in [2, 3, 255] {
            refuses_the_record(LineRecord { unit: Unit(byte), ..good });
            refuses_the_record(LineRecord { source: Source(byte), ..good });
        }
        for byte in [4, 5, 255] {
            refuses_the_record(LineRecord { attenuation: Attenuation(byte), ..good });
        }
    }
    assert_eq!(LineRecord { coeff_a: 131071, coeff_b: 4095, vref: 1205, ..by_two_points() }.check(), Ok(()));
}

#[test]
fn by_vref_there_is_one_line() {
    for (coeff_a, coeff_b) in [(52797, 142), (52799, 142), (52798, 141), (52798, 143)] {
        refuses_the_record(LineRecord { coeff_a, coeff_b, ..record() });
        assert_eq!(LineRecord { coeff_a, coeff_b, ..by_two_points() }.check(), Ok(()));
    }
    refuses_the_record(LineRecord { vref: 1101, ..record() });
    refuses_the_record(LineRecord { unit: Unit::ADC2, ..record() });
    refuses_the_record(LineRecord { attenuation: Attenuation::DB_6, ..record() });
}

#[test]
fn decoding_refuses_in_order() {
    let map = esp32_map();
    let decode_at =
        |dump: &[u32], map: &[u8], unit, attenuation| LineRecord::decode(dump, &EIGHTS, map, Unit(unit), attenuation);
    let decode = |dump: &[u32], map: &[u8], unit| decode_at(dump, map, unit, Attenuation::DB_0);
    assert_eq!(decode(&ZEROS[1..], &map[1..], 2), refused(Reason::Dump));
    assert_eq!(decode(&ZEROS, &map[1..], 2), refused(Reason::Unit));
    assert_eq!(decode(&ZEROS, &map[1..], 1), refused(Reason::Map));
    // low code 63, high code -68: the first that is refused at 0 dB; at 11 dB it isn't
    let mut dump = ZEROS;
    dump[..6].copy_from_slice(&[0, 1, 63, 1, 0x1BC, 1]);
    assert_eq!(decode(&dump, &map, 0), refused(Reason::Underflow));
    assert_eq!(decode_at(&dump, &map, 0, Attenuation::DB_11).map(|record| record.coeff_b), Ok(53));
    dump[4] = 0x1BD;
    assert_eq!(decode(&dump, &map, 0).map(|record| record.coeff_b), Ok(0));
}

#[test]
fn a_fill_writes_its_part_alone() {
    let mut list = [Millivolt(7); 6];
    assert_eq!(record().fill(Count(2880), &mut list[2..4]), Ok(()));
    assert_eq!(list.map(|mv| mv.0), [7, 7, 2462, 2463, 7, 7]);
    assert_eq!(record().fill(Count(4095), &mut list[2..4]), refused(Reason::Stretch));
    assert_eq!(list.map(|mv| mv.0), [7, 7, 2462, 2463, 7, 7]);
    assert_eq!((record().fill(Count(4096), &mut []), record().fill(Count(4097), &mut [])), (Ok(()), refused(Reason::Stretch)));
}

#[test]
fn a_table_holds_the_answers() {
    let map = esp32_map();
    let board = Board { dump: &ZEROS, lengths: &EIGHTS, map: &map };
    let mut table = board.table(Unit::ADC1, Attenuation::DB_11).unwrap();
    for raw in 0..=u16::MAX {
        assert_eq!(table.get(Count(raw)), record().convert(Count(raw)));
    }
    assert_eq!(table[Count(4095)], table.millivolts()[4095]);
    let (before, other) = (table.clone(), board.record(Unit::ADC2, Attenuation::DB_0).unwrap());
    assert_eq!(table.refill(LineRecord { unit: Unit(2), ..other }), refused(Reason::LineRecord));
    assert_eq!(table, before);
    table.refill(other).unwrap();
    assert_eq!((table[Count(4095)], Ok(table)), (other.convert(Count(4095)).unwrap(), other.table()));
    assert_eq!(board.table(Unit(2), Attenuation::DB_0), refused(Reason::Unit));
}

#[test]
#[should_panic(expected = "4096")]
fn a_table_ends_at_4095() {
    let _ = record().table().unwrap()[Count(4096)];
}

#[test]
fn fields() {
    let mut dump = ZEROS;
    dump[8] = 0xF000_0000;
    dump[9] = 0x0007_FFFF;
    let field = Field { block: 1, bit_start: 28, bit_count: 23 };
    assert_eq!((field.read_u8(&dump, &EIGHTS), field.read_u16(&dump, &EIGHTS)), (Ok(0xFF), Ok(0xFFFF)));
    assert_eq!(field.read_u32(&dump, &EIGHTS), Ok(0x7F_FFFF));
    let mut bytes = [9; 6];
    assert_eq!(field.read_le(&dump, &EIGHTS, &mut bytes[..5]), Ok(()));
    assert_eq!(bytes, [0xFF, 0xFF, 0x7F, 0, 0, 9]);
    assert_eq!(field.read_le(&dump[1..], &EIGHTS, &mut bytes), refused(Reason::Dump));
    assert_eq!(bytes, [0xFF, 0xFF, 0x7F, 0, 0, 9]);
    assert_eq!(Field { block: 11, ..field }.read_u8(&dump, &EIGHTS), refused(Reason::Block));
    assert_eq!(Field { bit_start: 234, ..field }.read_u16(&dump, &EIGHTS), refused(Reason::BitRange));
    assert_eq!(field.read_u32(&[], &EIGHTS), refused(Reason::Dump));
}

#[test]
fn maps() {
    assert_eq!((esp32_map().len(), s2_map().len(), c6_map().len()), (ESP32_MAP_BYTES, S2_MAP_BYTES, C6_MAP_BYTES));
    for (chip, good) in [(Chip::ESP32, esp32_map()), (Chip::S2, s2_map()), (Chip::C6, c6_map())] {
        assert_eq!(check_map(chip, &EIGHTS, &good), Ok(()));
        assert_eq!(check_map(Chip::C3, &EIGHTS, &good), refused(Reason::Map));
    }
    assert_eq!(check_map(Chip::ESP32, &EIGHTS, &[]), refused(Reason::Map));
}

#[test]
fn a_view_is_a_part_of_its_dump() {
    let session = Session { field: &ZEROS, reference: &ONES, lengths: &EIGHTS };
    let (field, reference) = (session.view(0, 3).unwrap(), session.view(1, 10).unwrap());
    assert_eq!(field.as_ptr_range(), session.field[24..32].as_ptr_range());
    assert_eq!(reference.as_ptr_range(), session.reference[80..].as_ptr_range());
    assert_eq!((session.view(2, 10), session.view(1, 11)), (refused(Reason::Board), refused(Reason::Block)));
    assert_eq!(Session { reference: &[], ..session }.view(1, 11), refused(Reason::Dump));
}

#[test]
fn samples_go_by_their_board() {
    let map = esp32_map();
    let session = Session { field: &ZEROS, reference: &ONES, lengths: &EIGHTS };
    let sample = Sample { raw: Count(2880), board: 0, last: 3 };
    let other = LineRecord::decode(&ONES, &EIGHTS, &map, Unit::ADC1, Attenuation::DB_11).unwrap();
    assert_eq!(session.sample(&map, sample), Ok(Millivolt(2462)));
    assert_eq!(session.sample(&map, Sample { board: 1, ..sample }), other.convert(Count(2880)));
    assert_eq!(session.sample(&map, Sample { last: 8, ..sample }), refused(Reason::Board));
    assert_eq!(session.sample(&map, Sample { raw: Count(4096), ..sample }), refused(Reason::Raw));
    assert_eq!(session.sample(&[], sample), refused(Reason::Map));
}

#[test]
fn a_torn_log_ends_with_a_refusal() {
    let first = Sample { raw: Count(2880), board: 1, last: 3 };
    let bytes = [0x40, 0x0B, 1, 3, 0];
    let mut log = Log::new(&bytes);
    assert_eq!([log.next(), log.next(), log.next(), log.next()], [Some(Ok(first)), Some(refused(Reason::Log)), None, None]);
    assert!(Log::new(&bytes[..4]).eq([Ok(first)]));
    assert_eq!(Log::new(&[]).next(), None);
    assert_eq!(
        (next_sample(&bytes), next_sample(&bytes[..3]), next_sample(&[])),
        (Ok(Some(first)), refused(Reason::Log), Ok(None))
    );
}

#[test]
fn curves() {
    let at = |chip, minor, unit, mv| correct(chip, minor, unit, Attenuation::DB_11, Millivolt(mv));
    assert_eq!((at(Chip::C3, 0, Unit::ADC1, 1), at(Chip::S3, 0, Unit::ADC2, 1)), (Ok(Millivolt(2)), Ok(Millivolt(0))));
    assert_ne!(at(Chip::C6, 1, Unit::ADC1, 4095), at(Chip::C6, 2, Unit::ADC1, 4095));
    assert_eq!(at(Chip::C3, 0, Unit(2), 4096), refused(Reason::Unit));
    assert_eq!(
        (at(Chip::S2, 0, Unit::ADC1, 4096), at(Chip(9), 0, Unit::ADC1, 1)),
        (refused(Reason::Curve), refused(Reason::Curve))
    );
    assert_eq!(at(Chip::C3, 0, Unit::ADC1, 4096), refused(Reason::LineAnswer));
}

#[test]
fn the_s2() {
    let (unit, other) = (Unit::ADC1, Unit::ADC2);
    assert_eq!(s2::reading_vhigh(&ZEROS, &EIGHTS, 2, unit, Attenuation::DB_0), Ok(6110));
    assert_eq!(s2::reading_vinit(&ZEROS, &EIGHTS, 2, unit, Attenuation::DB_11), Ok(1685));
    assert_eq!(s2::reading_vinit(&ONES, &EIGHTS, 2, unit, Attenuation::DB_11), Ok(1277));
    assert_eq!(s2::reading_vhigh(&ONES, &EIGHTS, 2, other, Attenuation::DB_11), Ok(5077));
    assert_eq!(s2::reading_vlow(&ZEROS, &EIGHTS, 1, unit, Attenuation::DB_0), Ok(2231));
    assert_eq!(s2::reading_vlow(&[], &EIGHTS, 1, Unit(2), Attenuation::DB_0), refused(Reason::Dump));
    assert_eq!(s2::skipped_vlow(1, other, Attenuation::DB_11), Ok(723));
    assert_eq!(s2::skipped_vhigh(2, unit, Attenuation::DB_0), Ok(6110));
    assert_eq!(s2::skipped_vinit(2, other, Attenuation::DB_11), Ok(1719));
    assert_eq!(s2::skipped_vinit(2, other, Attenuation(4)), refused(Reason::Unit));
    assert_eq!(
        (s2::cal_mv(other, Attenuation::DB_11), s2::cal_mv(Unit(2), Attenuation::DB_0)),
        (Ok(Millivolt(2000)), refused(Reason::Unit))
    );
    let map = s2_map();
    let mut dump = ZEROS;
    let init_code = |dump: &[u32]| s2::init_code(dump, &EIGHTS, &map, unit, Attenuation::DB_11);
    let code = |dump: &[u32]| (init_code(dump), s2::cal_code(dump, &EIGHTS, &map, unit, Attenuation::DB_0));
    assert_eq!(code(&dump), (refused(Reason::NoCode), refused(Reason::NoCode)));
    dump[0] = 2;
    assert_eq!((s2::version(&dump, &EIGHTS, &map), code(&dump)), (Ok(2), (Ok(1685), Ok(6110))));
    assert_eq!(s2::flash_encryption(&dump, &EIGHTS, &map), Ok(false));
    dump[1] = 7;
    assert_eq!(s2::flash_encryption(&dump, &EIGHTS, &map), Ok(true));
    assert_eq!(s2::version(&dump, &EIGHTS, &map[1..]), refused(Reason::Map));
    assert_eq!(s2::flash_encryption(&dump, &EIGHTS, &[]), refused(Reason::Map));
}

#[test]
fn the_c6() {
    let (map, unit) = (c6_map(), Unit::ADC1);
    let mut dump = ZEROS;
    dump[0] = 0x7FFF; // id 9
    dump[6] = 0x200; // id 15
    dump[4] = 0x3FF; // id 13
    dump[14] = 0xF; // id 23
    assert_eq!([0, 1, 2, 255].map(c6::version), [0, 1, 2, 2]);
    assert_eq!(c6::init_code(&dump, &EIGHTS, &map, 1, unit, Attenuation::DB_0), Ok(34367));
    assert_eq!(c6::init_code(&dump, &EIGHTS, &map, 0, unit, Attenuation::DB_0), refused(Reason::NoCode));
    assert_eq!(c6::cal_code(&dump, &EIGHTS, &map, 2, unit, Attenuation::DB_6), Ok(2900));
    assert_eq!(c6::cal_code(&dump, &EIGHTS, &map, 1, unit, Attenuation::DB_0), Ok(989));
    assert_eq!(c6::cal_code(&dump, &EIGHTS, &map[1..], 0, unit, Attenuation::DB_0), refused(Reason::Map));
    assert_eq!(c6::get_chan_compens(&dump, &EIGHTS, &map, unit, 255, Attenuation::DB_0), Ok(-28));
    assert_eq!(c6::get_chan_compens(&dump, &EIGHTS, &map, unit, 6, Attenuation::DB_11), Ok(-7));
    assert_eq!(c6::get_chan_compens(&dump, &EIGHTS, &map, unit, 5, Attenuation::DB_11), Ok(0));
    assert_eq!(c6::get_chan_compens(&dump, &EIGHTS, &map, unit, 5, Attenuation(4)), refused(Reason::Unit));
    assert_eq!([1, 2].map(|minor| c6::cal_mv(minor, unit, Attenuation::DB_6)), [Ok(Millivolt(750)), Ok(Millivolt(1500))]);
    assert_eq!(c6::cal_mv(1, Unit(2), Attenuation::DB_6), refused(Reason::Unit));
}

#[test]
fn a_dump_file_is_352_bytes_low_first() {
    let bytes: Vec<u8> = (0..352).map(|k| k as u8).collect();
    let dump = dump_from_bytes(&bytes).unwrap();
    assert_eq!((dump[0], dump[87]), (0x0302_0100, 0x5F5E_5D5C));
    assert_eq!(dump_from_bytes(&bytes[1..]), refused(Reason::Dump));
    assert_eq!(dump_from_bytes(&[]), refused(Reason::Dump));
}

#[test]
fn quantities_are_told() {
    assert_eq!((Millivolt(2462).to_string(), Count(2880).to_string()), ("2462 mV".to_string(), "2880".to_string()));
    let told = [0, 1, 2, 3, 4].map(|number| Attenuation(number).to_string());
    assert_eq!(told, ["0 dB", "2.5 dB", "6 dB", "11 dB", "attenuation 4"]);
    assert_eq!([0, 1, 2].map(|number| Source(number).to_string()), ["two points", "Vref", "source 2"]);
}
