//! Seeded faults: the proved library with one call wrapped. Each names the part that has to catch it.
mod c6;
mod curve;
mod decode;
mod fields;
mod fill;
mod lengths;
mod line;
mod logs;
mod maps;
mod orders;
mod s2;

use oracle::dumps::Builder;
use oracle::fields::field_of;
use oracle::rules::{EIGHTS, RECORD, Refusal};

use crate::library::{Library, PROVED};
use crate::tally::Seen;
use crate::told::{Outcome, Refused, Told};
use lengths::{first_eleven, in_eights, last_passed_over, nine_is_eight, none_is_eights, ten_and_an_eight};
use orders::{list_after, list_before_dump};

pub struct Fault {
    pub name: &'static str,
    pub part: &'static str,
    pub library: Library,
}

macro_rules! faults {
    ($($part:literal { $($name:literal: $call:ident = $wrapped:expr,)* })*) => {
        pub fn all() -> Vec<Fault> {
            vec![$($(Fault { part: $part, name: $name, library: Library { $call: $wrapped, ..PROVED } },)*)*]
        }
    };
}

faults! {
    "fields" {
        "the cut to 8 bits is left out": read_field_u8 = PROVED.read_field_u16,
        "a field may end a bit past its block": read_field_u32 = fields::a_bit_past,
        "an empty field may start at 256": read_field_u16 = fields::empty_at_256,
        "5 is asked for before 4": read_field_u16 = fields::place_before_block,
        "a field stops at its word's edge": read_field_u32 = fields::stops_at_word,
        "a whole word has the next one's bits too, by a shift of 32": read_field_u32 = fields::shift_by_32,
        "a field that begins in the dump's last word is read from the one before": read_field_u8 = fields::before_last_word,
        "a longer dump is taken": read_field_u8 = fields::longer_dump,
        "a refusal carries a value": read_field_u8 = fields::refusal_with_value,
        "4 tells the block as a record": read_field_u16 = fields::block_as_record,
        "in Rust 4 tells record 0, as if of a map": read_field_u32 = fields::record_in_rust,
    }
    "fields into bytes" {
        "one lent byte is written on a refusal": read_field_le = fields::written_on_refusal,
        "bytes past the field's end stay as they were": read_field_le = fields::rest_stays,
    }
    "views" {
        "the reference board's view is the field board's": view = fields::always_field,
        "4 is asked for before 1": view = fields::block_before_dump,
        "both dumps are checked": view = fields::both_checked,
        "4 tells the block as a record": view = fields::viewed_block_as_record,
    }
    "maps" {
        "the last zero byte isn't looked at": check_map = maps::zero_byte_passed_over,
        "6 is asked for before 5": check_map = maps::count_before_place,
        "the last record isn't looked at": check_map = maps::last_record_passed_over,
        "a C3 has the S2's map": check_map = maps::map_of_c3,
        "the record told is one too high": check_map = maps::next_record,
        "the last byte that isn't zero is told": check_map = maps::last_stray_byte,
        "18 is asked for before 3": check_map = maps::byte_before_id,
        "3 tells a byte's place too": check_map = maps::place_with_id,
        "2 tells a record": check_map = maps::record_with_length,
    }
    "maps in decoding" {
        "decode loses the record": decode = |dump, lengths, map, unit, atten| {
            record_lost((PROVED.decode)(dump, lengths, map, unit, atten))
        },
        "decode loses the place": decode = decode::place_lost,
        "a sample loses the record": sample = |sample, field, reference, lengths, map| {
            record_lost((PROVED.sample)(sample, field, reference, lengths, map))
        },
        "the S2's version loses the record": s2_version = |dump, lengths, map| record_lost((PROVED.s2_version)(dump, lengths, map)),
        "flash encryption loses the record": s2_flash_encryption = |dump, lengths, map| {
            record_lost((PROVED.s2_flash_encryption)(dump, lengths, map))
        },
        "the S2's initial code loses the record": s2_init_code = |dump, lengths, map, unit, atten| {
            record_lost((PROVED.s2_init_code)(dump, lengths, map, unit, atten))
        },
        "the S2's code at the reference voltage loses the record": s2_cal_code = |dump, lengths, map, unit, atten| {
            record_lost((PROVED.s2_cal_code)(dump, lengths, map, unit, atten))
        },
        "the C6's initial code loses the record": c6_init_code = |dump, lengths, map, minor, unit, atten| {
            record_lost((PROVED.c6_init_code)(dump, lengths, map, minor, unit, atten))
        },
        "the C6's code at the reference voltage loses the record": c6_cal_code = |dump, lengths, map, minor, unit, atten| {
            record_lost((PROVED.c6_cal_code)(dump, lengths, map, minor, unit, atten))
        },
        "a channel's compensation loses the record": c6_get_chan_compens = |dump, lengths, map, unit, channel, atten| {
            record_lost((PROVED.c6_get_chan_compens)(dump, lengths, map, unit, channel, atten))
        },
    }
    "decoding by Vref" {
        "Vref is read as two's complement": decode = decode::vref_in_twos_complement,
        "the sources are exchanged": decode = decode::source_exchanged,
        "the source goes by the reserve bit alone": decode = decode::source_of_reserve,
        "of the attenuation only the lookup is kept": decode = decode::attenuation_lost,
        "in C the source and the attenuation are exchanged": decode = decode::bytes_exchanged,
        "the other unit's codes may be zero": decode = decode::other_unit_passed_over,
        "in C a good answer has a record beside it": decode = decode::record_beside_good,
    }
    "decoding by two points" {
        "the codes are plain two's complement": decode = decode::plain_twos_complement,
        "a b of 0 is refused": decode = decode::b_of_0_refused,
        "a negative b is answered, wrapped around": decode = decode::wrapped_around,
        "a refused record has its vref": decode = decode::refusal_with_vref,
        "the source is Vref even so": decode = decode::always_vref,
    }
    "answers of firmware" {
        "9 is given wherever t is above 850": decode = decode::offset_passed_over,
        "850 less t stops at zero": decode = decode::cut_at_zero,
    }
    "decoding with faults" {
        "7 is asked for before 1": decode = decode::unit_before_dump,
        "2 is asked for before 7": decode = decode::map_before_unit,
        "a longer dump is taken": decode = decode::longer_dump,
        "a refused record has a source": decode = decode::refusal_with_source,
    }
    "line records" {
        "vref 1206 is taken": check_record = line::vref_1206,
        "unit 2 is taken": check_record = line::unit_2,
        "attenuation 4 is taken": check_record = line::attenuation_4,
        "any source but Vref is two points": check_record = line::any_byte_is_two_points,
        "a record by two points is held to Vref's line": check_record = line::two_points_held,
    }
    "records by Vref" {
        "any line is taken": check_record = line::line_passed_over,
        "any b is taken": check_record = line::another_b,
        "an a one more is taken": check_record = line::a_one_more,
        "a is rounded and not cut": check_record = line::a_rounded,
        "the line is the other unit's": check_record = line::other_units_line,
        "a Vref that no code gives is refused": check_record = line::vrefs_of_codes,
        "source 2 is Vref": check_record = line::source_2,
        "any line is converted by": convert = line::converted_by_any_line,
        "8 is asked for before the line": convert = line::raw_before_line,
        "8 is asked for before the source": convert = line::raw_before_source,
        "any line is filled by": fill = fill::by_any_line,
        "11 is asked for before the line": fill = fill::stretch_before_line,
        "11 is asked for before the source": fill = fill::stretch_before_source,
    }
    "converting" {
        "the line's half is left out": convert = line::half_left_out,
        "one entry of the lookup is higher": convert = line::higher_entry,
        "the other unit's lookup is used": convert = line::other_units_lookup,
        "the blend begins at 2882": convert = line::later_blend,
        "raw 4096 is taken": convert = line::raw_4096,
        "8 is asked for before 10": convert = line::raw_before_record,
        "the lookup is used at 6 dB too": convert = line::lookup_at_6_db,
    }
    "filling" {
        "a stretch's first count is left out of the sum": fill = fill::from_0,
        "a stretch's first number isn't written": fill = fill::first_not_written,
        "nothing is written": fill = fill::nothing_written,
        "the first number is repeated": fill = fill::first_repeated,
        "the line goes on through the blend": fill = fill::line_through_blend,
        "the lookup is used at 6 dB too": fill = fill::lookup_at_6_db,
    }
    "stretches at the ends" {
        "one lent number is written on a refusal": fill = fill::written_on_refusal,
        "11 is given from 4096 on": fill = fill::refused_at_4096,
        "the sum wraps at 16 bits": fill = fill::wrapping_sum,
        "11 is asked for before 10": fill = fill::stretch_before_record,
    }
    "S2 readings" {
        "tag 17 depends on 18": s2_reading_vhigh = s2::other_dependency,
        "tag 1's field is two's complement": s2_reading_vlow = s2::tag_1_in_twos_complement,
        "tag 24 lacks its last bit": s2_reading_vhigh = s2::without_last_bit,
        "version 3 is read as 2 with the eFuse skipped": s2_skipped_vinit = s2::version_3,
        "6 dB is read as 11 dB with the eFuse skipped": s2_skipped_vlow = s2::other_attenuation,
        "unit 2 is taken with the eFuse skipped": s2_skipped_vhigh = s2::unit_2,
        "7 is asked for before 1": s2_reading_vinit = s2::unit_before_dump,
    }
    "S2 codes" {
        "encryption is on for any count but 0": s2_flash_encryption = s2::any_count,
        "version 1 has an init code": s2_init_code = s2::init_code_of_version_1,
        "the version loses its highest bit": s2_version = s2::version_of_7_bits,
        "2.5 dB has 850 mV": s2_cal_mv = s2::other_millivolts,
    }
    "S2 with faults" {
        "2 is asked for before 7": s2_cal_code = s2::map_before_unit,
    }
    "C6 codes" {
        "6 dB of version 2 has the others' base": c6_cal_code = c6::others_base,
        "an init code loses its 15th bit": c6_init_code = c6::init_code_of_14_bits,
        "channels above 6 use channel 0": c6_get_chan_compens = c6::channel_0_above_6,
        "a channel code is two's complement": c6_get_chan_compens = c6::in_twos_complement,
    }
    "C6 versions" {
        "minor 3 has version 3": c6_version = c6::version_3,
        "unit 2 has millivolts": c6_cal_mv = c6::millivolts_of_unit_2,
    }
    "C6 with faults" {
        "12 is asked for before 2": c6_init_code = c6::version_before_map,
        "7 is asked for before 1": c6_get_chan_compens = c6::unit_before_dump,
    }
    "curves" {
        "the error is floored and not cut": correct = curve::floored,
        "one coefficient is larger": correct = curve::larger_coefficient,
        "a C6 of minor 3 takes the first table": correct = curve::first_table,
        "a C3's unit 1 has no curve": correct = curve::no_second_unit,
        "line answer 4096 is taken": correct = curve::line_4096,
    }
    "curves with faults" {
        "14 is asked for before 7": correct = curve::curve_before_unit,
        "13 is asked for before 14": correct = curve::line_before_curve,
        "a number that names no chip is 7": correct = curve::no_chip,
    }
    "samples" {
        "the reference board is read from the field dump": sample = logs::field_dump,
        "8 is asked for before 15": sample = logs::raw_before_board,
        "last byte 8 is taken": sample = logs::last_byte_8,
    }
    "logs" {
        "a torn end is the end": next_sample = logs::torn_is_end,
        "raw's high byte comes first": next_sample = logs::high_byte_first,
        "five bytes are torn": next_sample = logs::whole_records_alone,
    }
    "fields by length" {
        "5 goes by eight words whatever the list says": read_field_u32 = |dump, lengths, field| {
            (PROVED.read_field_u32)(dump, in_eights(lengths), field)
        },
        "a field may end a bit past its block's own length": read_field_u16 = lengths::a_bit_past,
        "a field may not end with its block": read_field_u32 = lengths::last_bit_refused,
        "an empty field at its block's end is refused": read_field_u8 = lengths::empty_at_the_end_refused,
        "an empty field past its block's end is taken": read_field_u8 = lengths::empty_anywhere,
        "a block has the next one's length": read_field_u32 = lengths::next_blocks_length,
        "a field is cut off at its block's end": read_field_le = lengths::cut_off,
    }
    "views by length" {
        "eight words are viewed always": view = lengths::eight_words_viewed,
        "a view starts at the sum of the lengths before it": view = lengths::blocks_without_padding,
        "a view of no words lies at the start of the field dump": view = lengths::no_words_at_the_start,
        "a view of no words is refused": view = lengths::no_words_refused,
    }
    "maps by length" {
        "a map's fields are held to eight words": check_map = |chip, lengths, map| {
            (PROVED.check_map)(chip, in_eights(lengths), map)
        },
        "5 by the block's own length tells record 0": check_map = lengths::record_lost,
        "decode goes by eight words": decode = |dump, lengths, map, unit, atten| {
            (PROVED.decode)(dump, in_eights(lengths), map, unit, atten)
        },
        "a sample goes by eight words": sample = |sample, field, reference, lengths, map| {
            (PROVED.sample)(sample, field, reference, in_eights(lengths), map)
        },
        "the S2's version goes by eight words": s2_version = |dump, lengths, map| {
            (PROVED.s2_version)(dump, in_eights(lengths), map)
        },
        "flash encryption goes by eight words": s2_flash_encryption = |dump, lengths, map| {
            (PROVED.s2_flash_encryption)(dump, in_eights(lengths), map)
        },
        "the S2's initial code goes by eight words": s2_init_code = |dump, lengths, map, unit, atten| {
            (PROVED.s2_init_code)(dump, in_eights(lengths), map, unit, atten)
        },
        "the S2's code at the reference voltage goes by eight words": s2_cal_code = |dump, lengths, map, unit, atten| {
            (PROVED.s2_cal_code)(dump, in_eights(lengths), map, unit, atten)
        },
        "the C6's initial code goes by eight words": c6_init_code = |dump, lengths, map, minor, unit, atten| {
            (PROVED.c6_init_code)(dump, in_eights(lengths), map, minor, unit, atten)
        },
        "the C6's code at the reference voltage goes by eight words": c6_cal_code = |dump, lengths, map, minor, unit, atten| {
            (PROVED.c6_cal_code)(dump, in_eights(lengths), map, minor, unit, atten)
        },
        "a channel's compensation goes by eight words": c6_get_chan_compens = |dump, lengths, map, unit, channel, atten| {
            (PROVED.c6_get_chan_compens)(dump, in_eights(lengths), map, unit, channel, atten)
        },
    }
    "S2 by length" {
        "a reading goes by eight words": s2_reading_vlow = |dump, lengths, version, unit, atten| {
            (PROVED.s2_reading_vlow)(dump, in_eights(lengths), version, unit, atten)
        },
        "a chain is checked at its first tag only": s2_reading_vhigh = lengths::first_tag_alone,
        "a chain is checked at its last tag only": s2_reading_vinit = lengths::last_tag_alone,
        "an unpaired reading is refused": s2_reading_vlow = lengths::unpaired_refused,
        "the table has block 1's length": s2_reading_vinit = lengths::table_of_block_1,
        "a field outside is skipped": s2_reading_vinit = lengths::skipped_outside,
        "5 is asked for before 12": s2_init_code = lengths::table_before_version,
        "a code's table goes by eight words": s2_cal_code = lengths::code_past_the_table,
        "5 tells the table's block as a record": s2_cal_code = lengths::table_as_record,
        "in Rust 5 tells record 0, as if of the map": s2_init_code = lengths::record_in_rust,
    }
    "lists of lengths" {
        "nine words are taken at 8 bits": read_field_u8 = |dump, lengths, field| {
            (PROVED.read_field_u8)(dump, &nine_is_eight(lengths), field)
        },
        "the lengths up to the block alone are looked at": read_field_u16 = lengths::up_to_the_block,
        "an eleventh length may be missing": read_field_u32 = |dump, lengths, field| {
            (PROVED.read_field_u32)(dump, &ten_and_an_eight(lengths), field)
        },
        "a list of twelve is taken for lent bytes": read_field_le = |dump, lengths, field, bytes| {
            (PROVED.read_field_le)(dump, first_eleven(lengths), field, bytes)
        },
        "the viewed block's length alone is looked at": view = lengths::the_block_alone,
        "check_map doesn't look at the list": check_map = lengths::list_passed_over,
        "no lengths mean eleven eights in decoding": decode = |dump, lengths, map, unit, atten| {
            (PROVED.decode)(dump, none_is_eights(lengths), map, unit, atten)
        },
        "no lengths mean eleven eights for a sample": sample = |sample, field, reference, lengths, map| {
            (PROVED.sample)(sample, field, reference, none_is_eights(lengths), map)
        },
        "a list of twelve is taken for the S2's version": s2_version = |dump, lengths, map| {
            (PROVED.s2_version)(dump, first_eleven(lengths), map)
        },
        "the last length isn't looked at for flash encryption": s2_flash_encryption = |dump, lengths, map| {
            (PROVED.s2_flash_encryption)(dump, &last_passed_over(lengths), map)
        },
        "nine words are taken for the lower voltage": s2_reading_vlow = |dump, lengths, version, unit, atten| {
            (PROVED.s2_reading_vlow)(dump, &nine_is_eight(lengths), version, unit, atten)
        },
        "the last length isn't looked at for the higher voltage": s2_reading_vhigh = |dump, lengths, version, unit, atten| {
            (PROVED.s2_reading_vhigh)(dump, &last_passed_over(lengths), version, unit, atten)
        },
        "a list of twelve is taken for the initial voltage": s2_reading_vinit = |dump, lengths, version, unit, atten| {
            (PROVED.s2_reading_vinit)(dump, first_eleven(lengths), version, unit, atten)
        },
        "an eleventh length may be missing for the S2's initial code": s2_init_code = |dump, lengths, map, unit, atten| {
            (PROVED.s2_init_code)(dump, &ten_and_an_eight(lengths), map, unit, atten)
        },
        "nine words are taken for the S2's code": s2_cal_code = |dump, lengths, map, unit, atten| {
            (PROVED.s2_cal_code)(dump, &nine_is_eight(lengths), map, unit, atten)
        },
        "a list of twelve is taken for the C6's initial code": c6_init_code = |dump, lengths, map, minor, unit, atten| {
            (PROVED.c6_init_code)(dump, first_eleven(lengths), map, minor, unit, atten)
        },
        "the last length isn't looked at for the C6's code": c6_cal_code = |dump, lengths, map, minor, unit, atten| {
            (PROVED.c6_cal_code)(dump, &last_passed_over(lengths), map, minor, unit, atten)
        },
        "nine words are taken for a channel's compensation": c6_get_chan_compens = |dump, lengths, map, unit, channel, atten| {
            (PROVED.c6_get_chan_compens)(dump, &nine_is_eight(lengths), map, unit, channel, atten)
        },
    }
    "orders of refusals" {
        "20 before 1 at 8 bits": read_field_u8 = list_before_dump!(read_field_u8(field)),
        "20 after 4 at 8 bits": read_field_u8 = list_after!(4, read_field_u8(field)),
        "20 before 1 at 16 bits": read_field_u16 = list_before_dump!(read_field_u16(field)),
        "20 after 4 at 16 bits": read_field_u16 = list_after!(4, read_field_u16(field)),
        "20 before 1 at 32 bits": read_field_u32 = list_before_dump!(read_field_u32(field)),
        "20 after 4 at 32 bits": read_field_u32 = list_after!(4, read_field_u32(field)),
        "20 before 1 into bytes": read_field_le = orders::bytes_list_before_dump,
        "20 after 4 into bytes": read_field_le = orders::bytes_list_after_block,
        "20 before 15 of a view": view = orders::view_list_before_board,
        "20 before 1 of a view": view = orders::view_list_before_dump,
        "20 after 4 of a view": view = orders::view_list_after_block,
        "20 after 2 of a map": check_map = orders::map_list_after_length,
        "20 before 1 in decoding": decode = list_before_dump!(decode(map, unit, atten)),
        "20 after 7 in decoding": decode = list_after!(7, decode(map, unit, atten)),
        "20 before 1 of the S2's version": s2_version = list_before_dump!(s2_version(map)),
        "20 after 2 of the S2's version": s2_version = list_after!(2, s2_version(map)),
        "20 before 1 of flash encryption": s2_flash_encryption = list_before_dump!(s2_flash_encryption(map)),
        "20 after 2 of flash encryption": s2_flash_encryption = list_after!(2, s2_flash_encryption(map)),
        "20 before 1 of the lower voltage": s2_reading_vlow = list_before_dump!(s2_reading_vlow(version, unit, atten)),
        "20 after 7 of the lower voltage": s2_reading_vlow = list_after!(7, s2_reading_vlow(version, unit, atten)),
        "20 before 1 of the higher voltage": s2_reading_vhigh = list_before_dump!(s2_reading_vhigh(version, unit, atten)),
        "20 after 7 of the higher voltage": s2_reading_vhigh = list_after!(7, s2_reading_vhigh(version, unit, atten)),
        "5 before 7 of the higher voltage": s2_reading_vhigh = orders::table_before_unit,
        "20 before 1 of the initial voltage": s2_reading_vinit = list_before_dump!(s2_reading_vinit(version, unit, atten)),
        "20 after 7 of the initial voltage": s2_reading_vinit = list_after!(7, s2_reading_vinit(version, unit, atten)),
        "20 before 1 of the S2's initial code": s2_init_code = list_before_dump!(s2_init_code(map, unit, atten)),
        "20 after 7 of the S2's initial code": s2_init_code = list_after!(7, s2_init_code(map, unit, atten)),
        "20 before 1 of the S2's code": s2_cal_code = list_before_dump!(s2_cal_code(map, unit, atten)),
        "20 after 7 of the S2's code": s2_cal_code = list_after!(7, s2_cal_code(map, unit, atten)),
        "20 before 1 of the C6's initial code": c6_init_code = list_before_dump!(c6_init_code(map, minor, unit, atten)),
        "20 after 7 of the C6's initial code": c6_init_code = list_after!(7, c6_init_code(map, minor, unit, atten)),
        "20 before 1 of the C6's code": c6_cal_code = list_before_dump!(c6_cal_code(map, minor, unit, atten)),
        "20 after 7 of the C6's code": c6_cal_code = list_after!(7, c6_cal_code(map, minor, unit, atten)),
        "20 before 1 of a channel": c6_get_chan_compens = list_before_dump!(c6_get_chan_compens(map, unit, channel, atten)),
        "20 after 7 of a channel": c6_get_chan_compens = list_after!(7, c6_get_chan_compens(map, unit, channel, atten)),
        "20 before 15 of a sample": sample = orders::sample_list_before_board,
        "20 before 1 of a sample": sample = orders::sample_list_before_dump,
        "20 after 2 of a sample": sample = orders::sample_list_after_map,
        "8 before 9 of a sample": sample = orders::count_before_underflow,
    }
}

/// The library with the fault of that part and name.
pub fn named(name: &str) -> Option<Library> {
    let (part, name) = name.split_once(':')?;
    let all = all().into_iter();
    all.filter(|fault| fault.part == part && fault.name == name.trim()).map(|fault| fault.library).next()
}

fn good<T>(value: T) -> Told<T> {
    Told { refused: Refused::NOT, value }
}

fn refused<T: Default>(number: u8) -> Told<T> {
    Told { refused: numbered(number), value: T::default() }
}

/// A refusal that tells no record; none for 0.
fn numbered(number: u8) -> Refused {
    if number == 0 { Refused::NOT } else { Refusal::numbered(number).into() }
}

/// Another refusal in place of one.
fn otherwise(refused: Refused, other: impl FnOnce(Refusal) -> Refusal) -> Refused {
    refused.in_rust.map_or(refused, |refusal| other(refusal).into())
}

/// The answer with a map's record lost on the way: the first is told.
fn record_lost<T>(told: Told<T>) -> Told<T> {
    let lost = |refusal: Refusal| Refusal { record: refusal.record.map(|_| 0), ..refusal };
    Told { refused: otherwise(told.refused, lost), ..told }
}

/// The answer without the first of two refusals, where it was refused with that: what a call says that asks for the other one first.
fn swapped<T: Seen>(told: T, first: u8, second: u8, without_first: impl FnOnce() -> T) -> T {
    if told.refused().number() != first {
        return told;
    }
    let other = without_first();
    if other.refused().number() == second { other } else { told }
}

fn outcome(number: u8) -> Outcome {
    Outcome { refused: numbered(number) }
}

/// The bits of a map's field; 0 where there is no such field.
fn bits(dump: &[u32], map: &[u8], k: usize) -> u32 {
    if map.len() < RECORD * (k + 1) {
        return 0;
    }
    (PROVED.read_field_u32)(dump, &EIGHTS, field_of(map, k)).value
}

/// The dump with other bits in a field of an ESP32 map, where the call isn't refused for its dump or map.
fn with_bits(dump: &[u32], map: &[u8], k: usize, bits: u32) -> Vec<u32> {
    let Ok(whole) = dump.try_into() else { return dump.to_vec() };
    if (PROVED.check_map)(0, &EIGHTS, map) != outcome(0) {
        return dump.to_vec();
    }
    let mut dump = Builder::new(whole);
    dump.write(field_of(map, k), bits);
    dump.dump.to_vec()
}

/// Plain two's complement over a width.
fn twos_complement(bits: u32, width: u32) -> i32 {
    if bits >> (width - 1) & 1 == 1 { bits as i32 - (1 << width) } else { bits as i32 }
}
