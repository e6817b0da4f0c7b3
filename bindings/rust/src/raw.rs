//! The library as C has it: include/suongkivat.h in Rust, and each of its calls over slices. An answer here is the header's struct, a
//! refusal and the values beside it; the rest of the crate makes an [`Answer`](crate::Answer) of it.
//!
//! What is handed in has the header's layout under a name of its own: [`Count`](crate::Count), [`Millivolt`](crate::Millivolt),
//! [`Field`](crate::Field), [`LineRecord`](crate::LineRecord) and [`Sample`](crate::Sample).
//!
//! # Why the calls are sound
//!
//! This is the only module with `unsafe` in it. What the library takes for granted of a caller is what the header says, and no more:
//!
//! - *A pointer has the length beside it in memory, and isn't null, even where the length is 0.* Each pair is `as_ptr` and `len` of one
//!   slice, which live through the call; a slice's pointer is aligned and never null, of an empty slice too.
//! - *What a call writes overlaps nothing else that it is handed.* It is a `&mut` slice, so nothing else can reach it. Every content
//!   that a call can leave there is a valid one, since it is bytes or 16-bit numbers.
//! - *Structs have the layout of C.* They are `repr(C)`, and are held to the sizes and places below when this file is compiled; `check`
//!   beside this crate holds those to the header by a C compiler, and the tests hold all declarations to the header's text.
//!
//! For everything else, any numbers in any struct, the library is proved to answer. It has no state and keeps no pointer.
use std::mem::{align_of, offset_of, size_of};

use crate::{
    Count as SkvCount, Field as SkvField, LineRecord as SkvLineRecord, Millivolt as SkvMillivolt, Sample as SkvSample,
};

/// The header's structs: size, and for each field its type in C and the byte where it stands. Rows with a doc comment are answers,
/// and are defined here; a field of a tuple has its name in C first.
macro_rules! structs {
    () => {};
    ($(#[$doc:meta])+ $name:ident = $size:literal { $($field:ident: $kind:ty = $at:literal),* } $($more:tt)*) => {
        $(#[$doc])+
        #[repr(C)]
        #[derive(Debug, Clone, Copy, PartialEq, Eq)]
        #[allow(missing_docs)] // the fields are the header's
        pub struct $name {
            $(pub $field: $kind,)*
        }
        structs! { $name = $size { $($field: $kind = $at),* } $($more)* }
    };
    ($name:ident = $size:literal { $($field:ident $(as $place:tt)?: $kind:ty = $at:literal),* } $($more:tt)*) => {
        const _: () = {
            assert!(size_of::<$name>() == $size);
            $(structs! { @held $name, $field $(as $place)?, $kind, $at })*
        };
        structs! { $($more)* }
    };
    (@held $name:ident, $field:ident as $place:tt, $kind:ty, $at:literal) => {
        assert!(offset_of!($name, $place) == $at && size_of_field(|of: &$name| &of.$place) == size_of::<$kind>());
    };
    (@held $name:ident, $field:ident, $kind:ty, $at:literal) => {
        assert!(offset_of!($name, $field) == $at && size_of_field(|of: &$name| &of.$field) == size_of::<$kind>());
    };
}

const fn size_of_field<S, F>(_: fn(&S) -> &F) -> usize {
    size_of::<F>()
}

structs! {
    SkvCount = 2 { raw as 0: u16 = 0 }
    SkvMillivolt = 2 { mv as 0: u16 = 0 }
    SkvField = 6 { block: u8 = 0, bit_start: u16 = 2, bit_count: u16 = 4 }
    SkvLineRecord = 16 { coeff_a: u32 = 0, coeff_b: u32 = 4, vref: u32 = 8, unit: u8 = 12, attenuation: u8 = 13, source: u8 = 14 }
    SkvSample = 4 { raw: SkvCount = 0, board: u8 = 2, last: u8 = 3 }
    /// A refusal's number, 0 for none; a map's first bad record and the place of its stray byte where it tells them, else 0.
    SkvRefusal = 3 { number: u8 = 0, record: u8 = 1, place: u8 = 2 }
    /// An answer without values.
    SkvOutcome = 3 { refusal: SkvRefusal = 0 }
    /// A voltage.
    SkvVoltage = 6 { refusal: SkvRefusal = 0, voltage: SkvMillivolt = 4 }
    /// A calibration code.
    SkvCode = 6 { refusal: SkvRefusal = 0, code: u16 = 4 }
    /// A number with sign.
    SkvReading = 8 { refusal: SkvRefusal = 0, value: i32 = 4 }
    /// A field's value.
    SkvRead = 8 { refusal: SkvRefusal = 0, value: u32 = 4 }
    /// A part of a board's dump: its first word, and how many there are.
    SkvView = 12 { refusal: SkvRefusal = 0, board: u8 = 3, first: u32 = 4, words: u32 = 8 }
    /// A line record.
    SkvDecoded = 20 { refusal: SkvRefusal = 0, record: SkvLineRecord = 4 }
    /// A calibration's version.
    SkvVersion = 4 { refusal: SkvRefusal = 0, version: u8 = 3 }
    /// Whether flash encryption is on: 1 or 0.
    SkvFlashEncryption = 4 { refusal: SkvRefusal = 0, on: u8 = 3 }
    /// What a log begins with: a sample where whole is 1; its end where whole is 0 and nothing is refused.
    SkvNext = 8 { refusal: SkvRefusal = 0, whole: u8 = 3, sample: SkvSample = 4 }
}

// lent as a list of 16-bit numbers
const _: () = assert!(align_of::<SkvMillivolt>() == align_of::<u16>());

#[rustfmt::skip] // a call a line or two, as in the header
extern "C" {
    fn skv_read_field_u8(dump: *const u32, dump_len: usize, lengths: *const u8, lengths_len: usize, field: SkvField) -> SkvRead;
    fn skv_read_field_u16(dump: *const u32, dump_len: usize, lengths: *const u8, lengths_len: usize, field: SkvField) -> SkvRead;
    fn skv_read_field_u32(dump: *const u32, dump_len: usize, lengths: *const u8, lengths_len: usize, field: SkvField) -> SkvRead;
    fn skv_read_field_le(dump: *const u32, dump_len: usize, lengths: *const u8, lengths_len: usize, field: SkvField,
        bytes: *mut u8, bytes_len: usize) -> SkvOutcome;
    fn skv_view(field_dump: *const u32, field_dump_len: usize, reference_dump: *const u32, reference_dump_len: usize,
        lengths: *const u8, lengths_len: usize, board: u8, block: u8) -> SkvView;

    fn skv_check_map(chip: u8, lengths: *const u8, lengths_len: usize, map: *const u8, map_len: usize) -> SkvOutcome;

    fn skv_decode(dump: *const u32, dump_len: usize, lengths: *const u8, lengths_len: usize, map: *const u8, map_len: usize,
        unit: u8, attenuation: u8) -> SkvDecoded;
    fn skv_check_record(record: SkvLineRecord) -> SkvOutcome;
    fn skv_convert(record: SkvLineRecord, count: SkvCount) -> SkvVoltage;
    fn skv_fill(record: SkvLineRecord, first_count: SkvCount, millivolts: *mut u16, millivolts_len: usize) -> SkvOutcome;

    fn skv_s2_version(dump: *const u32, dump_len: usize, lengths: *const u8, lengths_len: usize, map: *const u8,
        map_len: usize) -> SkvVersion;
    fn skv_s2_reading_vlow(dump: *const u32, dump_len: usize, lengths: *const u8, lengths_len: usize, version: u8,
        unit: u8, attenuation: u8) -> SkvReading;
    fn skv_s2_reading_vhigh(dump: *const u32, dump_len: usize, lengths: *const u8, lengths_len: usize, version: u8,
        unit: u8, attenuation: u8) -> SkvReading;
    fn skv_s2_reading_vinit(dump: *const u32, dump_len: usize, lengths: *const u8, lengths_len: usize, version: u8,
        unit: u8, attenuation: u8) -> SkvReading;
    fn skv_s2_skipped_vlow(version: u8, unit: u8, attenuation: u8) -> SkvReading;
    fn skv_s2_skipped_vhigh(version: u8, unit: u8, attenuation: u8) -> SkvReading;
    fn skv_s2_skipped_vinit(version: u8, unit: u8, attenuation: u8) -> SkvReading;
    fn skv_s2_init_code(dump: *const u32, dump_len: usize, lengths: *const u8, lengths_len: usize, map: *const u8,
        map_len: usize, unit: u8, attenuation: u8) -> SkvCode;
    fn skv_s2_cal_code(dump: *const u32, dump_len: usize, lengths: *const u8, lengths_len: usize, map: *const u8,
        map_len: usize, unit: u8, attenuation: u8) -> SkvCode;
    fn skv_s2_cal_mv(unit: u8, attenuation: u8) -> SkvVoltage;
    fn skv_s2_flash_encryption(dump: *const u32, dump_len: usize, lengths: *const u8, lengths_len: usize, map: *const u8,
        map_len: usize) -> SkvFlashEncryption;

    fn skv_c6_version(minor_block_version: u8) -> u8;
    fn skv_c6_init_code(dump: *const u32, dump_len: usize, lengths: *const u8, lengths_len: usize, map: *const u8,
        map_len: usize, minor_block_version: u8, unit: u8, attenuation: u8) -> SkvCode;
    fn skv_c6_cal_code(dump: *const u32, dump_len: usize, lengths: *const u8, lengths_len: usize, map: *const u8,
        map_len: usize, minor_block_version: u8, unit: u8, attenuation: u8) -> SkvCode;
    fn skv_c6_get_chan_compens(dump: *const u32, dump_len: usize, lengths: *const u8, lengths_len: usize, map: *const u8,
        map_len: usize, unit: u8, channel: u8, attenuation: u8) -> SkvReading;
    fn skv_c6_cal_mv(minor_block_version: u8, unit: u8, attenuation: u8) -> SkvVoltage;

    fn skv_correct(chip: u8, minor_block_version: u8, unit: u8, attenuation: u8, line_answer: SkvMillivolt) -> SkvVoltage;

    fn skv_next_sample(log: *const u8, log_len: usize) -> SkvNext;
    fn skv_sample(sample: SkvSample, field_dump: *const u32, field_dump_len: usize, reference_dump: *const u32,
        reference_dump_len: usize, lengths: *const u8, lengths_len: usize, map: *const u8, map_len: usize) -> SkvVoltage;
}

macro_rules! calls {
    ($($name:ident($($arg:ident: $type:ty),*) -> $answer:ty = $call:expr;)*) => {
        $(
            #[doc = concat!("`skv_", stringify!($name), "`, as it answers C.")]
            #[inline]
            pub fn $name($($arg: $type),*) -> $answer {
                // SAFETY: as told at the head of this file
                unsafe { $call }
            }
        )*
    };
}

calls! {
    read_field_u8(dump: &[u32], lengths: &[u8], field: SkvField) -> SkvRead =
        skv_read_field_u8(dump.as_ptr(), dump.len(), lengths.as_ptr(), lengths.len(), field);
    read_field_u16(dump: &[u32], lengths: &[u8], field: SkvField) -> SkvRead =
        skv_read_field_u16(dump.as_ptr(), dump.len(), lengths.as_ptr(), lengths.len(), field);
    read_field_u32(dump: &[u32], lengths: &[u8], field: SkvField) -> SkvRead =
        skv_read_field_u32(dump.as_ptr(), dump.len(), lengths.as_ptr(), lengths.len(), field);
    read_field_le(dump: &[u32], lengths: &[u8], field: SkvField, bytes: &mut [u8]) -> SkvOutcome =
        skv_read_field_le(dump.as_ptr(), dump.len(), lengths.as_ptr(), lengths.len(), field,
            bytes.as_mut_ptr(), bytes.len());
    view(field_dump: &[u32], reference_dump: &[u32], lengths: &[u8], board: u8, block: u8) -> SkvView =
        skv_view(field_dump.as_ptr(), field_dump.len(), reference_dump.as_ptr(), reference_dump.len(),
            lengths.as_ptr(), lengths.len(), board, block);

    check_map(chip: u8, lengths: &[u8], map: &[u8]) -> SkvOutcome =
        skv_check_map(chip, lengths.as_ptr(), lengths.len(), map.as_ptr(), map.len());

    decode(dump: &[u32], lengths: &[u8], map: &[u8], unit: u8, attenuation: u8) -> SkvDecoded =
        skv_decode(dump.as_ptr(), dump.len(), lengths.as_ptr(), lengths.len(), map.as_ptr(), map.len(),
            unit, attenuation);
    check_record(record: SkvLineRecord) -> SkvOutcome = skv_check_record(record);
    convert(record: SkvLineRecord, count: SkvCount) -> SkvVoltage = skv_convert(record, count);
    fill(record: SkvLineRecord, first_count: SkvCount, millivolts: &mut [SkvMillivolt]) -> SkvOutcome =
        skv_fill(record, first_count, millivolts.as_mut_ptr().cast(), millivolts.len());

    s2_version(dump: &[u32], lengths: &[u8], map: &[u8]) -> SkvVersion =
        skv_s2_version(dump.as_ptr(), dump.len(), lengths.as_ptr(), lengths.len(), map.as_ptr(), map.len());
    s2_reading_vlow(dump: &[u32], lengths: &[u8], version: u8, unit: u8, attenuation: u8) -> SkvReading =
        skv_s2_reading_vlow(dump.as_ptr(), dump.len(), lengths.as_ptr(), lengths.len(), version, unit, attenuation);
    s2_reading_vhigh(dump: &[u32], lengths: &[u8], version: u8, unit: u8, attenuation: u8) -> SkvReading =
        skv_s2_reading_vhigh(dump.as_ptr(), dump.len(), lengths.as_ptr(), lengths.len(), version, unit, attenuation);
    s2_reading_vinit(dump: &[u32], lengths: &[u8], version: u8, unit: u8, attenuation: u8) -> SkvReading =
        skv_s2_reading_vinit(dump.as_ptr(), dump.len(), lengths.as_ptr(), lengths.len(), version, unit, attenuation);
    s2_skipped_vlow(version: u8, unit: u8, attenuation: u8) -> SkvReading = skv_s2_skipped_vlow(version, unit, attenuation);
    s2_skipped_vhigh(version: u8, unit: u8, attenuation: u8) -> SkvReading = skv_s2_skipped_vhigh(version, unit, attenuation);
    s2_skipped_vinit(version: u8, unit: u8, attenuation: u8) -> SkvReading = skv_s2_skipped_vinit(version, unit, attenuation);
    s2_init_code(dump: &[u32], lengths: &[u8], map: &[u8], unit: u8, attenuation: u8) -> SkvCode =
        skv_s2_init_code(dump.as_ptr(), dump.len(), lengths.as_ptr(), lengths.len(), map.as_ptr(), map.len(),
            unit, attenuation);
    s2_cal_code(dump: &[u32], lengths: &[u8], map: &[u8], unit: u8, attenuation: u8) -> SkvCode =
        skv_s2_cal_code(dump.as_ptr(), dump.len(), lengths.as_ptr(), lengths.len(), map.as_ptr(), map.len(),
            unit, attenuation);
    s2_cal_mv(unit: u8, attenuation: u8) -> SkvVoltage = skv_s2_cal_mv(unit, attenuation);
    s2_flash_encryption(dump: &[u32], lengths: &[u8], map: &[u8]) -> SkvFlashEncryption =
        skv_s2_flash_encryption(dump.as_ptr(), dump.len(), lengths.as_ptr(), lengths.len(), map.as_ptr(), map.len());

    c6_version(minor_block_version: u8) -> u8 = skv_c6_version(minor_block_version);
    c6_init_code(dump: &[u32], lengths: &[u8], map: &[u8], minor_block_version: u8, unit: u8, attenuation: u8) -> SkvCode =
        skv_c6_init_code(dump.as_ptr(), dump.len(), lengths.as_ptr(), lengths.len(), map.as_ptr(), map.len(),
            minor_block_version, unit, attenuation);
    c6_cal_code(dump: &[u32], lengths: &[u8], map: &[u8], minor_block_version: u8, unit: u8, attenuation: u8) -> SkvCode =
        skv_c6_cal_code(dump.as_ptr(), dump.len(), lengths.as_ptr(), lengths.len(), map.as_ptr(), map.len(),
            minor_block_version, unit, attenuation);
    c6_get_chan_compens(dump: &[u32], lengths: &[u8], map: &[u8], unit: u8, channel: u8, attenuation: u8) -> SkvReading =
        skv_c6_get_chan_compens(dump.as_ptr(), dump.len(), lengths.as_ptr(), lengths.len(), map.as_ptr(), map.len(),
            unit, channel, attenuation);
    c6_cal_mv(minor_block_version: u8, unit: u8, attenuation: u8) -> SkvVoltage =
        skv_c6_cal_mv(minor_block_version, unit, attenuation);

    correct(chip: u8, minor_block_version: u8, unit: u8, attenuation: u8, line_answer: SkvMillivolt) -> SkvVoltage =
        skv_correct(chip, minor_block_version, unit, attenuation, line_answer);

    next_sample(log: &[u8]) -> SkvNext = skv_next_sample(log.as_ptr(), log.len());
    sample(sample: SkvSample, field_dump: &[u32], reference_dump: &[u32], lengths: &[u8], map: &[u8]) -> SkvVoltage =
        skv_sample(sample, field_dump.as_ptr(), field_dump.len(), reference_dump.as_ptr(), reference_dump.len(),
            lengths.as_ptr(), lengths.len(), map.as_ptr(), map.len());
}
