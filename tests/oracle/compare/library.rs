//! The library's calls as a table, each through the binding, bindings/rust: a fault for the self-check is the same table with one call
//! wrapped. The same is asked in C's terms, by the binding's raw call: its three bytes have to say what the binding says, and zeros
//! have to stand beside a refusal, where Rust has nothing.
use oracle::fields::Field;
use oracle::rules;
use suongkivat::raw::{self, SkvRefusal};
use suongkivat::{
    Answer, Attenuation, Chip, Count, LineRecord, Millivolt, Sample, Session, Unit, c6, check_map, correct, next_sample, s2,
};

use crate::told::{Decoded, Next, Outcome, Refused, Told, View};

macro_rules! library {
    ($($name:ident($($arg:ident: $type:ty),*) -> $answer:ty = $call:expr;)*) => {
        #[derive(Clone, Copy)]
        pub struct Library {
            $(pub $name: fn($($type),*) -> $answer,)*
        }

        /// The names of the calls.
        pub const CALLS: &[&str] = &[$(stringify!($name)),*];

        /// The proved library.
        pub const PROVED: Library = Library { $($name: |$($arg: $type),*| $call,)* };
    };
}

/// What C has: a refusal, and the value beside it.
macro_rules! in_c {
    ($call:ident($($arg:expr),*)$($value:tt)+) => {{
        let answer = raw::$call($($arg),*);
        (answer.refusal, answer$($value)+)
    }};
}

fn refused<T>(answer: &Answer<T>, in_c: SkvRefusal) -> Refused {
    let refusal = |refusal: &suongkivat::Refusal| {
        let suongkivat::Refusal { reason, record, place } = *refusal;
        rules::Refusal { number: reason.number(), record, place }
    };
    Refused { in_rust: answer.as_ref().err().map(refusal), in_c: [in_c.number, in_c.record, in_c.place] }
}

/// An answer, and what C has beside its refusal.
fn told<T>(answer: Answer<T>, (in_c, beside): (SkvRefusal, T)) -> Told<T> {
    Told { refused: refused(&answer, in_c), value: answer.unwrap_or(beside) }
}

fn outcome(answer: Answer<()>, in_c: SkvRefusal) -> Outcome {
    Outcome { refused: refused(&answer, in_c) }
}

/// The binding's field.
fn ours(Field { block, bit_start, bit_count }: Field) -> suongkivat::Field {
    suongkivat::Field { block, bit_start, bit_count }
}

/// Where a part of one of two dumps stands: its board, its first word, and how many there are.
fn place(part: &[u32], field: &[u32], reference: &[u32]) -> (u8, u32, u32) {
    let (board, dump) = if reference.as_ptr_range().contains(&part.as_ptr()) { (1, reference) } else { (0, field) };
    let first = part.as_ptr().addr().wrapping_sub(dump.as_ptr().addr()) / size_of::<u32>();
    (board, first as u32, part.len() as u32)
}

fn viewed(field: &[u32], reference: &[u32], lengths: &[u8], board: u8, block: u8) -> View {
    let answer = Session { field, reference, lengths }.view(board, block);
    let beside = raw::view(field, reference, lengths, board, block);
    let refused = refused(&answer, beside.refusal);
    let part = answer.map(|part| place(part, field, reference));
    let (board, first, words) = part.unwrap_or((beside.board, beside.first, beside.words));
    View { refused, board, first, words }
}

/// C's bytes of a record, as they stand in memory.
fn bytes(record: LineRecord) -> [u8; 15] {
    // SAFETY: a record has 16 bytes, of which these belong to its parts
    unsafe { *std::ptr::from_ref(&record).cast() }
}

fn decoded(dump: &[u32], lengths: &[u8], map: &[u8], unit: u8, atten: u8) -> Told<Decoded> {
    let answer = LineRecord::decode(dump, lengths, map, Unit(unit), Attenuation(atten));
    let beside = raw::decode(dump, lengths, map, unit, atten);
    let refused = refused(&answer, beside.refusal);
    Told { refused, value: Decoded { in_rust: answer.unwrap_or(beside.record), in_c: bytes(beside.record) } }
}

fn next(log: &[u8]) -> Next {
    let answer = next_sample(log);
    let beside = raw::next_sample(log);
    let refused = refused(&answer, beside.refusal);
    let sample = answer.ok().flatten();
    let (whole, sample) = sample.map_or((beside.whole, beside.sample), |sample| (1, sample));
    Next { refused, whole, sample }
}

// A call that writes is asked in C's terms on a copy of what it is lent, so that what stands there is the binding's alone.
library! {
    read_field_u8(dump: &[u32], lengths: &[u8], field: Field) -> Told<u32> =
        told(ours(field).read_u8(dump, lengths).map(u32::from), in_c!(read_field_u8(dump, lengths, ours(field)).value));
    read_field_u16(dump: &[u32], lengths: &[u8], field: Field) -> Told<u32> =
        told(ours(field).read_u16(dump, lengths).map(u32::from), in_c!(read_field_u16(dump, lengths, ours(field)).value));
    read_field_u32(dump: &[u32], lengths: &[u8], field: Field) -> Told<u32> =
        told(ours(field).read_u32(dump, lengths), in_c!(read_field_u32(dump, lengths, ours(field)).value));
    read_field_le(dump: &[u32], lengths: &[u8], field: Field, bytes: &mut [u8]) -> Outcome = {
        let in_c = raw::read_field_le(dump, lengths, ours(field), &mut bytes.to_vec());
        outcome(ours(field).read_le(dump, lengths, bytes), in_c.refusal)
    };
    view(field: &[u32], reference: &[u32], lengths: &[u8], board: u8, block: u8) -> View =
        viewed(field, reference, lengths, board, block);
    check_map(chip: u8, lengths: &[u8], map: &[u8]) -> Outcome =
        outcome(check_map(Chip(chip), lengths, map), raw::check_map(chip, lengths, map).refusal);

    decode(dump: &[u32], lengths: &[u8], map: &[u8], unit: u8, atten: u8) -> Told<Decoded> =
        decoded(dump, lengths, map, unit, atten);
    check_record(cal: LineRecord) -> Outcome = outcome(cal.check(), raw::check_record(cal).refusal);
    convert(cal: LineRecord, raw: u16) -> Told<u16> =
        told(cal.convert(Count(raw)).map(|mv| mv.0), in_c!(convert(cal, Count(raw)).voltage.0));
    fill(cal: LineRecord, first: u16, out: &mut [Millivolt]) -> Outcome = {
        let in_c = raw::fill(cal, Count(first), &mut out.to_vec());
        outcome(cal.fill(Count(first), out), in_c.refusal)
    };

    s2_version(dump: &[u32], lengths: &[u8], map: &[u8]) -> Told<u8> =
        told(s2::version(dump, lengths, map), in_c!(s2_version(dump, lengths, map).version));
    s2_reading_vlow(dump: &[u32], lengths: &[u8], version: u8, unit: u8, atten: u8) -> Told<i32> =
        told(s2::reading_vlow(dump, lengths, version, Unit(unit), Attenuation(atten)),
            in_c!(s2_reading_vlow(dump, lengths, version, unit, atten).value));
    s2_reading_vhigh(dump: &[u32], lengths: &[u8], version: u8, unit: u8, atten: u8) -> Told<i32> =
        told(s2::reading_vhigh(dump, lengths, version, Unit(unit), Attenuation(atten)),
            in_c!(s2_reading_vhigh(dump, lengths, version, unit, atten).value));
    s2_reading_vinit(dump: &[u32], lengths: &[u8], version: u8, unit: u8, atten: u8) -> Told<i32> =
        told(s2::reading_vinit(dump, lengths, version, Unit(unit), Attenuation(atten)),
            in_c!(s2_reading_vinit(dump, lengths, version, unit, atten).value));
    s2_skipped_vlow(version: u8, unit: u8, atten: u8) -> Told<i32> =
        told(s2::skipped_vlow(version, Unit(unit), Attenuation(atten)), in_c!(s2_skipped_vlow(version, unit, atten).value));
    s2_skipped_vhigh(version: u8, unit: u8, atten: u8) -> Told<i32> =
        told(s2::skipped_vhigh(version, Unit(unit), Attenuation(atten)), in_c!(s2_skipped_vhigh(version, unit, atten).value));
    s2_skipped_vinit(version: u8, unit: u8, atten: u8) -> Told<i32> =
        told(s2::skipped_vinit(version, Unit(unit), Attenuation(atten)), in_c!(s2_skipped_vinit(version, unit, atten).value));
    s2_init_code(dump: &[u32], lengths: &[u8], map: &[u8], unit: u8, atten: u8) -> Told<u16> =
        told(s2::init_code(dump, lengths, map, Unit(unit), Attenuation(atten)),
            in_c!(s2_init_code(dump, lengths, map, unit, atten).code));
    s2_cal_code(dump: &[u32], lengths: &[u8], map: &[u8], unit: u8, atten: u8) -> Told<u16> =
        told(s2::cal_code(dump, lengths, map, Unit(unit), Attenuation(atten)),
            in_c!(s2_cal_code(dump, lengths, map, unit, atten).code));
    s2_cal_mv(unit: u8, atten: u8) -> Told<u16> =
        told(s2::cal_mv(Unit(unit), Attenuation(atten)).map(|mv| mv.0), in_c!(s2_cal_mv(unit, atten).voltage.0));
    s2_flash_encryption(dump: &[u32], lengths: &[u8], map: &[u8]) -> Told<u8> =
        told(s2::flash_encryption(dump, lengths, map).map(u8::from), in_c!(s2_flash_encryption(dump, lengths, map).on));

    c6_version(minor: u8) -> u8 = c6::version(minor);
    c6_init_code(dump: &[u32], lengths: &[u8], map: &[u8], minor: u8, unit: u8, atten: u8) -> Told<u16> =
        told(c6::init_code(dump, lengths, map, minor, Unit(unit), Attenuation(atten)),
            in_c!(c6_init_code(dump, lengths, map, minor, unit, atten).code));
    c6_cal_code(dump: &[u32], lengths: &[u8], map: &[u8], minor: u8, unit: u8, atten: u8) -> Told<u16> =
        told(c6::cal_code(dump, lengths, map, minor, Unit(unit), Attenuation(atten)),
            in_c!(c6_cal_code(dump, lengths, map, minor, unit, atten).code));
    c6_get_chan_compens(dump: &[u32], lengths: &[u8], map: &[u8], unit: u8, channel: u8, atten: u8) -> Told<i32> =
        told(c6::get_chan_compens(dump, lengths, map, Unit(unit), channel, Attenuation(atten)),
            in_c!(c6_get_chan_compens(dump, lengths, map, unit, channel, atten).value));
    c6_cal_mv(minor: u8, unit: u8, atten: u8) -> Told<u16> =
        told(c6::cal_mv(minor, Unit(unit), Attenuation(atten)).map(|mv| mv.0), in_c!(c6_cal_mv(minor, unit, atten).voltage.0));

    correct(chip: u8, minor: u8, unit: u8, atten: u8, line: u16) -> Told<u16> =
        told(correct(Chip(chip), minor, Unit(unit), Attenuation(atten), Millivolt(line)).map(|mv| mv.0),
            in_c!(correct(chip, minor, unit, atten, Millivolt(line)).voltage.0));

    next_sample(log: &[u8]) -> Next = next(log);
    sample(sample: Sample, field: &[u32], reference: &[u32], lengths: &[u8], map: &[u8]) -> Told<u16> =
        told(Session { field, reference, lengths }.sample(map, sample).map(|mv| mv.0),
            in_c!(sample(sample, field, reference, lengths, map).voltage.0));
}
