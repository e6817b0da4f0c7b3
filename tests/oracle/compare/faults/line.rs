//! Faults of line records and of converting.
use oracle::line;
use suongkivat::{Attenuation, LineRecord, Source, Unit};

use super::{good, outcome, refused, swapped};
use crate::library::PROVED;
use crate::told::{Outcome, Told};

fn is_by_vref(cal: LineRecord) -> bool {
    cal.source == Source::VREF
}

/// The record as one by two points, which isn't held to a line, where it is by Vref.
pub fn not_held(cal: LineRecord) -> LineRecord {
    LineRecord { source: if is_by_vref(cal) { Source::TWO_POINT } else { cal.source }, ..cal }
}

/// The record as one by two points, where its byte names no source.
pub fn sourced(cal: LineRecord) -> LineRecord {
    LineRecord { source: if cal.source > Source::VREF { Source::TWO_POINT } else { cal.source }, ..cal }
}

pub fn vref_1206(cal: LineRecord) -> Outcome {
    (PROVED.check_record)(LineRecord { vref: if cal.vref == 1206 { 1205 } else { cal.vref }, ..cal })
}

pub fn unit_2(cal: LineRecord) -> Outcome {
    (PROVED.check_record)(LineRecord { unit: if cal.unit == Unit(2) { Unit(1) } else { cal.unit }, ..cal })
}

pub fn attenuation_4(cal: LineRecord) -> Outcome {
    let attenuation = if cal.attenuation == Attenuation(4) { Attenuation::DB_11 } else { cal.attenuation };
    (PROVED.check_record)(LineRecord { attenuation, ..cal })
}

/// 1 is Vref, and all else two points.
pub fn any_byte_is_two_points(cal: LineRecord) -> Outcome {
    (PROVED.check_record)(LineRecord { source: if is_by_vref(cal) { Source::VREF } else { Source::TWO_POINT }, ..cal })
}

/// 0 is two points, and 2 Vref.
pub fn source_2(cal: LineRecord) -> Outcome {
    (PROVED.check_record)(LineRecord { source: if cal.source == Source(2) { Source::VREF } else { cal.source }, ..cal })
}

pub fn line_passed_over(cal: LineRecord) -> Outcome {
    (PROVED.check_record)(not_held(cal))
}

pub fn two_points_held(cal: LineRecord) -> Outcome {
    (PROVED.check_record)(LineRecord { source: if cal.source == Source::TWO_POINT { Source::VREF } else { cal.source }, ..cal })
}

/// The a and b that the check wants of a record by Vref inside its ranges; none of others.
fn wanted(cal: LineRecord) -> Option<(u32, u32)> {
    let inside = is_by_vref(cal) && (PROVED.check_record)(not_held(cal)) == outcome(0);
    inside.then(|| line::by_vref(cal.unit.0, cal.attenuation.0, cal.vref))
}

pub fn another_b(cal: LineRecord) -> Outcome {
    (PROVED.check_record)(LineRecord { coeff_b: wanted(cal).map_or(cal.coeff_b, |(_, b)| b), ..cal })
}

pub fn a_one_more(cal: LineRecord) -> Outcome {
    let one_more = wanted(cal).is_some_and(|(a, _)| cal.coeff_a == a + 1);
    (PROVED.check_record)(LineRecord { coeff_a: cal.coeff_a - u32::from(one_more), ..cal })
}

/// As by two points. Twice the Vref gives twice a, and one more where half or more was cut off.
pub fn a_rounded(cal: LineRecord) -> Outcome {
    let Some((a, b)) = wanted(cal) else { return (PROVED.check_record)(cal) };
    let (twice, _) = line::by_vref(cal.unit.0, cal.attenuation.0, 2 * cal.vref);
    if (cal.coeff_a, cal.coeff_b) == (twice - a, b) { outcome(0) } else { outcome(10) }
}

pub fn other_units_line(cal: LineRecord) -> Outcome {
    let other = LineRecord { unit: Unit(1 - cal.unit.0.min(1)), ..cal };
    let Some((a, b)) = wanted(other) else { return (PROVED.check_record)(cal) };
    let inside = (PROVED.check_record)(not_held(cal));
    if inside == outcome(0) && (cal.coeff_a, cal.coeff_b) != (a, b) { outcome(10) } else { inside }
}

/// Every seventh Vref alone, as a code gives it.
pub fn vrefs_of_codes(cal: LineRecord) -> Outcome {
    let no_code = is_by_vref(cal) && cal.vref % 7 != 1100 % 7;
    if no_code { outcome(10) } else { (PROVED.check_record)(cal) }
}

/// The record by two points with something else about it, where it was one to convert by.
fn changed(cal: LineRecord, change: impl FnOnce(LineRecord) -> LineRecord) -> LineRecord {
    if (PROVED.check_record)(cal) == outcome(0) { change(not_held(cal)) } else { cal }
}

/// The record without the lookup.
pub fn line_alone(cal: LineRecord) -> LineRecord {
    changed(cal, |cal| LineRecord { attenuation: Attenuation::DB_0, ..cal })
}

/// The record with the lookup, where it is of 6 dB.
pub fn looked_up_at_6_db(cal: LineRecord) -> LineRecord {
    let db_6 = cal.attenuation == Attenuation::DB_6;
    if db_6 { changed(cal, |cal| LineRecord { attenuation: Attenuation::DB_11, ..cal }) } else { cal }
}

pub fn lookup_at_6_db(cal: LineRecord, raw: u16) -> Told<u16> {
    (PROVED.convert)(looked_up_at_6_db(cal), raw)
}

pub fn half_left_out(cal: LineRecord, raw: u16) -> Told<u16> {
    let told = (PROVED.convert)(cal, raw);
    let line = || cal.coeff_a * u32::from(raw) / 65536 + cal.coeff_b;
    if told.refused.number() == 0 && !cal.uses_lookup() { good(line() as u16) } else { told }
}

/// The entry at count 3520, seen there alone, and where the vref is low enough that it is the low list's.
pub fn higher_entry(cal: LineRecord, raw: u16) -> Told<u16> {
    let told = (PROVED.convert)(cal, raw);
    let seen = cal.uses_lookup() && raw == 3520 && cal.vref <= 1000;
    if told.refused.number() == 0 && seen { good(told.value + 1) } else { told }
}

pub fn other_units_lookup(cal: LineRecord, raw: u16) -> Told<u16> {
    let other = || changed(cal, |cal| LineRecord { unit: Unit(1 - cal.unit.0), ..cal });
    (PROVED.convert)(if raw > 2944 { other() } else { cal }, raw)
}

pub fn later_blend(cal: LineRecord, raw: u16) -> Told<u16> {
    (PROVED.convert)(if raw < 2882 { line_alone(cal) } else { cal }, raw)
}

pub fn raw_4096(cal: LineRecord, raw: u16) -> Told<u16> {
    (PROVED.convert)(cal, if raw == 4096 { 4095 } else { raw })
}

pub fn raw_before_record(cal: LineRecord, raw: u16) -> Told<u16> {
    swapped((PROVED.convert)(cal, raw), 10, 8, || if raw > 4095 { refused(8) } else { good(0) })
}

pub fn converted_by_any_line(cal: LineRecord, raw: u16) -> Told<u16> {
    (PROVED.convert)(not_held(cal), raw)
}

/// The ranges first, then 8, and only then the line of a record by Vref, or whether there is such a source.
pub fn raw_before_line(cal: LineRecord, raw: u16) -> Told<u16> {
    swapped((PROVED.convert)(cal, raw), 10, 8, || (PROVED.convert)(not_held(cal), raw))
}

pub fn raw_before_source(cal: LineRecord, raw: u16) -> Told<u16> {
    swapped((PROVED.convert)(cal, raw), 10, 8, || (PROVED.convert)(sourced(cal), raw))
}
