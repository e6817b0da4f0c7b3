//! Faults of decoding.
use oracle::document::{self, TwoPoints};
use oracle::rules::Refusal;
use suongkivat::{Attenuation, LineRecord, Source, Unit};

use super::{bits, good, otherwise, refused, swapped, twos_complement, with_bits};
use crate::library::PROVED;
use crate::told::{self, Told};

type Decoded = Told<told::Decoded>;

/// The answer with something else of its record, in Rust and in C.
fn with_record(told: Decoded, change: impl FnOnce(LineRecord) -> LineRecord) -> Decoded {
    if told.refused.number() == 0 { good(change(told.value.in_rust).into()) } else { told }
}

/// Decodes the sign and magnitude of what the bits mean in two's complement.
pub fn vref_in_twos_complement(dump: &[u32], lengths: &[u8], map: &[u8], unit: u8, atten: u8) -> Decoded {
    let value = twos_complement(bits(dump, map, 0), 5);
    let sign_and_magnitude = if value < 0 { 16 + value.unsigned_abs() % 16 } else { value.unsigned_abs() };
    (PROVED.decode)(&with_bits(dump, map, 0, sign_and_magnitude), lengths, map, unit, atten)
}

/// Two points for Vref, and Vref for two points.
pub fn source_exchanged(dump: &[u32], lengths: &[u8], map: &[u8], unit: u8, atten: u8) -> Decoded {
    let other = |record: LineRecord| LineRecord { source: Source(1 - record.source.0), ..record };
    with_record((PROVED.decode)(dump, lengths, map, unit, atten), other)
}

pub fn always_vref(dump: &[u32], lengths: &[u8], map: &[u8], unit: u8, atten: u8) -> Decoded {
    with_record((PROVED.decode)(dump, lengths, map, unit, atten), |record| LineRecord { source: Source::VREF, ..record })
}

/// Whatever the codes are.
pub fn source_of_reserve(dump: &[u32], lengths: &[u8], map: &[u8], unit: u8, atten: u8) -> Decoded {
    let source = if bits(dump, map, 1) == 1 { Source::TWO_POINT } else { Source::VREF };
    with_record((PROVED.decode)(dump, lengths, map, unit, atten), |record| LineRecord { source, ..record })
}

/// All that was kept of it before document 02: whether it is 3.
pub fn attenuation_lost(dump: &[u32], lengths: &[u8], map: &[u8], unit: u8, atten: u8) -> Decoded {
    let kept = Attenuation(if atten == 3 { 3 } else { 0 });
    with_record((PROVED.decode)(dump, lengths, map, unit, atten), |record| LineRecord { attenuation: kept, ..record })
}

/// Rust has them as they are.
pub fn bytes_exchanged(dump: &[u32], lengths: &[u8], map: &[u8], unit: u8, atten: u8) -> Decoded {
    let mut told = (PROVED.decode)(dump, lengths, map, unit, atten);
    told.value.in_c.swap(13, 14);
    told
}

pub fn other_unit_passed_over(dump: &[u32], lengths: &[u8], map: &[u8], unit: u8, atten: u8) -> Decoded {
    let other = usize::from(1 - unit.min(1));
    let dump = with_bits(dump, map, 2 + other, 1);
    (PROVED.decode)(&with_bits(&dump, map, 4 + other, 1), lengths, map, unit, atten)
}

pub fn plain_twos_complement(dump: &[u32], lengths: &[u8], map: &[u8], unit: u8, atten: u8) -> Decoded {
    let told = (PROVED.decode)(dump, lengths, map, unit, atten);
    if told.refused.number() != 0 || two_points(dump, map, unit, atten).is_none() {
        return told;
    }
    let code = |k, width| twos_complement(bits(dump, map, k + usize::from(unit)), width);
    let TwoPoints { a, b, .. } = document::by_codes(unit.into(), atten.into(), code(2, 7), code(4, 9));
    let line = |record: LineRecord| LineRecord { coeff_a: a as u32, coeff_b: b as u32, ..record };
    if b < 0 { refused(9) } else { with_record(told, line) }
}

/// What two points give, where a call gets as far as them; none where it goes by Vref.
fn two_points(dump: &[u32], map: &[u8], unit: u8, atten: u8) -> Option<TwoPoints> {
    let used = bits(dump, map, 1) == 1 && (2..6).all(|k| bits(dump, map, k) != 0);
    let code = |k| bits(dump, map, k + usize::from(unit));
    used.then(|| document::two_points(unit.into(), atten.into(), code(2), code(4)))
}

/// b by Vref is never 0.
pub fn b_of_0_refused(dump: &[u32], lengths: &[u8], map: &[u8], unit: u8, atten: u8) -> Decoded {
    let told = (PROVED.decode)(dump, lengths, map, unit, atten);
    if told.refused.number() == 0 && told.value.in_rust.coeff_b == 0 { refused(9) } else { told }
}

/// The rule before document 02: 9 wherever t is above 850.
pub fn offset_passed_over(dump: &[u32], lengths: &[u8], map: &[u8], unit: u8, atten: u8) -> Decoded {
    let told = (PROVED.decode)(dump, lengths, map, unit, atten);
    let above = || two_points(dump, map, unit, atten).is_some_and(|points| points.t > 850);
    if told.refused.number() == 0 && above() { refused(9) } else { told }
}

/// A difference that stops at 0, so that t above 850 leaves the offset alone.
pub fn cut_at_zero(dump: &[u32], lengths: &[u8], map: &[u8], unit: u8, atten: u8) -> Decoded {
    let told = (PROVED.decode)(dump, lengths, map, unit, atten);
    match two_points(dump, map, unit, atten).filter(|points| points.t > 850) {
        Some(TwoPoints { t, b, .. }) => with_record(told, |record| LineRecord { coeff_b: (b + t - 850) as u32, ..record }),
        None => told,
    }
}

/// b as a build without overflow checks has it, whatever its sign.
pub fn wrapped_around(dump: &[u32], lengths: &[u8], map: &[u8], unit: u8, atten: u8) -> Decoded {
    let told = (PROVED.decode)(dump, lengths, map, unit, atten);
    let Some(TwoPoints { a, b, .. }) = (told.refused.number() == 9).then(|| two_points(dump, map, unit, atten)).flatten()
    else {
        return told;
    };
    let (coeff_a, coeff_b, vref) = (a as u32, b as u32, document::vref(bits(dump, map, 0)) as u32);
    let (unit, attenuation, source) = (Unit(unit), Attenuation(atten), Source::TWO_POINT);
    good(LineRecord { coeff_a, coeff_b, vref, unit, attenuation, source }.into())
}

pub fn refusal_with_vref(dump: &[u32], lengths: &[u8], map: &[u8], unit: u8, atten: u8) -> Decoded {
    let told = (PROVED.decode)(dump, lengths, map, unit, atten);
    let vref = LineRecord { vref: 1100, ..told.value.in_rust };
    if told.refused.number() == 9 { Told { value: vref.into(), ..told } } else { told }
}

/// A record that isn't there has no source, and 1 isn't none.
pub fn refusal_with_source(dump: &[u32], lengths: &[u8], map: &[u8], unit: u8, atten: u8) -> Decoded {
    let told = (PROVED.decode)(dump, lengths, map, unit, atten);
    let source = LineRecord { source: Source::VREF, ..told.value.in_rust };
    if told.refused.number() == 0 { told } else { Told { value: source.into(), ..told } }
}

pub fn unit_before_dump(dump: &[u32], lengths: &[u8], map: &[u8], unit: u8, atten: u8) -> Decoded {
    swapped((PROVED.decode)(dump, lengths, map, unit, atten), 1, 7, || (PROVED.decode)(&[0; 88], lengths, map, unit, atten))
}

pub fn map_before_unit(dump: &[u32], lengths: &[u8], map: &[u8], unit: u8, atten: u8) -> Decoded {
    swapped((PROVED.decode)(dump, lengths, map, unit, atten), 7, 2, || (PROVED.decode)(dump, lengths, map, 0, 0))
}

pub fn longer_dump(dump: &[u32], lengths: &[u8], map: &[u8], unit: u8, atten: u8) -> Decoded {
    (PROVED.decode)(&dump[..dump.len().min(88)], lengths, map, unit, atten)
}

/// 18 tells its record alone.
pub fn place_lost(dump: &[u32], lengths: &[u8], map: &[u8], unit: u8, atten: u8) -> Decoded {
    let told = (PROVED.decode)(dump, lengths, map, unit, atten);
    Told { refused: otherwise(told.refused, |refusal| Refusal { place: None, ..refusal }), ..told }
}

pub fn record_beside_good(dump: &[u32], lengths: &[u8], map: &[u8], unit: u8, atten: u8) -> Decoded {
    let mut told = (PROVED.decode)(dump, lengths, map, unit, atten);
    if told.refused.number() == 0 {
        told.refused.in_c[1] = 5;
    }
    told
}
