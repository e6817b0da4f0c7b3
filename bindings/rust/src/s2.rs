//! The S2: its calibration's version, readings and codes; flash encryption.
use crate::raw::{self, SkvCode};
use crate::{check_map, Answer, Attenuation, Chip, Millivolt, Reason, Refusal, Unit};

/// The calibration's version.
///
/// # Errors
/// [`Dump`](Reason::Dump), [`Lengths`](Reason::Lengths), the map's ([`check_map`]).
#[inline]
pub fn version(dump: &[u32], lengths: &[u8], map: &[u8]) -> Answer<u8> {
    let answer = raw::s2_version(dump, lengths, map);
    answer.refusal.or_of_map(answer.version)
}

macro_rules! readings {
    ($($what:literal $reading:ident $raw_reading:ident $skipped:ident $raw_skipped:ident;)*) => {
        $(
            #[doc = concat!("The reading of the ", $what, " by a version; 0 where that version hasn't one.")]
            ///
            /// # Errors
            /// [`Dump`](Reason::Dump), [`Lengths`](Reason::Lengths), [`Unit`](Reason::Unit), [`BitRange`](Reason::BitRange) where a
            /// field that it reads lies past block 2's own length.
            #[inline]
            pub fn $reading(dump: &[u32], lengths: &[u8], version: u8, unit: Unit, attenuation: Attenuation) -> Answer<i32> {
                let answer = raw::$raw_reading(dump, lengths, version, unit.0, attenuation.0);
                answer.refusal.or(answer.value)
            }

            #[doc = concat!("The reading of the ", $what, " with the eFuse skipped.")]
            ///
            /// # Errors
            /// [`Unit`](Reason::Unit).
            #[inline]
            pub fn $skipped(version: u8, unit: Unit, attenuation: Attenuation) -> Answer<i32> {
                let answer = raw::$raw_skipped(version, unit.0, attenuation.0);
                answer.refusal.or(answer.value)
            }
        )*
    };
}

readings! {
    "low voltage" reading_vlow s2_reading_vlow skipped_vlow s2_skipped_vlow;
    "high voltage" reading_vhigh s2_reading_vhigh skipped_vhigh s2_skipped_vhigh;
    "initial code" reading_vinit s2_reading_vinit skipped_vinit s2_skipped_vinit;
}

/// The initial code.
///
/// # Errors
/// [`Dump`](Reason::Dump), [`Lengths`](Reason::Lengths), [`Unit`](Reason::Unit), the map's ([`check_map`]),
/// [`NoCode`](Reason::NoCode), [`BitRange`](Reason::BitRange) as of a reading, which tells no record.
#[inline]
pub fn init_code(dump: &[u32], lengths: &[u8], map: &[u8], unit: Unit, attenuation: Attenuation) -> Answer<u16> {
    code(raw::s2_init_code(dump, lengths, map, unit.0, attenuation.0), lengths, map)
}

/// The code at the reference voltage, [`cal_mv`].
///
/// # Errors
/// Those of [`init_code`].
#[inline]
pub fn cal_code(dump: &[u32], lengths: &[u8], map: &[u8], unit: Unit, attenuation: Attenuation) -> Answer<u16> {
    code(raw::s2_cal_code(dump, lengths, map, unit.0, attenuation.0), lengths, map)
}

/// A code, or why there is none.
#[inline]
fn code(answer: SkvCode, lengths: &[u8], map: &[u8]) -> Answer<u16> {
    answer.refusal.or_of_map(answer.code).map_err(|refusal| of_map_or_reading(refusal, lengths, map))
}

/// C's 5 of the map's record 0 and its 5 of a reading, which is no record's, are the same three bytes. The map is checked before
/// anything is read: where it is good, a reading was meant.
#[cold]
#[inline(never)]
fn of_map_or_reading(refusal: Refusal, lengths: &[u8], map: &[u8]) -> Refusal {
    let is_of_a_reading = refusal.reason == Reason::BitRange && check_map(Chip::S2, lengths, map).is_ok();
    if is_of_a_reading {
        refusal.reason.into()
    } else {
        refusal
    }
}

/// The reference voltage of an attenuation.
///
/// # Errors
/// [`Unit`](Reason::Unit).
#[inline]
pub fn cal_mv(unit: Unit, attenuation: Attenuation) -> Answer<Millivolt> {
    let answer = raw::s2_cal_mv(unit.0, attenuation.0);
    answer.refusal.or(answer.voltage)
}

/// Whether flash encryption is on.
///
/// # Errors
/// Those of [`version`].
#[inline]
pub fn flash_encryption(dump: &[u32], lengths: &[u8], map: &[u8]) -> Answer<bool> {
    let answer = raw::s2_flash_encryption(dump, lengths, map);
    answer.refusal.or_of_map(answer.on != 0)
}
