//! The C6: its calibration's version, codes and channels.
use crate::{raw, Answer, Attenuation, Millivolt, Unit};

/// The calibration's version: 1 or 2, or 0 where there is none.
#[inline]
pub fn version(minor_block_version: u8) -> u8 {
    raw::c6_version(minor_block_version)
}

/// The initial code.
///
/// # Errors
/// [`Dump`](crate::Reason::Dump), [`Lengths`](crate::Reason::Lengths), [`Unit`](crate::Reason::Unit), the map's
/// ([`check_map`](crate::check_map)), [`NoCode`](crate::Reason::NoCode).
#[inline]
pub fn init_code(
    dump: &[u32],
    lengths: &[u8],
    map: &[u8],
    minor_block_version: u8,
    unit: Unit,
    attenuation: Attenuation,
) -> Answer<u16> {
    let answer = raw::c6_init_code(dump, lengths, map, minor_block_version, unit.0, attenuation.0);
    answer.refusal.or_of_map(answer.code)
}

/// The code at the reference voltage, [`cal_mv`].
///
/// # Errors
/// Those of [`init_code`].
#[inline]
pub fn cal_code(
    dump: &[u32],
    lengths: &[u8],
    map: &[u8],
    minor_block_version: u8,
    unit: Unit,
    attenuation: Attenuation,
) -> Answer<u16> {
    let answer = raw::c6_cal_code(dump, lengths, map, minor_block_version, unit.0, attenuation.0);
    answer.refusal.or_of_map(answer.code)
}

/// A channel's compensation; channels 6 and up use channel 6.
///
/// # Errors
/// [`Dump`](crate::Reason::Dump), [`Lengths`](crate::Reason::Lengths), [`Unit`](crate::Reason::Unit), the map's
/// ([`check_map`](crate::check_map)).
#[inline]
pub fn get_chan_compens(
    dump: &[u32],
    lengths: &[u8],
    map: &[u8],
    unit: Unit,
    channel: u8,
    attenuation: Attenuation,
) -> Answer<i32> {
    let answer = raw::c6_get_chan_compens(dump, lengths, map, unit.0, channel, attenuation.0);
    answer.refusal.or_of_map(answer.value)
}

/// The reference voltage of an attenuation.
///
/// # Errors
/// [`Unit`](crate::Reason::Unit).
#[inline]
pub fn cal_mv(minor_block_version: u8, unit: Unit, attenuation: Attenuation) -> Answer<Millivolt> {
    let answer = raw::c6_cal_mv(minor_block_version, unit.0, attenuation.0);
    answer.refusal.or(answer.voltage)
}
