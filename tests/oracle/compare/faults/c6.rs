//! Faults of the C6.
use super::{bits, good, refused, swapped, twos_complement};
use crate::library::PROVED;
use crate::told::Told;

pub fn others_base(dump: &[u32], lengths: &[u8], map: &[u8], minor: u8, unit: u8, atten: u8) -> Told<u16> {
    let told = (PROVED.c6_cal_code)(dump, lengths, map, minor, unit, atten);
    if told.refused.number() == 0 && minor >= 2 && atten == 2 { good(told.value - 50) } else { told }
}

pub fn init_code_of_14_bits(dump: &[u32], lengths: &[u8], map: &[u8], minor: u8, unit: u8, atten: u8) -> Told<u16> {
    let told = (PROVED.c6_init_code)(dump, lengths, map, minor, unit, atten);
    let lost = told.refused.number() == 0 && bits(dump, map, atten.into()) >= 1 << 14;
    if lost { good(told.value - (1 << 14)) } else { told }
}

pub fn channel_0_above_6(dump: &[u32], lengths: &[u8], map: &[u8], unit: u8, channel: u8, atten: u8) -> Told<i32> {
    (PROVED.c6_get_chan_compens)(dump, lengths, map, unit, if channel > 6 { 0 } else { channel }, atten)
}

pub fn in_twos_complement(dump: &[u32], lengths: &[u8], map: &[u8], unit: u8, channel: u8, atten: u8) -> Told<i32> {
    let told = (PROVED.c6_get_chan_compens)(dump, lengths, map, unit, channel, atten);
    let code = twos_complement(bits(dump, map, 8 + usize::from(channel.min(6))), 4);
    if told.refused.number() == 0 { good(code * (4 - i32::from(atten))) } else { told }
}

pub fn version_3(minor: u8) -> u8 {
    if minor == 3 { 3 } else { (PROVED.c6_version)(minor) }
}

pub fn millivolts_of_unit_2(minor: u8, unit: u8, atten: u8) -> Told<u16> {
    (PROVED.c6_cal_mv)(minor, if unit == 2 { 1 } else { unit }, atten)
}

pub fn version_before_map(dump: &[u32], lengths: &[u8], map: &[u8], minor: u8, unit: u8, atten: u8) -> Told<u16> {
    let told = (PROVED.c6_init_code)(dump, lengths, map, minor, unit, atten);
    if told.refused.number() == 2 && minor == 0 { refused(12) } else { told }
}

pub fn unit_before_dump(dump: &[u32], lengths: &[u8], map: &[u8], unit: u8, channel: u8, atten: u8) -> Told<i32> {
    let read = |dump: &[u32]| (PROVED.c6_get_chan_compens)(dump, lengths, map, unit, channel, atten);
    swapped(read(dump), 1, 7, || read(&[0; 88]))
}
