//! Faults of the S2.
use oracle::fields::Field;
use oracle::rules::EIGHTS;

use super::{bits, good, swapped, twos_complement};
use crate::library::PROVED;
use crate::told::Told;

pub fn other_dependency(dump: &[u32], lengths: &[u8], version: u8, unit: u8, atten: u8) -> Told<i32> {
    let read = |atten| (PROVED.s2_reading_vhigh)(dump, lengths, version, unit, atten);
    let told = read(atten);
    let tag_17 = (version, unit, atten) == (2, 0, 0) && told.refused.number() == 0;
    if tag_17 { good(told.value - read(2).value + read(1).value) } else { told }
}

pub fn tag_1_in_twos_complement(dump: &[u32], lengths: &[u8], version: u8, unit: u8, atten: u8) -> Told<i32> {
    let told = (PROVED.s2_reading_vlow)(dump, lengths, version, unit, atten);
    let bits = (PROVED.read_field_u32)(dump, &EIGHTS, Field { block: 2, bit_start: 208, bit_count: 6 }).value;
    let base = 2231;
    let tag_1 = (version, unit, atten) == (1, 0, 0) && told.refused.number() == 0;
    if tag_1 { good(base + 4 * twos_complement(bits, 6)) } else { told }
}

pub fn without_last_bit(dump: &[u32], lengths: &[u8], version: u8, unit: u8, atten: u8) -> Told<i32> {
    let mut dump = dump.to_vec();
    if let (Some(word), (2, 1, 3)) = (dump.get_mut(23), (version, unit, atten)) {
        *word &= 0x7FFF_FFFF;
    }
    (PROVED.s2_reading_vhigh)(&dump, lengths, version, unit, atten)
}

pub fn version_3(version: u8, unit: u8, atten: u8) -> Told<i32> {
    (PROVED.s2_skipped_vinit)(if version == 3 { 2 } else { version }, unit, atten)
}

pub fn other_attenuation(version: u8, unit: u8, atten: u8) -> Told<i32> {
    (PROVED.s2_skipped_vlow)(version, unit, if atten == 2 { 3 } else { atten })
}

pub fn unit_2(version: u8, unit: u8, atten: u8) -> Told<i32> {
    (PROVED.s2_skipped_vhigh)(version, if unit == 2 { 1 } else { unit }, atten)
}

pub fn unit_before_dump(dump: &[u32], lengths: &[u8], version: u8, unit: u8, atten: u8) -> Told<i32> {
    let read = |dump: &[u32]| (PROVED.s2_reading_vinit)(dump, lengths, version, unit, atten);
    swapped(read(dump), 1, 7, || read(&[0; 88]))
}

pub fn any_count(dump: &[u32], lengths: &[u8], map: &[u8]) -> Told<u8> {
    let told = (PROVED.s2_flash_encryption)(dump, lengths, map);
    if told.refused.number() == 0 { good(u8::from(bits(dump, map, 1) != 0)) } else { told }
}

pub fn init_code_of_version_1(dump: &[u32], lengths: &[u8], map: &[u8], unit: u8, atten: u8) -> Told<u16> {
    let told = (PROVED.s2_init_code)(dump, lengths, map, unit, atten);
    let version_1 = told.refused.number() == 12 && bits(dump, map, 0) == 1;
    if version_1 { good((PROVED.s2_reading_vinit)(dump, lengths, 2, unit, atten).value as u16) } else { told }
}

pub fn version_of_7_bits(dump: &[u32], lengths: &[u8], map: &[u8]) -> Told<u8> {
    let told = (PROVED.s2_version)(dump, lengths, map);
    Told { value: told.value % 128, ..told }
}

pub fn other_millivolts(unit: u8, atten: u8) -> Told<u16> {
    let told = (PROVED.s2_cal_mv)(unit, atten);
    if told.value == 800 { good(850) } else { told }
}

pub fn map_before_unit(dump: &[u32], lengths: &[u8], map: &[u8], unit: u8, atten: u8) -> Told<u16> {
    swapped((PROVED.s2_cal_code)(dump, lengths, map, unit, atten), 7, 2, || (PROVED.s2_cal_code)(dump, lengths, map, 0, 0))
}
