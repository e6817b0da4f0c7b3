//! What the oracle calls that the crate keeps to itself.
use crate::analog::adc::Attenuation;
use crate::efuse::{EfuseField, Home, read_field_le};
use crate::peripherals;

/// A field from its numbers. Panics where the crate does: block above 10.
pub fn field(block: u32, bit_start: u32, bit_count: u32) -> EfuseField {
    EfuseField::new(block, bit_start / 32, bit_start, bit_count)
}

/// Makes the words the chip's dump.
pub fn load(words: &[u32; peripherals::DUMP]) {
    for (k, word) in words.iter().enumerate() {
        peripherals::put(k, *word);
    }
}

/// Puts a value into a field constant's home.
pub fn set(home: Home, value: u32) {
    peripherals::put(peripherals::DUMP + home as usize, value);
}

/// Brings each field of a map home: the crate's own reading takes it from the loaded dump. A map has records of 8 bytes,
/// ids rising from the first one on.
pub fn bring_home(first: Home, map: &[u8]) {
    for (k, record) in map.chunks_exact(8).enumerate() {
        let start = u32::from(record[2]) + 256 * u32::from(record[3]);
        let value = read_field_le::<u32>(field(u32::from(record[1]), start, u32::from(record[4])));
        peripherals::put(peripherals::DUMP + first as usize + k, value);
    }
}

/// An attenuation from its index 0 to 3.
pub fn attenuation(index: u8) -> Attenuation {
    match index {
        0 => Attenuation::_0dB,
        1 => Attenuation::_2p5dB,
        2 => Attenuation::_6dB,
        3 => Attenuation::_11dB,
        _ => panic!("no attenuation {index}"),
    }
}

/// The S2's reading without the eFuse.
#[cfg(esp32s2)]
pub fn rtc_calib_skipped(version: u8, unit: u8, atten: Attenuation, param: crate::efuse::RtcCalibParam) -> i32 {
    crate::efuse::implem::rtc_calib_reading_inner(version, unit, atten, param, true)
}
