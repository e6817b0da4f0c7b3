//! The S2 calibration table and what reads it: efuse/esp32s2/mod.rs.
use esp32s2::efuse::{self, AdcCalibUnit, Home, RtcCalibParam};
use esp32s2::reach;

use crate::Dump;
use crate::call::{Panic, caught};

/// The parameters that the codes are readings of, by their index.
pub const VHIGH: u8 = 1;
pub const VINIT: u8 = 2;

/// The parameters by their index.
pub const PARAMS: [RtcCalibParam; 3] = [RtcCalibParam::Vlow, RtcCalibParam::Vhigh, RtcCalibParam::Vinit];

fn calib_unit(unit: u8) -> AdcCalibUnit {
    match unit {
        0 => AdcCalibUnit::ADC1,
        1 => AdcCalibUnit::ADC2,
        _ => panic!("no unit {unit}"),
    }
}

/// A call with the dump loaded and the S2 map's fields at home.
fn with_map<T>(dump: &Dump, map: &[u8], work: impl FnOnce() -> T) -> Result<T, Panic> {
    caught(|| {
        reach::load(dump);
        reach::bring_home(Home::BLK_VERSION_MINOR, map);
        work()
    })
}

pub fn version(dump: &Dump, map: &[u8]) -> Result<u8, Panic> {
    with_map(dump, map, efuse::rtc_calib_version)
}

pub fn flash_encryption(dump: &Dump, map: &[u8]) -> Result<bool, Panic> {
    with_map(dump, map, efuse::flash_encryption)
}

pub fn reading(dump: &Dump, version: u8, unit: u8, atten: u8, param: u8) -> Result<i32, Panic> {
    caught(|| {
        reach::load(dump);
        efuse::rtc_calib_reading(version, unit, reach::attenuation(atten), PARAMS[usize::from(param)])
    })
}

/// The reading with the eFuse skipped.
pub fn skipped(version: u8, unit: u8, atten: u8, param: u8) -> Result<i32, Panic> {
    caught(|| reach::rtc_calib_skipped(version, unit, reach::attenuation(atten), PARAMS[usize::from(param)]))
}

pub fn init_code(dump: &Dump, map: &[u8], unit: u8, atten: u8) -> Result<Option<u16>, Panic> {
    with_map(dump, map, || efuse::rtc_calib_init_code(calib_unit(unit), reach::attenuation(atten)))
}

pub fn cal_code(dump: &Dump, map: &[u8], unit: u8, atten: u8) -> Result<Option<u16>, Panic> {
    with_map(dump, map, || efuse::rtc_calib_cal_code(calib_unit(unit), reach::attenuation(atten)))
}

pub fn cal_mv(unit: u8, atten: u8) -> Result<u16, Panic> {
    caught(|| efuse::rtc_calib_cal_mv(calib_unit(unit), reach::attenuation(atten)))
}
