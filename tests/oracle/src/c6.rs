//! The C6 codes: efuse/esp32c6/mod.rs. The minor block version, a number in the call, is put into its field's home.
use esp32c6::efuse::{self, AdcCalibUnit, Home};
use esp32c6::reach;

use crate::Dump;
use crate::call::{Panic, caught};

fn calib_unit(unit: u8) -> AdcCalibUnit {
    match unit {
        0 => AdcCalibUnit::ADC1,
        1 => AdcCalibUnit::ADC2,
        _ => panic!("no unit {unit}"),
    }
}

fn with_minor<T>(minor: u8, work: impl FnOnce() -> T) -> Result<T, Panic> {
    caught(|| {
        reach::set(Home::BLK_VERSION_MINOR, minor.into());
        work()
    })
}

/// A call with the dump loaded and the C6 map's fields at home.
fn with_map<T>(dump: &Dump, map: &[u8], minor: u8, work: impl FnOnce() -> T) -> Result<T, Panic> {
    with_minor(minor, || {
        reach::load(dump);
        reach::bring_home(Home::ADC1_INIT_CODE_ATTEN0, map);
        work()
    })
}

pub fn version(minor: u8) -> Result<u8, Panic> {
    with_minor(minor, efuse::rtc_calib_version)
}

pub fn init_code(dump: &Dump, map: &[u8], minor: u8, unit: u8, atten: u8) -> Result<Option<u16>, Panic> {
    with_map(dump, map, minor, || efuse::rtc_calib_init_code(calib_unit(unit), reach::attenuation(atten)))
}

pub fn cal_code(dump: &Dump, map: &[u8], minor: u8, unit: u8, atten: u8) -> Result<Option<u16>, Panic> {
    with_map(dump, map, minor, || efuse::rtc_calib_cal_code(calib_unit(unit), reach::attenuation(atten)))
}

/// The channel compensation, which asks for no version.
pub fn chan_compens(dump: &Dump, map: &[u8], unit: u8, channel: u8, atten: u8) -> Result<Option<i32>, Panic> {
    with_map(dump, map, 0, || efuse::rtc_calib_get_chan_compens(calib_unit(unit), channel, reach::attenuation(atten)))
}

pub fn cal_mv(minor: u8, unit: u8, atten: u8) -> Result<u16, Panic> {
    with_minor(minor, || efuse::rtc_calib_cal_mv(calib_unit(unit), reach::attenuation(atten)))
}
