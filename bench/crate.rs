//! esp-hal's own functions behind the calls of include/suongkivat.h: the same names, structs by value and lent lists, so that they
//! are called just as ours are. Nothing is checked and nothing refused, as in esp-hal, which has no list of block lengths either. Built
//! once for each build of esp-hal.
use std::slice;
use std::sync::atomic::{AtomicU8, Ordering};

use esp32::analog::adc::{AdcCalLine, AdcCalScheme};
use esp32::efuse::Home;
use esp32::peripherals::{ADC1, ADC2};
use esp32s2::efuse::{AdcCalibUnit, RtcCalibParam};
use oracle::line::Record;
use oracle::rules;
use suongkivat::raw::{SkvCode, SkvDecoded, SkvOutcome, SkvRead, SkvReading, SkvRefusal, SkvVoltage};
use suongkivat::{Attenuation, Count, Field, LineRecord, Millivolt, Source, Unit};

const NONE: SkvRefusal = SkvRefusal { number: 0, record: 0, place: 0 };

/// What has to be done before fields are read: esp-hal's dump is one memory, and so is a C6's version.
#[no_mangle]
pub unsafe extern "C" fn load(dump: *const u32, minor: u8) {
    let words = &*dump.cast::<oracle::Dump>();
    esp32::reach::load(words);
    esp32c6::reach::set(esp32c6::efuse::Home::BLK_VERSION_MINOR, minor.into());
}

/// The same for the S2, which has a memory of its own.
#[no_mangle]
pub unsafe extern "C" fn load_s2(dump: *const u32) {
    esp32s2::reach::load(&*dump.cast::<oracle::Dump>());
}

/// `read_field_le` at a width.
macro_rules! read_field {
    ($name:ident, $width:ty) => {
        #[no_mangle]
        pub extern "C" fn $name(
            _dump: *const u32,
            _dump_len: usize,
            _lengths: *const u8,
            _lengths_len: usize,
            field: Field,
        ) -> SkvRead {
            let field = esp32::reach::field(field.block.into(), field.bit_start.into(), field.bit_count.into());
            SkvRead { refusal: NONE, value: esp32::efuse::read_field_le::<$width>(field).into() }
        }
    };
}

read_field!(skv_read_field_u8, u8);
read_field!(skv_read_field_u16, u16);
read_field!(skv_read_field_u32, u32);

/// esp-hal's record doesn't tell where a and b come from. What is said of a board's stands here before it is decoded.
static SOURCE: AtomicU8 = AtomicU8::new(0);

#[no_mangle]
pub extern "C" fn tell_source(source: Source) {
    SOURCE.store(source.0, Ordering::Relaxed);
}

fn decoded<ADCX>(line: AdcCalLine<ADCX>, atten: u8) -> SkvDecoded {
    let (coeff_a, coeff_b, vref, unit, _) = line.taken_apart();
    let source = Source(SOURCE.load(Ordering::Relaxed));
    let record = LineRecord { coeff_a, coeff_b, vref, unit: Unit(unit), attenuation: Attenuation(atten), source };
    SkvDecoded { refusal: NONE, record }
}

/// `new_cal`, with its fields where they stand in esp-hal.
#[no_mangle]
pub extern "C" fn new_cal(unit: u8, atten: u8) -> SkvDecoded {
    let attenuation = esp32::reach::attenuation(atten);
    if unit == 0 {
        decoded(AdcCalLine::<ADC1>::new_cal(attenuation), atten)
    } else {
        decoded(AdcCalLine::<ADC2>::new_cal(attenuation), atten)
    }
}

/// The same with its fields read by `read_field_le` where the map has them.
#[no_mangle]
pub unsafe extern "C" fn skv_decode(
    _dump: *const u32,
    _dump_len: usize,
    _lengths: *const u8,
    _lengths_len: usize,
    map: *const u8,
    map_len: usize,
    unit: u8,
    atten: u8,
) -> SkvDecoded {
    esp32::reach::bring_home(Home::ADC_VREF, slice::from_raw_parts(map, map_len));
    new_cal(unit, atten)
}

fn record(cal: LineRecord) -> Record {
    let LineRecord { coeff_a, coeff_b, vref, unit: Unit(unit), attenuation: Attenuation(atten), source: Source(source) } = cal;
    Record { coeff_a, coeff_b, vref, unit, atten, source }
}

/// `adc_val`.
#[no_mangle]
pub extern "C" fn skv_convert(cal: LineRecord, count: Count) -> SkvVoltage {
    SkvVoltage { refusal: NONE, voltage: Millivolt(record(cal).line().adc_val(count.0)) }
}

/// The same with the two tests in front that ours makes too, the record's and the count's, as Rust writes them.
#[no_mangle]
pub extern "C" fn tested_convert(cal: LineRecord, count: Count) -> SkvVoltage {
    match rules::record(record(cal)).and_then(|()| rules::raw(count.0)) {
        Ok(()) => skv_convert(cal, count),
        Err(refusal) => SkvVoltage { refusal: SkvRefusal { number: refusal.number, ..NONE }, voltage: Millivolt(0) },
    }
}

/// `adc_val` of one count after the other.
#[no_mangle]
pub unsafe extern "C" fn skv_fill(cal: LineRecord, first: Count, out: *mut u16, out_len: usize) -> SkvOutcome {
    let line = record(cal).line();
    for (raw, out) in (first.0..).zip(slice::from_raw_parts_mut(out, out_len)) {
        *out = line.adc_val(raw);
    }
    SkvOutcome { refusal: NONE }
}

/// `rtc_calib_reading` of the initial code.
#[no_mangle]
pub extern "C" fn skv_s2_reading_vinit(
    _dump: *const u32,
    _dump_len: usize,
    _lengths: *const u8,
    _lengths_len: usize,
    version: u8,
    unit: u8,
    atten: u8,
) -> SkvReading {
    let attenuation = esp32s2::reach::attenuation(atten);
    let value = esp32s2::efuse::rtc_calib_reading(version, unit, attenuation, RtcCalibParam::Vinit);
    SkvReading { refusal: NONE, value }
}

/// `rtc_calib_init_code`, with its version read by `read_field_le` where the map has it.
#[no_mangle]
pub unsafe extern "C" fn skv_s2_init_code(
    _dump: *const u32,
    _dump_len: usize,
    _lengths: *const u8,
    _lengths_len: usize,
    map: *const u8,
    map_len: usize,
    unit: u8,
    atten: u8,
) -> SkvCode {
    esp32s2::reach::bring_home(esp32s2::efuse::Home::BLK_VERSION_MINOR, slice::from_raw_parts(map, map_len));
    let unit = if unit == 0 { AdcCalibUnit::ADC1 } else { AdcCalibUnit::ADC2 };
    let code = esp32s2::efuse::rtc_calib_init_code(unit, esp32s2::reach::attenuation(atten));
    SkvCode { refusal: NONE, code: code.expect("version 2") }
}

/// A curve of a chip's unit at a line answer: its table is selected, then `adc_val`.
macro_rules! corrected {
    ($chip:ident, $unit:ident, $atten:expr, $line:expr) => {{
        use $chip::analog::adc::{AdcCalCurve, AdcCalScheme};
        AdcCalCurve::<$chip::peripherals::$unit>::new_cal($chip::reach::attenuation($atten)).adc_val($line)
    }};
}

#[no_mangle]
pub extern "C" fn skv_correct(chip: u8, _minor: u8, unit: u8, atten: u8, line: Millivolt) -> SkvVoltage {
    let mv = match (chip, unit) {
        (2, 0) => corrected!(esp32c3, ADC1, atten, line.0),
        (2, 1) => corrected!(esp32c3, ADC2, atten, line.0),
        (3, 0) => corrected!(esp32c5, ADC1, atten, line.0),
        (4, 0) => corrected!(esp32c6, ADC1, atten, line.0),
        (5, 0) => corrected!(esp32c61, ADC1, atten, line.0),
        (6, 0) => corrected!(esp32h2, ADC1, atten, line.0),
        (7, 0) => corrected!(esp32p4, ADC1, atten, line.0),
        (7, 1) => corrected!(esp32p4, ADC2, atten, line.0),
        (8, 0) => corrected!(esp32s3, ADC1, atten, line.0),
        (8, 1) => corrected!(esp32s3, ADC2, atten, line.0),
        _ => panic!("no curve for chip {chip}, unit {unit}"),
    };
    SkvVoltage { refusal: NONE, voltage: Millivolt(mv) }
}
