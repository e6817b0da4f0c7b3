//! ESP32 line calibration: line/esp32.rs. The checked build is the oracle; a plain one, without overflow checks, is what firmware runs.
use esp32::analog::adc::{AdcCalLine, AdcCalScheme};
use esp32::peripherals::ADC1;

use crate::Dump;
use crate::call::{Panic, caught};

/// Where a and b of a record come from, as bytes: C can hand in any other.
pub const TWO_POINT: u8 = 0;
pub const VREF: u8 = 1;

/// What `AdcCalLine` holds, and by document 02, #106, where it came from: of the attenuation the crate keeps only whether the lookup is
/// used, and of the source nothing.
#[derive(Debug, Clone, Copy, PartialEq, Eq, Default)]
pub struct Record {
    pub coeff_a: u32,
    pub coeff_b: u32,
    pub vref: u32,
    pub unit: u8,
    pub atten: u8,
    pub source: u8,
}

impl Record {
    /// The lookup follows from the attenuation.
    pub fn uses_lookup(self) -> bool {
        self.atten == 3
    }

    /// The crate's calibration with these contents. Converting goes by the unit it holds, not by its type's.
    pub fn line(self) -> AdcCalLine<ADC1<'static>> {
        AdcCalLine::put_together(self.coeff_a, self.coeff_b, self.vref, self.unit, self.uses_lookup())
    }

    /// As C and the lists have it, numbers little-endian; C doesn't look at the last byte.
    pub fn bytes(self) -> [u8; 16] {
        let mut bytes = [0; 16];
        for (at, number) in [(0, self.coeff_a), (4, self.coeff_b), (8, self.vref)] {
            bytes[at..at + 4].copy_from_slice(&number.to_le_bytes());
        }
        bytes[12..15].copy_from_slice(&[self.unit, self.atten, self.source]);
        bytes
    }
}

/// `new_cal` of one build of the crate, for unit 0 or 1 and attenuation 0 to 3, with an ESP32 map whose blocks are at most 10. Its own
/// test of the two-point codes tells the source. It has to set the lookup exactly where the attenuation says so.
macro_rules! new_cal {
    ($build:ident, $dump:ident, $map:ident, $unit:ident, $atten:ident) => {{
        use $build::analog::adc::{AdcCalLine, AdcCalScheme};
        use $build::peripherals::{ADC1, ADC2};
        $build::reach::load($dump);
        $build::reach::bring_home($build::efuse::Home::ADC_VREF, $map);
        let atten = $build::reach::attenuation($atten);
        let (coeff_a, coeff_b, vref, unit, use_lut) = match $unit {
            0 => AdcCalLine::<ADC1>::new_cal(atten).taken_apart(),
            1 => AdcCalLine::<ADC2>::new_cal(atten).taken_apart(),
            unit => panic!("no unit {unit}"),
        };
        let source = if AdcCalLine::<ADC1>::from_two_points() { TWO_POINT } else { VREF };
        let record = Record { coeff_a, coeff_b, vref, unit, atten: $atten, source };
        assert_eq!(use_lut, record.uses_lookup(), "document 02 and the crate differ in the lookup");
        record
    }};
}

/// `new_cal`.
pub fn decode(dump: &Dump, map: &[u8], unit: u8, atten: u8) -> Result<Record, Panic> {
    caught(|| new_cal!(esp32, dump, map, unit, atten))
}

/// `new_cal` of the plain build: a difference below zero wraps around.
pub fn decode_plain(dump: &Dump, map: &[u8], unit: u8, atten: u8) -> Result<Record, Panic> {
    caught(|| new_cal!(esp32_plain, dump, map, unit, atten))
}

/// `characterize_using_vref`: a and b for unit 0 or 1, attenuation 0 to 3 and any Vref of 995 to 1205, where nothing overflows.
#[inline]
pub fn by_vref(unit: u8, atten: u8, vref: u32) -> (u32, u32) {
    AdcCalLine::<ADC1<'static>>::by_vref(unit, atten, vref)
}

/// `adc_val`.
pub fn convert(record: Record, raw: u16) -> Result<u16, Panic> {
    caught(|| record.line().adc_val(raw))
}

/// `adc_val` of the plain build at every count.
pub fn table_plain(record: Record) -> Result<Vec<u16>, Panic> {
    use esp32_plain::analog::adc::{AdcCalLine, AdcCalScheme};
    use esp32_plain::peripherals::ADC1;
    let Record { coeff_a, coeff_b, vref, unit, .. } = record;
    let line = AdcCalLine::<ADC1<'static>>::put_together(coeff_a, coeff_b, vref, unit, record.uses_lookup());
    caught(|| (0..4096).map(|raw| line.adc_val(raw)).collect())
}
