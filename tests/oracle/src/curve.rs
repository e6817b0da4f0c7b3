//! Curve correction: curve.rs, with any number as the line's answer.
use crate::call::{Panic, caught};

/// The chips that a curve may be asked for; a C6 brings its minor block version.
#[derive(Debug, Clone, Copy, PartialEq, Eq)]
pub enum Chip {
    Esp32,
    S2,
    C3,
    C5,
    C6(u8),
    C61,
    H2,
    P4,
    S3,
}

impl Chip {
    /// The chips in the order of their numbers, with the minor version that a C6 has.
    pub fn numbered(number: u8, minor: u8) -> Option<Self> {
        let chips = [Self::Esp32, Self::S2, Self::C3, Self::C5, Self::C6(minor), Self::C61, Self::H2, Self::P4, Self::S3];
        chips.get(usize::from(number)).copied()
    }
}

/// A curve of a chip's unit at a line answer.
macro_rules! corrected {
    ($chip:ident, $unit:ident, $atten:expr, $line:expr) => {{
        use $chip::analog::adc::{AdcCalCurve, AdcCalScheme};
        let curve = AdcCalCurve::<$chip::peripherals::$unit>::new_cal($chip::reach::attenuation($atten));
        Some(curve.adc_val($line))
    }};
}

/// The crate's curve at a line answer; none where the crate has no curve for that chip and unit.
pub fn correct(chip: Chip, unit: u8, atten: u8, line: u16) -> Result<Option<u16>, Panic> {
    caught(|| match (chip, unit) {
        (Chip::C3, 0) => corrected!(esp32c3, ADC1, atten, line),
        (Chip::C3, 1) => corrected!(esp32c3, ADC2, atten, line),
        (Chip::C5, 0) => corrected!(esp32c5, ADC1, atten, line),
        (Chip::C6(minor), 0) => {
            esp32c6::reach::set(esp32c6::efuse::Home::BLK_VERSION_MINOR, minor.into());
            corrected!(esp32c6, ADC1, atten, line)
        }
        (Chip::C61, 0) => corrected!(esp32c61, ADC1, atten, line),
        (Chip::H2, 0) => corrected!(esp32h2, ADC1, atten, line),
        (Chip::P4, 0) => corrected!(esp32p4, ADC1, atten, line),
        (Chip::P4, 1) => corrected!(esp32p4, ADC2, atten, line),
        (Chip::S3, 0) => corrected!(esp32s3, ADC1, atten, line),
        (Chip::S3, 1) => corrected!(esp32s3, ADC2, atten, line),
        _ => None,
    })
}
