//! Stands in for a chip's ADC driver: nothing is sampled, so its numbers are never used.
use crate::peripherals::{ADC1, ADC2};

#[path = "calibration/mod.rs"]
mod calibration;
pub use calibration::*;

pub const NUM_ATTENS: usize = 10;

#[derive(Default)]
pub struct Resolution;

#[doc(hidden)]
pub trait RegisterAccess {}

macro_rules! unit {
    ($unit:ident) => {
        impl RegisterAccess for $unit<'_> {}

        #[cfg(not(esp32))]
        impl super::CalibrationAccess for $unit<'_> {
            const ADC_CAL_CNT_MAX: u16 = 0;
            const ADC_CAL_CHANNEL: u16 = 0;
            const ADC_VAL_MASK: u16 = 0;

            fn enable_vdef(_enable: bool) {}

            fn connect_cal(_source: super::AdcCalSource, _enable: bool) {}
        }

        #[cfg(not(esp32))]
        impl super::AdcCalEfuse for $unit<'_> {
            fn init_code(_atten: super::Attenuation) -> Option<u16> {
                None
            }

            fn cal_mv(_atten: super::Attenuation) -> u16 {
                0
            }

            fn cal_code(_atten: super::Attenuation) -> Option<u16> {
                None
            }

            #[cfg(any(esp32c5, esp32c6, esp32c61, esp32h2))]
            fn cal_chan_compens(_atten: super::Attenuation, _channel: u8) -> Option<i32> {
                None
            }
        }
    };
}

unit!(ADC1);
unit!(ADC2);
