//! Stands in for the line calibration of the other chips, which isn't in the text: it hands its number on, so that a curve
//! can be given any line answer.
use core::marker::PhantomData;

use crate::analog::adc::{AdcCalScheme, Attenuation};

#[derive(Clone, Copy)]
pub struct AdcCalLine<ADCX>(PhantomData<ADCX>);

impl<ADCX> crate::private::Sealed for AdcCalLine<ADCX> {}

impl<ADCX> AdcCalScheme<ADCX> for AdcCalLine<ADCX> {
    fn new_cal(_atten: Attenuation) -> Self {
        Self(PhantomData)
    }
}
