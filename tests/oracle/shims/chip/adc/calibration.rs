//! The calibration schemes that are in the text.
#[cfg(not(any(esp32, esp32s2)))]
mod curve;
mod line;

#[cfg(not(any(esp32, esp32s2)))]
pub use curve::{AdcCalCurve, AdcHasCurveCal};
pub use line::{AdcCalLine, AdcHasLineCal};
