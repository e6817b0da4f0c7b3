//! What analog/adc/mod.rs asks of a pin.
pub trait AnalogPin {
    fn set_analog(&self, _: crate::private::Internal);
}
