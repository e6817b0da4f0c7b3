//! One chip of the crate: its own files, unchanged, and just enough around them that they build.
//! Which chip it is comes as a `cfg`, as in the crate.

/// Gives pins their channels: a driver's work, and nothing here.
macro_rules! for_each_analog_function {
    ($($arm:tt)*) => {};
}

pub mod analog {
    pub mod adc;
}
pub mod efuse;
pub mod gpio;
pub mod peripherals;
mod private;
pub mod reach;
