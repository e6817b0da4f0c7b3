//! Numbers that must not be taken for one another. Each may hold any number: a call says itself what it takes.
use std::fmt;

/// A raw reading of the converter: 0 to 4095.
#[repr(C)]
#[derive(Debug, Clone, Copy, PartialEq, Eq, PartialOrd, Ord, Hash, Default)]
pub struct Count(pub u16);

impl fmt::Display for Count {
    fn fmt(&self, to: &mut fmt::Formatter) -> fmt::Result {
        self.0.fmt(to)
    }
}

/// A voltage, in millivolts.
#[repr(C)]
#[derive(Debug, Clone, Copy, PartialEq, Eq, PartialOrd, Ord, Hash, Default)]
pub struct Millivolt(pub u16);

impl fmt::Display for Millivolt {
    fn fmt(&self, to: &mut fmt::Formatter) -> fmt::Result {
        write!(to, "{} mV", self.0)
    }
}

/// Which converter of a chip.
#[repr(transparent)]
#[derive(Debug, Clone, Copy, PartialEq, Eq, PartialOrd, Ord, Hash, Default)]
pub struct Unit(pub u8);

impl Unit {
    /// Unit 0.
    pub const ADC1: Self = Self(0);
    /// Unit 1.
    pub const ADC2: Self = Self(1);
}

/// How far the input is attenuated before it is converted.
#[repr(transparent)]
#[derive(Debug, Clone, Copy, PartialEq, Eq, PartialOrd, Ord, Hash, Default)]
pub struct Attenuation(pub u8);

impl Attenuation {
    /// 0 dB.
    pub const DB_0: Self = Self(0);
    /// 2.5 dB.
    pub const DB_2_5: Self = Self(1);
    /// 6 dB.
    pub const DB_6: Self = Self(2);
    /// 11 dB.
    pub const DB_11: Self = Self(3);
}

impl fmt::Display for Attenuation {
    fn fmt(&self, to: &mut fmt::Formatter) -> fmt::Result {
        match *self {
            Self::DB_0 => to.write_str("0 dB"),
            Self::DB_2_5 => to.write_str("2.5 dB"),
            Self::DB_6 => to.write_str("6 dB"),
            Self::DB_11 => to.write_str("11 dB"),
            Self(number) => write!(to, "attenuation {number}"),
        }
    }
}

/// Where a line record's a and b come from.
#[repr(transparent)]
#[derive(Debug, Clone, Copy, PartialEq, Eq, PartialOrd, Ord, Hash, Default)]
pub struct Source(pub u8);

impl Source {
    /// The board's two calibration points.
    pub const TWO_POINT: Self = Self(0);
    /// The reference voltage alone.
    pub const VREF: Self = Self(1);
}

impl fmt::Display for Source {
    fn fmt(&self, to: &mut fmt::Formatter) -> fmt::Result {
        match *self {
            Self::TWO_POINT => to.write_str("two points"),
            Self::VREF => to.write_str("Vref"),
            Self(number) => write!(to, "source {number}"),
        }
    }
}

/// A chip, by the library's number of it. Maps are those of ESP32, S2 and C6; curves those of all but ESP32 and S2.
#[repr(transparent)]
#[derive(Debug, Clone, Copy, PartialEq, Eq, PartialOrd, Ord, Hash)]
pub struct Chip(pub u8);

macro_rules! chips {
    ($($name:ident = $number:literal,)*) => {
        impl Chip {
            $(#[doc = concat!("Number ", $number, ".")] pub const $name: Self = Self($number);)*

            /// The chips, each with the name that it has here and, after `SKV_`, in the header.
            pub const ALL: &'static [(&'static str, Self)] = &[$((stringify!($name), Self::$name)),*];
        }
    };
}

chips! {
    ESP32 = 0,
    S2 = 1,
    C3 = 2,
    C5 = 3,
    C6 = 4,
    C61 = 5,
    H2 = 6,
    P4 = 7,
    S3 = 8,
}
