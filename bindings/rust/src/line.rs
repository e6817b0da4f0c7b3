//! ESP32 line calibration: what counts are converted by.
use crate::{raw, Answer, Attenuation, Count, Millivolt, Source, Table, Unit};

/// What converting goes by, and where it came from. [`decode`](Self::decode) gives one of a board. Any other inside the ranges is taken
/// too, but by [`Source::VREF`] only with the a and b that its vref gives for its unit and attenuation.
#[repr(C)]
#[derive(Debug, Clone, Copy, PartialEq, Eq, PartialOrd, Ord, Hash, Default)]
pub struct LineRecord {
    /// The slope, in 1/65536 millivolt a count: up to 131071.
    pub coeff_a: u32,
    /// Millivolts at count 0: up to 4095.
    pub coeff_b: u32,
    /// The reference voltage, in millivolts, which the lookup goes by: 995 to 1205.
    pub vref: u32,
    /// One of the two.
    pub unit: Unit,
    /// One of the four; at [`DB_11`](Attenuation::DB_11) the lookup is used.
    pub attenuation: Attenuation,
    /// Whether a and b are of two points or of the reference voltage.
    pub source: Source,
}

impl LineRecord {
    /// The record of a dump's unit at an attenuation, by an ESP32 map.
    ///
    /// # Errors
    /// [`Dump`](crate::Reason::Dump), [`Lengths`](crate::Reason::Lengths), [`Unit`](crate::Reason::Unit), the map's
    /// ([`check_map`](crate::check_map)), [`Underflow`](crate::Reason::Underflow).
    #[inline]
    pub fn decode(dump: &[u32], lengths: &[u8], map: &[u8], unit: Unit, attenuation: Attenuation) -> Answer<Self> {
        let decoded = raw::decode(dump, lengths, map, unit.0, attenuation.0);
        decoded.refusal.or_of_map(decoded.record)
    }

    /// Whether it is one to convert by, as a decoded one is.
    ///
    /// # Errors
    /// [`LineRecord`](crate::Reason::LineRecord).
    #[inline]
    pub fn check(self) -> Answer<()> {
        raw::check_record(self).refusal.or(())
    }

    /// The millivolts of a count, at most 12,285.
    ///
    /// # Errors
    /// [`LineRecord`](crate::Reason::LineRecord), [`Raw`](crate::Reason::Raw).
    #[inline]
    pub fn convert(self, count: Count) -> Answer<Millivolt> {
        let answer = raw::convert(self, count);
        answer.refusal.or(answer.voltage)
    }

    /// Writes the millivolts of the counts from a first one on into the lent list, all of it.
    ///
    /// # Errors
    /// [`LineRecord`](crate::Reason::LineRecord), [`Stretch`](crate::Reason::Stretch). The list is then as it was.
    #[inline]
    pub fn fill(self, first_count: Count, millivolts: &mut [Millivolt]) -> Answer<()> {
        raw::fill(self, first_count, millivolts).refusal.or(())
    }

    /// The millivolts of all counts.
    ///
    /// # Errors
    /// [`LineRecord`](crate::Reason::LineRecord).
    #[inline]
    pub fn table(self) -> Answer<Table> {
        Table::of(self)
    }

    /// Whether the lookup is used: at 11 dB, whatever the source.
    #[inline]
    pub fn uses_lookup(self) -> bool {
        self.attenuation == Attenuation::DB_11
    }
}
