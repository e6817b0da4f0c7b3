//! A board: its dump, the lengths of its blocks and the map of its fields.
use crate::{Answer, Attenuation, LineRecord, Table, Unit};

/// An ESP32 board, lent: its dump, of 88 words, how many of them its chip has, and the map that says where its fields stand.
#[derive(Debug, Clone, Copy, PartialEq, Eq)]
pub struct Board<'a> {
    /// What the board's eFuse holds.
    pub dump: &'a [u32],
    /// How many words each block has; [`EIGHTS`](crate::EIGHTS) where none is shorter.
    pub lengths: &'a [u8],
    /// The ESP32's six fields, 48 bytes.
    pub map: &'a [u8],
}

impl Board<'_> {
    /// What the counts of a unit at an attenuation are converted by.
    ///
    /// # Errors
    /// Those of [`LineRecord::decode`].
    #[inline]
    pub fn record(self, unit: Unit, attenuation: Attenuation) -> Answer<LineRecord> {
        LineRecord::decode(self.dump, self.lengths, self.map, unit, attenuation)
    }

    /// The millivolts of all counts of a unit at an attenuation.
    ///
    /// # Errors
    /// Those of [`LineRecord::decode`].
    #[inline]
    pub fn table(self, unit: Unit, attenuation: Attenuation) -> Answer<Table> {
        self.record(unit, attenuation)?.table()
    }
}
