//! The codes that ESP32 line calibration is decoded from.
use crate::answers;
use crate::dumps::Builder;
use crate::line::Record;
use crate::noise::Noise;
use crate::plain::{dump_and_map, record};
use crate::rules::{Answer, EIGHTS, MapChip};

pub const UNITS: [u8; 2] = [0, 1];
pub const ATTENS: [u8; 4] = [0, 1, 2, 3];

/// The raw bits of ids 1 to 6.
#[derive(Clone, Copy)]
pub struct Codes {
    pub vref: u32,
    pub reserve: u32,
    pub low: [u32; 2],
    pub high: [u32; 2],
}

impl Codes {
    /// Any codes with every two-point code nonzero, and the reserve bit as asked.
    pub fn any(noise: &mut Noise, reserve: u32) -> Self {
        let mut two = |largest| [noise.within(1, largest), noise.within(1, largest)];
        let (low, high) = (two(0x7F), two(0x1FF));
        Self { vref: noise.below(32), reserve, low, high }
    }

    /// The same with a unit's two-point codes.
    pub fn with(mut self, unit: u8, low: u32, high: u32) -> Self {
        self.low[usize::from(unit)] = low;
        self.high[usize::from(unit)] = high;
        self
    }

    /// The same with a Vref code.
    pub fn with_vref(self, vref: u32) -> Self {
        Self { vref, ..self }
    }

    /// In the order of the ids.
    pub fn bits(self) -> [u32; 6] {
        [self.vref, self.reserve, self.low[0], self.low[1], self.high[0], self.high[1]]
    }

    /// A map whose fields hold the codes.
    pub fn place(self, noise: &mut Noise, dump: &mut Builder) -> Vec<u8> {
        let rows = MapChip::Esp32.rows().into_iter().zip(self.bits());
        rows.flat_map(|((id, _, count), bits)| record(id, dump.holding(noise, bits, count.into()))).collect()
    }

    /// What is decoded of them.
    pub fn decoded(self, unit: u8, atten: u8) -> Answer<Record> {
        let (dump, map) = dump_and_map(MapChip::Esp32, &self.bits());
        answers::decode(&dump, &EIGHTS, &map, unit, atten)
    }
}
