//! Dumps of zeros, ones and noise, and dumps that hold wanted values at places that a map then names.
use crate::Dump;
use crate::fields::Field;
use crate::noise::Noise;

pub const ZEROS: Dump = [0; 88];
pub const ONES: Dump = [u32::MAX; 88];

/// The words of bytes, each low byte first.
pub fn words_of(bytes: &[u8]) -> Vec<u32> {
    bytes.chunks_exact(4).map(|word| u32::from_le_bytes(word.try_into().expect("four bytes"))).collect()
}

/// Words that a case may lend: the dump's, and zeros behind them.
pub const MOST_WORDS: u8 = 96;

/// The first n of a dump's words and the zeros behind them.
pub fn lent(dump: &Dump, n: u8) -> Vec<u32> {
    let mut words = dump.to_vec();
    words.resize(MOST_WORDS.into(), 0);
    words.truncate(n.into());
    words
}

/// A number of words: 88, but once in a while a wrong one.
pub fn any_words(noise: &mut Noise) -> u8 {
    if noise.once_in(24) { noise.pick(&[0, 1, 80, 87, 89, MOST_WORDS]) } else { 88 }
}

/// A dump in the making: once a place is named, its bits stay.
pub struct Builder {
    pub dump: Dump,
    kept: [[bool; 256]; 11],
}

impl Builder {
    pub fn new(dump: Dump) -> Self {
        Self { dump, kept: [[false; 256]; 11] }
    }

    /// Keeps a block as it is.
    pub fn keep(mut self, block: usize) -> Self {
        self.kept[block] = [true; 256];
        self
    }

    /// A place that holds the value already, or else one whose bits nobody named, which is made to hold it.
    pub fn holding(&mut self, noise: &mut Noise, value: u32, count: u32) -> Field {
        let first = any_place(noise, count);
        let found = places(first).find(|place| self.value(*place) == value);
        let field = found.or_else(|| places(first).find(|place| self.free(*place))).expect("a free place");
        self.write(field, value);
        Self::bits(field).for_each(|k| self.kept[usize::from(field.block)][k] = true);
        field
    }

    fn bits(field: Field) -> impl Iterator<Item = usize> {
        let start = usize::from(field.bit_start);
        start..start + usize::from(field.bit_count)
    }

    fn free(&self, field: Field) -> bool {
        Self::bits(field).all(|k| !self.kept[usize::from(field.block)][k])
    }

    fn value(&self, field: Field) -> u32 {
        let bit = |k: usize| self.dump[8 * usize::from(field.block) + k / 32] >> (k % 32) & 1;
        Self::bits(field).enumerate().map(|(i, k)| bit(k) << i).sum()
    }

    /// Makes a place hold the value.
    pub fn write(&mut self, field: Field, value: u32) {
        for (i, k) in Self::bits(field).enumerate() {
            let word = &mut self.dump[8 * usize::from(field.block) + k / 32];
            *word = *word & !(1 << (k % 32)) | (value >> i & 1) << (k % 32);
        }
    }
}

/// A place for that many bits inside some block.
pub fn any_place(noise: &mut Noise, count: u32) -> Field {
    Field { block: noise.below(11) as u8, bit_start: noise.within(0, 256 - count) as u16, bit_count: count as u16 }
}

/// All places of that size, from the given one on and around.
fn places(first: Field) -> impl Iterator<Item = Field> {
    let starts = 257 - first.bit_count;
    let all = 11 * starts;
    (0..all).map(move |i| {
        let at = (u16::from(first.block) * starts + first.bit_start + i) % all;
        Field { block: (at / starts) as u8, bit_start: at % starts, ..first }
    })
}
