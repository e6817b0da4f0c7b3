//! A seeded generator (SplitMix64): the same numbers in every run.

use crate::Dump;

pub struct Noise(u64);

impl Noise {
    /// Each list has its own seed, so that a change in one leaves the others as they were.
    pub fn new(seed: u64) -> Self {
        Self(seed)
    }

    pub fn long(&mut self) -> u64 {
        self.0 = self.0.wrapping_add(0x9E37_79B9_7F4A_7C15);
        let mut z = self.0;
        z = (z ^ (z >> 30)).wrapping_mul(0xBF58_476D_1CE4_E5B9);
        z = (z ^ (z >> 27)).wrapping_mul(0x94D0_49BB_1331_11EB);
        z ^ (z >> 31)
    }

    /// A number below n.
    pub fn below(&mut self, n: u32) -> u32 {
        (self.long() % u64::from(n)) as u32
    }

    /// A number from the first to the last.
    pub fn within(&mut self, first: u32, last: u32) -> u32 {
        first + self.below(last - first + 1)
    }

    pub fn byte(&mut self) -> u8 {
        self.long() as u8
    }

    pub fn pick<T: Copy>(&mut self, from: &[T]) -> T {
        from[self.below(from.len() as u32) as usize]
    }

    /// A dump of noise.
    pub fn dump(&mut self) -> Dump {
        std::array::from_fn(|_| self.long() as u32)
    }

    /// True once in n times.
    pub fn once_in(&mut self, n: u32) -> bool {
        self.below(n) == 0
    }
}
