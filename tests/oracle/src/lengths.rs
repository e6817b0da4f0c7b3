//! Lists of block lengths, good ones and ones that are refused with 20.
use crate::fields::field_of;
use crate::noise::Noise;
use crate::rules::{BLOCKS, Lengths, MOST, RECORD};

/// A good list.
pub fn any(noise: &mut Noise) -> Lengths {
    std::array::from_fn(|_| noise.below(u32::from(MOST) + 1) as u8)
}

/// The list with another length for a block.
pub fn with(mut lengths: Lengths, block: u8, length: u8) -> Lengths {
    lengths[usize::from(block)] = length;
    lengths
}

/// The least lengths that the fields of a good map lie inside.
pub fn least(map: &[u8]) -> Lengths {
    let mut lengths = [0; BLOCKS];
    for field in (0..map.len() / RECORD).map(|k| field_of(map, k)) {
        let words = (field.bit_start + field.bit_count).div_ceil(32) as u8;
        let length = &mut lengths[usize::from(field.block)];
        *length = words.max(*length);
    }
    lengths
}

/// The same with a word less in the block of a record: that one lies outside, or another of its block.
pub fn outside(map: &[u8], k: usize) -> Lengths {
    let (least, block) = (least(map), field_of(map, k).block);
    with(least, block, least[usize::from(block)] - 1)
}

/// What is made of a good list that is refused: another number of entries, and a length above 8 at each place.
pub fn bad(good: Lengths) -> Vec<Vec<u8>> {
    let longer = [&good[..], &[MOST]].concat();
    let numbers = [0, 1, BLOCKS - 1, BLOCKS + 1].map(|n| longer[..n].to_vec());
    let above = (0..BLOCKS as u8).flat_map(|block| [MOST + 1, 255].map(|length| with(good, block, length).to_vec()));
    numbers.into_iter().chain(above).collect()
}
