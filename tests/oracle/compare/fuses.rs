//! What a call that reads fields is handed first.
use oracle::rules::EIGHTS;

/// A dump, and how many words each of its blocks has.
#[derive(Clone, Copy)]
pub struct Fuses<'a> {
    pub dump: &'a [u32],
    pub lengths: &'a [u8],
}

/// A dump whose blocks all have eight words.
pub fn whole(dump: &[u32]) -> Fuses<'_> {
    Fuses { dump, lengths: &EIGHTS }
}
