//! Two boards beside one another.
use crate::{raw, Answer, Millivolt, Sample};

/// A session's two dumps, lent, of 88 words each, and how many of them their chip has.
#[derive(Debug, Clone, Copy, PartialEq, Eq)]
pub struct Session<'a> {
    /// Of the field board, which is board 0.
    pub field: &'a [u32],
    /// Of the reference board, which is board 1.
    pub reference: &'a [u32],
    /// How many words each block has; [`EIGHTS`](crate::EIGHTS) where none is shorter.
    pub lengths: &'a [u8],
}

impl<'a> Session<'a> {
    /// The words that a board's block has, perhaps none, as a part of its dump. The chosen dump alone is checked.
    ///
    /// # Errors
    /// [`Board`](crate::Reason::Board), [`Dump`](crate::Reason::Dump), [`Lengths`](crate::Reason::Lengths),
    /// [`Block`](crate::Reason::Block).
    #[inline]
    pub fn view(self, board: u8, block: u8) -> Answer<&'a [u32]> {
        let view = raw::view(self.field, self.reference, self.lengths, board, block);
        view.refusal.or(())?;
        let dump = if view.board == 0 { self.field } else { self.reference };
        Ok(&dump[view.first as usize..][..view.words as usize])
    }

    /// A sample's millivolts, by an ESP32 map and the dump of its board.
    ///
    /// # Errors
    /// [`Board`](crate::Reason::Board), those of [`LineRecord::decode`](crate::LineRecord::decode), [`Raw`](crate::Reason::Raw).
    #[inline]
    pub fn sample(self, map: &[u8], sample: Sample) -> Answer<Millivolt> {
        let answer = raw::sample(sample, self.field, self.reference, self.lengths, map);
        answer.refusal.or_of_map(answer.voltage)
    }
}
