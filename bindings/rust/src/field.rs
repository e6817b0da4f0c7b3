//! Fields of a dump.
use crate::{raw, Answer};

/// The bits `bit_start` to `bit_start + bit_count - 1` of a block.
///
/// # Errors
/// Of every reading: [`Dump`](crate::Reason::Dump), [`Lengths`](crate::Reason::Lengths), [`Block`](crate::Reason::Block),
/// [`BitRange`](crate::Reason::BitRange), in this order.
#[repr(C)]
#[derive(Debug, Clone, Copy, PartialEq, Eq, Hash, Default)]
pub struct Field {
    /// 0 to 10.
    pub block: u8,
    /// 0 to 255.
    pub bit_start: u16,
    /// At most 32 for each word of the block, less the start.
    pub bit_count: u16,
}

impl Field {
    /// Its low 8 bits.
    #[inline]
    pub fn read_u8(self, dump: &[u32], lengths: &[u8]) -> Answer<u8> {
        let read = raw::read_field_u8(dump, lengths, self);
        read.refusal.or(read.value as u8) // 255 at most, by the call's promise
    }

    /// Its low 16 bits.
    #[inline]
    pub fn read_u16(self, dump: &[u32], lengths: &[u8]) -> Answer<u16> {
        let read = raw::read_field_u16(dump, lengths, self);
        read.refusal.or(read.value as u16) // 65535 at most, by the call's promise
    }

    /// Its low 32 bits.
    #[inline]
    pub fn read_u32(self, dump: &[u32], lengths: &[u8]) -> Answer<u32> {
        let read = raw::read_field_u32(dump, lengths, self);
        read.refusal.or(read.value)
    }

    /// Writes it into the lent bytes, low first: all of them, with zeros past the field's end.
    #[inline]
    pub fn read_le(self, dump: &[u32], lengths: &[u8], bytes: &mut [u8]) -> Answer<()> {
        raw::read_field_le(dump, lengths, self, bytes).refusal.or(())
    }
}
