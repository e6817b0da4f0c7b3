//! Field maps.
use crate::{raw, Answer, Chip};

/// Whether a map is its chip's, whose blocks have these lengths.
///
/// # Errors
/// [`Lengths`](crate::Reason::Lengths), then the map's: [`Map`](crate::Reason::Map), and for each record from first to last
/// [`MapId`](crate::Reason::MapId), [`MapByte`](crate::Reason::MapByte), [`Block`](crate::Reason::Block),
/// [`BitRange`](crate::Reason::BitRange), [`BitCount`](crate::Reason::BitCount). Those of a record tell which it is, here and from
/// every other call that takes a map. No map is that of a chip other than ESP32, S2 and C6.
#[inline]
pub fn check_map(chip: Chip, lengths: &[u8], map: &[u8]) -> Answer<()> {
    raw::check_map(chip.0, lengths, map).refusal.or_of_map(())
}
