//! A dump as it is kept in a file.
use crate::{Answer, Reason, DUMP_WORDS};

/// The words of a dump file: 352 bytes, each word low byte first.
///
/// # Errors
/// [`Dump`](Reason::Dump) for any other number of bytes.
pub fn dump_from_bytes(bytes: &[u8]) -> Answer<[u32; DUMP_WORDS]> {
    let mut dump = [0; DUMP_WORDS];
    if bytes.len() != 4 * DUMP_WORDS {
        return Err(Reason::Dump.into());
    }
    for (word, bytes) in dump.iter_mut().zip(bytes.chunks_exact(4)) {
        *word = u32::from_le_bytes([bytes[0], bytes[1], bytes[2], bytes[3]]);
    }
    Ok(dump)
}
