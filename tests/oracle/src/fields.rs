//! Field reading: `read_field_le` of efuse/mod.rs. The text has the blocks of two chips; both are read, and must agree.
use crate::call::{Panic, caught};
use crate::{Dump, rules};

/// A field of a dump.
#[derive(Debug, Clone, Copy, PartialEq, Eq)]
pub struct Field {
    pub block: u8,
    pub bit_start: u16,
    pub bit_count: u16,
}

/// `$read` on a chip's own field, with the dump loaded, for both chips.
macro_rules! on_both {
    ($dump:expr, $field:expr, $read:ident $(, $n:expr)?) => {
        caught(|| {
            let (block, start, count) = ($field.block.into(), $field.bit_start.into(), $field.bit_count.into());
            esp32s2::reach::load($dump);
            let s2 = $read!(esp32s2, esp32s2::reach::field(block, start, count) $(, $n)?);
            esp32c6::reach::load($dump);
            let c6 = $read!(esp32c6, esp32c6::reach::field(block, start, count) $(, $n)?);
            assert_eq!(s2, c6, "the S2's and the C6's blocks differ");
            s2
        })
    };
}

macro_rules! as_u8 {
    ($chip:ident, $field:expr) => {
        $chip::efuse::read_field_le::<u8>($field)
    };
}

macro_rules! as_u16 {
    ($chip:ident, $field:expr) => {
        $chip::efuse::read_field_le::<u16>($field)
    };
}

macro_rules! as_u32 {
    ($chip:ident, $field:expr) => {
        $chip::efuse::read_field_le::<u32>($field)
    };
}

/// The crate's n is a part of the type, so each is a reading of its own.
macro_rules! as_bytes {
    ($chip:ident, $field:expr, $n:expr) => {
        as_bytes!($chip, $field, $n;
            0 1 2 3 4 5 6 7 8 9 10 11 12 13 14 15 16 17 18 19 20 21 22 23 24 25 26 27 28 29 30 31 32 33 34 35 36 37 38 39 40)
    };
    ($chip:ident, $field:expr, $n:expr; $($size:literal)*) => {
        match $n {
            $($size => $chip::efuse::read_field_le::<[u8; $size]>($field).to_vec(),)*
            _ => unreachable!("at most {MOST_BYTES} bytes"),
        }
    };
}

/// The most bytes that `read_bytes` reads at once: some more than a block has.
pub const MOST_BYTES: usize = 40;

pub fn read_u8(dump: &Dump, field: Field) -> Result<u8, Panic> {
    on_both!(dump, field, as_u8)
}

pub fn read_u16(dump: &Dump, field: Field) -> Result<u16, Panic> {
    on_both!(dump, field, as_u16)
}

pub fn read_u32(dump: &Dump, field: Field) -> Result<u32, Panic> {
    on_both!(dump, field, as_u32)
}

/// n bytes, at most `MOST_BYTES`.
pub fn read_bytes(dump: &Dump, field: Field, n: usize) -> Result<Vec<u8>, Panic> {
    assert!(n <= MOST_BYTES);
    on_both!(dump, field, as_bytes, n)
}

/// The field of a map's record k.
pub fn field_of(map: &[u8], k: usize) -> Field {
    let record = &map[rules::RECORD * k..];
    Field { block: record[1], bit_start: u16::from_le_bytes([record[2], record[3]]), bit_count: record[4].into() }
}
