//! The eFuse of a chip whose own file isn't in the text: eleven blocks, as in the files that are.
use crate::peripherals::EFUSE;

mod fields;
pub use fields::*;

#[derive(Debug, Clone, Copy, strum::FromRepr)]
#[repr(u32)]
pub(crate) enum EfuseBlock {
    Block0,
    Block1,
    Block2,
    Block3,
    Block4,
    Block5,
    Block6,
    Block7,
    Block8,
    Block9,
    Block10,
}

impl EfuseBlock {
    pub(crate) fn address(self) -> *const u32 {
        EFUSE::regs().block(self as usize).as_ptr()
    }
}

pub fn major_chip_version() -> u8 {
    0
}

pub fn minor_chip_version() -> u8 {
    0
}
