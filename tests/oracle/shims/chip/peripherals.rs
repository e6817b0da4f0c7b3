//! The converters, and the eFuse controller with its registers in plain memory.
use core::marker::PhantomData;
use core::sync::atomic::{AtomicU32, Ordering};

pub struct ADC1<'a>(PhantomData<&'a ()>);
pub struct ADC2<'a>(PhantomData<&'a ()>);

impl crate::private::Sealed for ADC1<'_> {}
impl crate::private::Sealed for ADC2<'_> {}

/// Words of a dump.
pub const DUMP: usize = 88;

const BLOCK: usize = 8;

/// Behind the dump stand the fields' homes (efuse/fields.rs), and after them enough words that no field with a 16-bit
/// start and count, wherever it ends, leaves the memory.
const MEMORY: usize = DUMP + 2 * 65536 / 32 + 2;

static WORDS: [AtomicU32; MEMORY] = [const { AtomicU32::new(0) }; MEMORY];

/// Sets word k of the memory.
pub fn put(k: usize, word: u32) {
    WORDS[k].store(word, Ordering::Relaxed);
}

pub struct EFUSE;

impl EFUSE {
    pub fn regs() -> Registers {
        Registers
    }
}

pub struct Registers;

/// The first word of a block.
pub struct Register(usize);

impl Register {
    pub fn as_ptr(self) -> *mut u32 {
        // A pointer made from the whole memory, so that reading on past the block stays inside it.
        let start = WORDS.as_ptr() as *mut u32;
        unsafe { start.add(self.0 * BLOCK) }
    }
}

impl Registers {
    /// The block of that number, for the chips whose registers aren't in the text.
    pub fn block(&self, number: usize) -> Register {
        Register(number)
    }

    pub fn rd_wr_dis(&self) -> Register {
        Register(0)
    }

    pub fn rd_mac_spi_sys_0(&self) -> Register {
        Register(1)
    }
}

/// The names of blocks 2 to 10: on the S2 indexed by the word, on the C6 a name for each word.
macro_rules! blocks {
    ($($s2:ident $c6:ident $number:literal,)*) => {
        impl Registers {
            $(
                pub fn $s2(&self, _word: usize) -> Register {
                    Register($number)
                }

                pub fn $c6(&self) -> Register {
                    Register($number)
                }
            )*
        }
    };
}

blocks! {
    rd_sys_data_part1_ rd_sys_part1_data0 2,
    rd_usr_data rd_usr_data0 3,
    rd_key0_data rd_key0_data0 4,
    rd_key1_data rd_key1_data0 5,
    rd_key2_data rd_key2_data0 6,
    rd_key3_data rd_key3_data0 7,
    rd_key4_data rd_key4_data0 8,
    rd_key5_data rd_key5_data0 9,
    rd_sys_data_part2_ rd_sys_part2_data0 10,
}
