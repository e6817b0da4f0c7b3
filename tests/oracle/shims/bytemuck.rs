//! Stands in for `bytemuck`: the types that any bytes are a value of, as far as fields are read at them.

/// # Safety
/// Any bytes are a value of the type.
pub unsafe trait AnyBitPattern: Copy + 'static {}

unsafe impl AnyBitPattern for u8 {}
unsafe impl AnyBitPattern for u16 {}
unsafe impl AnyBitPattern for u32 {}
unsafe impl<const N: usize> AnyBitPattern for [u8; N] {}
