//! Stands in for `portable_atomic`.
pub use core::sync::atomic::AtomicU8;
