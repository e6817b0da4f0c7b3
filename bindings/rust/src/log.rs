//! Logs of samples.
use std::iter::FusedIterator;

use crate::{raw, Answer, Count, SAMPLE_BYTES};

/// A record of a log.
#[repr(C)]
#[derive(Debug, Clone, Copy, PartialEq, Eq, Hash, Default)]
pub struct Sample {
    /// What was read.
    pub raw: Count,
    /// 0 for the field board, 1 for the reference board.
    pub board: u8,
    /// Unit × 4 + attenuation.
    pub last: u8,
}

/// What a log begins with; none at its end.
///
/// # Errors
/// [`Log`](crate::Reason::Log).
#[inline]
pub fn next_sample(log: &[u8]) -> Answer<Option<Sample>> {
    let next = raw::next_sample(log);
    next.refusal.or((next.whole != 0).then_some(next.sample))
}

/// A lent log's samples, one after the other. Where it ends inside one, the last item says so.
#[derive(Debug, Clone)]
pub struct Log<'a>(&'a [u8]);

impl<'a> Log<'a> {
    /// The samples of a log.
    pub fn new(bytes: &'a [u8]) -> Self {
        Self(bytes)
    }
}

impl Iterator for Log<'_> {
    type Item = Answer<Sample>;

    #[inline]
    fn next(&mut self) -> Option<Answer<Sample>> {
        let next = next_sample(self.0);
        self.0 = if next.is_ok() { self.0.get(SAMPLE_BYTES..).unwrap_or(&[]) } else { &[] };
        next.transpose()
    }
}

impl FusedIterator for Log<'_> {}
