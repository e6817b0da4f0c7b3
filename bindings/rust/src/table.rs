//! A table of all counts, filled once and then only looked into.
use std::ops::Index;

use crate::{Answer, Count, LineRecord, Millivolt, Reason, COUNTS};

/// The millivolts of every count by one record: 8 KiB, in the place that holds it.
#[derive(Debug, Clone, PartialEq, Eq)]
pub struct Table([Millivolt; COUNTS]);

impl Table {
    /// The table of a record.
    ///
    /// # Errors
    /// [`LineRecord`](Reason::LineRecord).
    #[inline]
    pub fn of(record: LineRecord) -> Answer<Self> {
        let mut table = Self([Millivolt(0); COUNTS]);
        table.refill(record)?;
        Ok(table)
    }

    /// Makes it the table of another record.
    ///
    /// # Errors
    /// [`LineRecord`](Reason::LineRecord). It is then still the table that it was.
    #[inline]
    pub fn refill(&mut self, record: LineRecord) -> Answer<()> {
        record.fill(Count(0), &mut self.0)
    }

    /// What [`LineRecord::convert`] answers for the table's record.
    ///
    /// # Errors
    /// [`Raw`](Reason::Raw). Indexing with such a count panics.
    #[inline]
    pub fn get(&self, count: Count) -> Answer<Millivolt> {
        self.0.get(usize::from(count.0)).copied().ok_or(Reason::Raw.into())
    }

    /// All of it, from count 0 on.
    #[inline]
    pub fn millivolts(&self) -> &[Millivolt; COUNTS] {
        &self.0
    }
}

impl Index<Count> for Table {
    type Output = Millivolt;

    #[inline]
    fn index(&self, count: Count) -> &Millivolt {
        &self.0[usize::from(count.0)]
    }
}
