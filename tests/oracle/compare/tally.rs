//! Comparing an answer of the library with the one that document 01 and the crate give, and counting.
use std::collections::BTreeSet;
use std::fmt::{self, Debug, Display, Formatter};
use std::ops::Range;

use oracle::rules::Answer;
use oracle::{Panic, quietly};
use suongkivat::Millivolt;

use crate::input::{Input, runs};
use crate::told::{Next, Outcome, Refused, Told, View};

/// Where two answers differ.
pub struct Difference {
    pub call: &'static str,
    pub input: Input,
    pub ours: String,
    pub wanted: String,
}

impl Display for Difference {
    fn fmt(&self, to: &mut Formatter) -> fmt::Result {
        writeln!(to, "    {}: {}", self.call, self.input)?;
        writeln!(to, "    the library:               {}", self.ours)?;
        write!(to, "    document 01 and the crate: {}", self.wanted)
    }
}

pub type Compared = Result<(), Box<Difference>>;

/// An answer as it is compared.
pub trait Seen: PartialEq + Debug {
    fn refused(&self) -> Refused;
}

impl<T: PartialEq + Debug> Seen for Told<T> {
    fn refused(&self) -> Refused {
        self.refused
    }
}

macro_rules! seen {
    ($($answer:ty: $refused:expr,)*) => {
        $(impl Seen for $answer {
            fn refused(&self) -> Refused {
                let refused: fn(&$answer) -> Refused = $refused;
                refused(self)
            }
        })*
    };
}

seen! {
    Outcome: |answer| answer.refused,
    View: |answer| answer.refused,
    Next: |answer| answer.refused,
    // A call that refuses nothing: the C6's version.
    u8: |_| Refused::NOT,
}

/// An answer with all of the lent memory after the call.
#[derive(PartialEq)]
pub struct Lent<T>(pub Outcome, pub Vec<T>);

impl<T: PartialEq + fmt::LowerHex> Debug for Lent<T> {
    fn fmt(&self, to: &mut Formatter) -> fmt::Result {
        write!(to, "{:?}, lent memory [{}]", self.0, runs(&self.1))
    }
}

impl<T: PartialEq + fmt::LowerHex> Seen for Lent<T> {
    fn refused(&self) -> Refused {
        self.0.refused
    }
}

/// What the library has to tell of an answer: a refusal carries zeros.
pub fn told<T: Default>(answer: Answer<T>) -> Told<T> {
    Told { refused: Refused::of(&answer), value: answer.unwrap_or_default() }
}

pub fn outcome<T>(answer: &Answer<T>) -> Outcome {
    Outcome { refused: Refused::of(answer) }
}

/// How many answers were compared, how many of them are refusals, and with which numbers; and the number of the last one.
#[derive(Default)]
pub struct Tally {
    pub compared: u64,
    pub refused: u64,
    pub numbers: BTreeSet<u8>,
    pub last: u8,
}

impl Tally {
    /// Compares two answers. The oracle stops where document 01 and the crate differ, and that is a difference too.
    pub fn same<T: Seen>(
        &mut self,
        call: &'static str,
        input: impl FnOnce() -> Input,
        ours: T,
        wanted: impl FnOnce() -> T,
    ) -> Compared {
        let wanted = match quietly(wanted) {
            Ok(wanted) if wanted == ours => {
                self.compared += 1;
                self.last = wanted.refused().number();
                if self.last != 0 {
                    self.refused += 1;
                    self.numbers.insert(self.last);
                }
                return Ok(());
            }
            Ok(wanted) => format!("{wanted:?}"),
            Err(Panic(said)) => said,
        };
        Err(Box::new(Difference { call, input: input(), ours: format!("{ours:?}"), wanted }))
    }

    /// Compares two tables after a call that had to write a part of them and nothing else.
    pub fn same_table(
        &mut self,
        call: &'static str,
        input: impl FnOnce() -> Input,
        [ours, wanted]: [&[Millivolt]; 2],
        written: Range<usize>,
    ) -> Compared {
        self.compared += written.len() as u64;
        if ours == wanted {
            return Ok(());
        }
        let place = (0..wanted.len()).find(|k| ours[*k] != wanted[*k]).expect("tables of one length");
        let told = |table: &[Millivolt]| format!("the table has {} at {place}", table[place].0);
        Err(Box::new(Difference { call, input: input(), ours: told(ours), wanted: told(wanted) }))
    }
}
