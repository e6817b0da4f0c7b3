//! An answer as it is compared: why it was refused, and the values beside that.
use oracle::rules::{Answer, Refusal, refusal_bytes};
use suongkivat::{LineRecord, Sample};

/// Why a call was turned down: as the binding tells it in Rust, and C's three bytes, number, record and place. None and zeros where it
/// wasn't.
#[derive(Debug, Clone, Copy, PartialEq, Eq)]
pub struct Refused {
    pub in_rust: Option<Refusal>,
    pub in_c: [u8; 3],
}

impl Refused {
    pub const NOT: Self = Self { in_rust: None, in_c: [0; 3] };

    /// What has to be told of an answer.
    pub fn of<T>(answer: &Answer<T>) -> Self {
        Self { in_rust: answer.as_ref().err().copied(), in_c: refusal_bytes(answer) }
    }

    /// 0 where the call wasn't refused.
    pub fn number(self) -> u8 {
        self.in_c[0]
    }
}

impl From<Refusal> for Refused {
    fn from(refusal: Refusal) -> Self {
        Self::of::<()>(&Err(refusal))
    }
}

#[derive(Debug, Clone, Copy, PartialEq, Eq)]
pub struct Told<T> {
    pub refused: Refused,
    pub value: T,
}

/// A decoded record: as the binding tells it in Rust, and C's bytes of it but for the last, which isn't looked at.
#[derive(Debug, Clone, Copy, PartialEq, Eq, Default)]
pub struct Decoded {
    pub in_rust: LineRecord,
    pub in_c: [u8; 15],
}

#[derive(Debug, Clone, Copy, PartialEq, Eq)]
pub struct Outcome {
    pub refused: Refused,
}

/// A part of a board's dump: its first word, and how many there are.
#[derive(Debug, Clone, Copy, PartialEq, Eq)]
pub struct View {
    pub refused: Refused,
    pub board: u8,
    pub first: u32,
    pub words: u32,
}

/// What a log begins with: a sample where whole is 1; its end where whole is 0 and nothing is refused.
#[derive(Debug, Clone, Copy, PartialEq, Eq)]
pub struct Next {
    pub refused: Refused,
    pub whole: u8,
    pub sample: Sample,
}
