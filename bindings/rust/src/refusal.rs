//! Why a call was turned down.
use std::{error, fmt};

use crate::raw::SkvRefusal;

/// What a call gives: its value, or why there is none.
pub type Answer<T> = Result<T, Refusal>;

/// Why a call was turned down, and which record of its map is to blame.
#[derive(Debug, Clone, Copy, PartialEq, Eq, PartialOrd, Ord, Hash)]
#[repr(align(4))] // so that a line record, which stands where a refusal would, is copied by whole words: 10 ns less for a decoding
pub struct Refusal {
    /// What is wrong.
    pub reason: Reason,
    /// The number of the map's first bad record, from 0: of a call that takes a map, at [`MapId`](Reason::MapId),
    /// [`MapByte`](Reason::MapByte), [`Block`](Reason::Block), [`BitRange`](Reason::BitRange) and [`BitCount`](Reason::BitCount).
    /// Where an S2's code is refused for what it reads past block 2's own length, that is no record's, and there is none.
    pub record: Option<u8>,
    /// Where in that record the first byte stands that should be zero and isn't, 5, 6 or 7: at [`MapByte`](Reason::MapByte).
    pub place: Option<u8>,
}

macro_rules! reasons {
    ($($number:literal $name:ident: $words:literal, $advice:literal;)*) => {
        /// What is wrong, by its number in the header and in docs/RULES.md.
        #[derive(Debug, Clone, Copy, PartialEq, Eq, PartialOrd, Ord, Hash)]
        #[non_exhaustive]
        pub enum Reason {
            $(#[doc = concat!("Number ", $number, ": ", $words, ".")] $name,)*
            /// A number that this crate doesn't know: the library is newer than the crate. docs/RULES.md of that library has it.
            Unknown(u8),
        }

        impl Reason {
            /// The reasons that the crate knows, in the order of their numbers.
            pub const ALL: &'static [Self] = &[$(Self::$name),*];

            /// The reason of a number that is one.
            const fn numbered(number: u8) -> Self {
                match number {
                    $($number => Self::$name,)*
                    _ => Self::Unknown(number),
                }
            }

            /// Its number.
            pub const fn number(self) -> u8 {
                match self {
                    $(Self::$name => $number,)*
                    Self::Unknown(number) => number,
                }
            }

            /// What is wrong, in the words of the header.
            pub const fn words(self) -> &'static str {
                match self {
                    $(Self::$name => $words,)*
                    Self::Unknown(_) => "a refusal that this binding doesn't know",
                }
            }

            /// What to do about it, in the words of docs/RULES.md.
            pub const fn advice(self) -> &'static str {
                match self {
                    $(Self::$name => $advice,)*
                    Self::Unknown(_) => "look the number up in docs/RULES.md of the library, and take the binding of its version",
                }
            }
        }
    };
}

reasons! {
    1 Dump: "the dump hasn't 88 words", "dump the board again; a dump file has 352 bytes";
    2 Map: "the map's length isn't its chip's", "take the map of this chip, and see that it is whole";
    3 MapId: "a map record's id isn't that of its place", "mend that record: ids in order, each once; look for a shifted byte";
    4 Block: "block above 10", "mend the block";
    5 BitRange: "bit start above 255, or start + count past the block's own length, 32 bits a word",
        "mend bit start or count: a field stays inside its block; see that the list of block lengths is this chip's";
    6 BitCount: "a map record's bit count isn't its id's", "mend the count by the table of ids";
    7 Unit: "unit above 1 or attenuation above 3", "ask for a unit and an attenuation that exist";
    8 Raw: "count above 4095", "distrust the log: no converter of 12 bits gives it";
    9 Underflow: "by the two points the line would begin below 0 mV",
        "see that the map is this board's; if it is, take no voltages from this unit at this attenuation";
    10 LineRecord: "line record outside its ranges, or by Vref with another a or b than its Vref's",
        "decode it again; a stored record was damaged, or is from before version 3.0";
    11 Stretch: "a stretch whose first count plus length is above 4096", "lend a shorter list";
    12 NoCode: "no code in that version: S2 version not 2, or C6 version not 1 or 2", "this chip has no such code";
    13 LineAnswer: "line answer above 4095 given to the curve", "see where that voltage came from";
    14 Curve: "no curve for that chip and unit", "ask only for a chip and a unit that have a curve";
    15 Board: "board above 1, or a sample's last byte above 7", "distrust the log: a byte was lost or the layout is another";
    16 Log: "log ends inside a record", "the log was cut off; what came before it stands";
    18 MapByte: "a byte among a map record's last three isn't zero",
        "mend that byte: it is zero in every record; look for a shifted byte";
    20 Lengths: "the list of block lengths isn't eleven, or one of them is above 8",
        "take this chip's list of block lengths, whole: eleven bytes, each 0 to 8";
}

impl Reason {
    /// The reason of a number; none for 0, which is no refusal.
    pub const fn from_number(number: u8) -> Option<Self> {
        if number == 0 {
            None
        } else {
            Some(Self::numbered(number))
        }
    }

    /// Whether a call that takes a map tells the bad record with it.
    const fn is_of_a_record(self) -> bool {
        matches!(self, Self::MapId | Self::MapByte | Self::Block | Self::BitRange | Self::BitCount)
    }
}

impl fmt::Display for Reason {
    fn fmt(&self, to: &mut fmt::Formatter) -> fmt::Result {
        write!(to, "{} (refusal {})", self.words(), self.number())
    }
}

impl Refusal {
    /// Its reason's number.
    pub const fn number(self) -> u8 {
        self.reason.number()
    }

    /// What is wrong, in the words of the header.
    pub const fn words(self) -> &'static str {
        self.reason.words()
    }

    /// What to do about it, in the words of docs/RULES.md.
    pub const fn advice(self) -> &'static str {
        self.reason.advice()
    }
}

/// A refusal that tells no record.
impl From<Reason> for Refusal {
    #[inline]
    fn from(reason: Reason) -> Self {
        Self { reason, record: None, place: None }
    }
}

impl fmt::Display for Refusal {
    fn fmt(&self, to: &mut fmt::Formatter) -> fmt::Result {
        match (self.record, self.place) {
            (Some(record), Some(place)) => write!(to, "map record {record}, byte {place}: ")?,
            (Some(record), None) => write!(to, "map record {record}: ")?,
            (None, _) => (),
        }
        self.reason.fmt(to)
    }
}

impl error::Error for Refusal {}

impl SkvRefusal {
    /// The value that stands beside it, if it is no refusal: of a call that takes no map. By reference, so that the good way takes the
    /// number alone out of an answer.
    #[inline]
    pub(crate) fn or<T>(&self, value: T) -> Answer<T> {
        if self.number == 0 {
            Ok(value)
        } else {
            Err(self.plain())
        }
    }

    /// The same of a call that takes a map, where some numbers tell its record.
    #[inline]
    pub(crate) fn or_of_map<T>(&self, value: T) -> Answer<T> {
        if self.number == 0 {
            Ok(value)
        } else {
            Err(self.of_map())
        }
    }

    /// A refusal that tells no record. Kept out of line, as is the one below, so that callers on the good way carry nothing of them.
    #[cold]
    #[inline(never)]
    fn plain(&self) -> Refusal {
        Reason::numbered(self.number).into()
    }

    /// A refusal with the record and the place that it tells.
    #[cold]
    #[inline(never)]
    fn of_map(&self) -> Refusal {
        let reason = Reason::numbered(self.number);
        let record = reason.is_of_a_record().then_some(self.record);
        let place = (reason == Reason::MapByte).then_some(self.place);
        Refusal { reason, record, place }
    }
}
