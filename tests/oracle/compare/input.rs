//! What a call is handed, told in full.
use std::fmt::{self, Debug, Display, Formatter};

use crate::fuses::Fuses;

/// Dumps, block lengths, bytes with their name, and numbers with their names.
#[derive(Debug, Clone, Default)]
pub struct Input {
    pub dumps: Vec<Vec<u32>>,
    pub lengths: Option<Vec<u8>>,
    pub bytes: Option<(&'static str, Vec<u8>)>,
    pub numbers: Vec<(&'static str, u64)>,
}

impl Input {
    pub fn dump(mut self, words: &[u32]) -> Self {
        self.dumps.push(words.to_vec());
        self
    }

    pub fn lengths(self, lengths: &[u8]) -> Self {
        Self { lengths: Some(lengths.to_vec()), ..self }
    }

    pub fn fuses(self, fuses: Fuses) -> Self {
        self.dump(fuses.dump).lengths(fuses.lengths)
    }

    pub fn map(self, map: &[u8]) -> Self {
        Self { bytes: Some(("map", map.to_vec())), ..self }
    }

    pub fn log(self, log: &[u8]) -> Self {
        Self { bytes: Some(("log", log.to_vec())), ..self }
    }

    pub fn number(mut self, name: &'static str, value: impl Into<u64>) -> Self {
        self.numbers.push((name, value.into()));
        self
    }

    /// Whether there is a number of that name.
    pub fn has(&self, name: &str) -> bool {
        self.numbers.iter().any(|(other, _)| *other == name)
    }

    /// Gives another value to the number of that name.
    pub fn set(&mut self, name: &str, value: u64) {
        self.numbers.iter_mut().filter(|(other, _)| *other == name).for_each(|(_, old)| *old = value);
    }

    /// The number of that name.
    pub fn value<T: TryFrom<u64>>(&self, name: &str) -> T {
        let number = self.numbers.iter().find(|(other, _)| *other == name);
        number.and_then(|(_, value)| T::try_from(*value).ok()).unwrap_or_else(|| panic!("{name} of {self:?}"))
    }

    /// The block lengths; none counts as empty.
    pub fn lent_lengths(&self) -> &[u8] {
        self.lengths.as_deref().unwrap_or_default()
    }

    /// The first dump with the block lengths.
    pub fn lent_fuses(&self) -> Fuses<'_> {
        Fuses { dump: &self.dumps[0], lengths: self.lent_lengths() }
    }

    /// The map or the log; none counts as empty.
    pub fn lent_bytes(&self) -> &[u8] {
        self.bytes.as_ref().map_or(&[], |(_, bytes)| bytes)
    }
}

/// Words or numbers in hexadecimal, equal ones in a row told once.
pub fn runs<T: PartialEq + fmt::LowerHex>(list: &[T]) -> String {
    let mut told = Vec::new();
    let mut first = 0;
    for run in list.chunk_by(|one, next| one == next) {
        let last = first + run.len() - 1;
        told.push(if run.len() == 1 { format!("{first}: {:#x}", run[0]) } else { format!("{first} to {last}: {:#x}", run[0]) });
        first += run.len();
    }
    told.join(", ")
}

impl Display for Input {
    fn fmt(&self, to: &mut Formatter) -> fmt::Result {
        let mut told: Vec<String> = self.numbers.iter().map(|(name, value)| format!("{name} {value}")).collect();
        told.extend(self.dumps.iter().map(|dump| format!("dump of {} words [{}]", dump.len(), runs(dump))));
        told.extend(self.lengths.iter().map(|lengths| format!("block lengths {lengths:?}")));
        told.extend(self.bytes.iter().map(|(name, bytes)| {
            let hex: Vec<String> = bytes.iter().map(|byte| format!("{byte:02x}")).collect();
            format!("{name} of {} bytes [{}]", bytes.len(), hex.join(" "))
        }));
        write!(to, "{}", told.join("; "))
    }
}
