//! A list: records of one size, little-endian.
use std::fs;
use std::path::Path;

/// Bytes of a list of block lengths, which a case may begin with.
pub const LENGTHS: usize = 16;

pub struct List {
    program: &'static str,
    name: &'static str,
    record: usize,
    bytes: Vec<u8>,
}

impl List {
    /// An empty list for a program, with records of that many bytes.
    pub fn new(program: &'static str, name: &'static str, record: usize) -> Self {
        Self { program, name, record, bytes: Vec::new() }
    }

    pub fn u8(&mut self, value: u8) -> &mut Self {
        self.put(&[value])
    }

    pub fn u16(&mut self, value: u16) -> &mut Self {
        self.put(&value.to_le_bytes())
    }

    pub fn u32(&mut self, value: u32) -> &mut Self {
        self.put(&value.to_le_bytes())
    }

    pub fn i32(&mut self, value: i32) -> &mut Self {
        self.put(&value.to_le_bytes())
    }

    pub fn words(&mut self, words: &[u32]) -> &mut Self {
        words.iter().fold(self, |list, word| list.u32(*word))
    }

    /// A list of block lengths: how many there are, the lengths, zeros.
    pub fn lengths(&mut self, lengths: &[u8]) -> &mut Self {
        self.u8(lengths.len() as u8).put(lengths).zeros(LENGTHS - 1 - lengths.len())
    }

    pub fn zeros(&mut self, n: usize) -> &mut Self {
        self.put(&vec![0; n])
    }

    pub fn put(&mut self, bytes: &[u8]) -> &mut Self {
        self.bytes.extend_from_slice(bytes);
        self
    }

    /// Writes crates/PROGRAM/data/NAME and gives its size.
    pub fn save(self, root: &str) -> usize {
        assert_eq!(self.bytes.len() % self.record, 0, "{} is torn", self.name);
        let folder = Path::new(root).join("crates").join(self.program).join("data");
        fs::create_dir_all(&folder).expect("a folder");
        fs::write(folder.join(self.name), &self.bytes).expect("a list");
        let records = self.bytes.len() / self.record;
        println!("{}/data/{}: {records} records of {} bytes", self.program, self.name, self.record);
        self.bytes.len()
    }
}

/// Cases by groups of one size, which share a dump; begun again until no group lacks one.
pub fn groups<T>(cases: &[T], size: usize) -> Vec<Vec<&T>> {
    let whole: Vec<&T> = cases.iter().cycle().take(cases.len().next_multiple_of(size)).collect();
    whole.chunks(size).map(<[&T]>::to_vec).collect()
}
