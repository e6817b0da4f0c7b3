//! Document 01's refusals, as document 02 has changed them, written down a second time, away from the proved library: each rule gives
//! its number, and a map's rules tell the record too.
use crate::curve::Chip;
use crate::document::TwoPoints;
use crate::fields::{Field, field_of, read_u32};
use crate::line::{self, Record, TWO_POINT, VREF};
use crate::{Dump, document};

/// Why a call is turned down.
#[derive(Debug, Clone, Copy, PartialEq, Eq)]
pub struct Refusal {
    pub number: u8,
    /// Document 02, #102: the number of a map's bad record, from 0, where one is told.
    pub record: Option<u8>,
    /// The place in that record of a byte that should be zero, where one is told.
    pub place: Option<u8>,
}

impl Refusal {
    /// A refusal that tells no record.
    pub const fn numbered(number: u8) -> Self {
        Self { number, record: None, place: None }
    }

    /// Number, record and place as C and the lists have them: 0 where none is told.
    pub fn bytes(self) -> [u8; 3] {
        [self.number, self.record.unwrap_or(0), self.place.unwrap_or(0)]
    }
}

/// A value, or why the call is turned down.
pub type Answer<T> = Result<T, Refusal>;

/// Number, record and place of an answer, zeros for a good one.
pub fn refusal_bytes<T>(answer: &Answer<T>) -> [u8; 3] {
    answer.as_ref().err().map_or([0; 3], |refusal| refusal.bytes())
}

/// The number of an answer, 0 for a good one.
pub fn number<T>(answer: &Answer<T>) -> u8 {
    refusal_bytes(answer)[0]
}

fn refuse(wrong: bool, number: u8) -> Answer<()> {
    if wrong { Err(Refusal::numbered(number)) } else { Ok(()) }
}

/// Blocks of a dump, and the most words that one has.
pub const BLOCKS: usize = 11;
pub const MOST: u8 = 8;

/// Document 02, #109: how many words each block has.
pub type Lengths = [u8; BLOCKS];

/// The list of a chip whose blocks are all whole, which is document 01's.
pub const EIGHTS: Lengths = [MOST; BLOCKS];

/// 20, document 02, #109: the list of block lengths isn't eleven lengths of at most 8.
pub fn lengths(list: &[u8]) -> Answer<&Lengths> {
    let eleven = <&Lengths>::try_from(list).map_err(|_| Refusal::numbered(20))?;
    refuse(eleven.iter().any(|length| *length > MOST), 20)?;
    Ok(eleven)
}

/// 1: the dump hasn't 88 words; right after it 20.
pub fn dump<'a>(words: &'a [u32], list: &'a [u8]) -> Answer<(&'a Dump, &'a Lengths)> {
    let dump = words.try_into().map_err(|_| Refusal::numbered(1))?;
    Ok((dump, lengths(list)?))
}

/// The chips that have a field map.
#[derive(Debug, Clone, Copy, PartialEq, Eq)]
pub enum MapChip {
    Esp32,
    S2,
    C6,
}

/// An id of a map, with its least and its largest bit count.
pub type Row = (u8, u8, u8);

/// Bytes of a map's record, and of a log's.
pub const RECORD: usize = 8;
pub const SAMPLE: usize = 4;

impl MapChip {
    /// The chip's ids: document 01's table.
    pub fn rows(self) -> Vec<Row> {
        let all = [
            (1, 1, 5, 5),
            (2, 2, 1, 1),
            (3, 4, 7, 7),
            (5, 6, 9, 9),
            (7, 8, 1, 8),
            (9, 12, 1, 15),
            (13, 16, 10, 10),
            (17, 23, 4, 4),
        ];
        let ids = match self {
            MapChip::Esp32 => 1..=6,
            MapChip::S2 => 7..=8,
            MapChip::C6 => 9..=23,
        };
        let row = |id| all.iter().find(|(first, last, ..)| (*first..=*last).contains(&id)).expect("a row");
        ids.map(|id| (id, row(id).2, row(id).3)).collect()
    }
}

/// 4: block above 10; else the words that it has.
pub fn block(lengths: &Lengths, block: u8) -> Answer<u8> {
    lengths.get(usize::from(block)).copied().ok_or(Refusal::numbered(4))
}

/// 4; 5: bit start above 255, or, document 02, #109, start + count above 32 x the block's own length.
pub fn place(lengths: &Lengths, field: Field) -> Answer<()> {
    let end = 32 * u32::from(block(lengths, field.block)?);
    refuse(field.bit_start > 255 || u32::from(field.bit_start) + u32::from(field.bit_count) > end, 5)
}

/// A map's record: 3: its id is wrong; 18: a byte among its last three isn't zero, and the first such tells its place; 4 and 5: its
/// field's place; 6: its bit count is not as in the table.
fn map_record(lengths: &Lengths, record: &[u8], (id, least, largest): Row) -> Answer<()> {
    refuse(record[0] != id, 3)?;
    for at in [5, 6, 7] {
        refuse(record[at] != 0, 18).map_err(|refusal| Refusal { place: Some(at as u8), ..refusal })?;
    }
    place(lengths, field_of(record, 0))?;
    refuse(!(least..=largest).contains(&record[4]), 6)
}

/// 2: the map's length isn't its chip's; then its records from first to last, and the first bad one tells its number.
pub fn map(chip: MapChip, lengths: &Lengths, map: &[u8]) -> Answer<()> {
    let rows = chip.rows();
    refuse(map.len() != RECORD * rows.len(), 2)?;
    for (k, (record, row)) in map.chunks(RECORD).zip(rows).enumerate() {
        map_record(lengths, record, row).map_err(|refusal| Refusal { record: Some(k as u8), ..refusal })?;
    }
    Ok(())
}

/// 7: unit above 1 or attenuation above 3.
pub fn unit(unit: u8, atten: u8) -> Answer<()> {
    refuse(unit > 1 || atten > 3, 7)
}

/// 8: raw above 4095.
#[inline]
pub fn raw(raw: u16) -> Answer<()> {
    refuse(raw > 4095, 8)
}

/// The two points that a unit's a and b come from; none where they come from Vref. The map is a good one.
pub fn two_points(dump: &Dump, map: &[u8], unit: u8, atten: u8) -> Option<TwoPoints> {
    let bits = |id: usize| read_u32(dump, field_of(map, id - 1)).expect("a good map's field is read");
    let used = bits(2) == 1 && (3..=6).all(|id| bits(id) != 0);
    let unit = usize::from(unit);
    used.then(|| document::two_points(unit, atten.into(), bits(3 + unit), bits(5 + unit)))
}

/// 9, document 02, #104: b by two points, the whole number 850 - t + offset, is negative.
pub fn underflow(points: TwoPoints) -> Answer<()> {
    refuse(points.b < 0, 9)
}

/// 10: line record outside its ranges. Document 02, #106: so too with an attenuation above 3 or a source that there isn't; and by Vref
/// with another a or b than its vref, unit and attenuation give, which the crate itself says.
#[inline]
pub fn record(record: Record) -> Answer<()> {
    let Record { coeff_a, coeff_b, vref, unit, atten, source } = record;
    let vref_fits = (995..=1205).contains(&vref);
    refuse(coeff_a > 131071 || coeff_b > 4095 || !vref_fits || unit > 1 || atten > 3, 10)?;
    let sound = match source {
        TWO_POINT => true,
        VREF => line::by_vref(unit, atten, vref) == (coeff_a, coeff_b),
        _ => false,
    };
    refuse(!sound, 10)
}

/// 11: a stretch whose first count plus length is above 4096.
pub fn stretch(first: u16, n: usize) -> Answer<()> {
    refuse(usize::from(first) + n > 4096, 11)
}

/// 12: S2 version not 2.
pub fn s2_version(dump: &Dump, map: &[u8]) -> Answer<()> {
    refuse(read_u32(dump, field_of(map, 0)) != Ok(2), 12)
}

/// 5, document 02, #109: some field that an S2 reading reads lies outside block 2's own length. It is no map's, and tells no record.
pub fn s2_fields(lengths: &Lengths, version: u8, unit: u8, atten: u8, param: u8) -> Answer<()> {
    document::fields(document::tag(version, unit, atten, param)).try_for_each(|field| place(lengths, field))
}

/// 12: C6 version not 1 or 2; it is 1 for minor 1, 2 for 2 or more, else 0.
pub fn c6_version(minor: u8) -> Answer<()> {
    refuse(minor == 0, 12)
}

/// 13: line answer above 4095 given to the curve.
pub fn line_answer(line: u16) -> Answer<()> {
    refuse(line > 4095, 13)
}

/// 14: no curve for that chip and unit.
pub fn curve(chip: Chip, unit: u8) -> Answer<()> {
    let has_curve = match chip {
        Chip::Esp32 | Chip::S2 => false,
        Chip::C3 | Chip::P4 | Chip::S3 => true,
        Chip::C5 | Chip::C6(_) | Chip::C61 | Chip::H2 => unit == 0,
    };
    refuse(!has_curve, 14)
}

/// 15: board above 1.
pub fn board(board: u8) -> Answer<()> {
    refuse(board > 1, 15)
}

/// 15: board above 1, or a sample's last byte above 7.
pub fn sample(board: u8, last: u8) -> Answer<()> {
    self::board(board)?;
    refuse(last > 7, 15)
}

/// 16: log ends inside a record.
pub fn log(bytes: usize) -> Answer<()> {
    refuse((1..SAMPLE).contains(&bytes), 16)
}
