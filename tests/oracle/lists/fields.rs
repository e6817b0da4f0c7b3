//! Field reading: every class of start and count on dumps of zeros, ones and noise; and blocks of every length.
use oracle::dumps::{ONES, ZEROS, any_words, lent};
use oracle::fields::{Field, MOST_BYTES};
use oracle::noise::Noise;
use oracle::rules::{BLOCKS, EIGHTS, MOST, number};
use oracle::together::choices;
use oracle::{Dump, answers, lengths};

use crate::list::{LENGTHS, List, groups};

/// Starts and counts at and beside the edges of bytes, words and the block, each start with each count.
fn classes() -> Vec<(u16, u16)> {
    let edges = [0, 1, 7, 8, 15, 16, 24, 25, 31];
    let inside = (0..256).filter(|start| edges.contains(&(start % 32)));
    let starts: Vec<u16> = inside.chain([256, 257, 511, 512, 32768, 65535]).collect();
    let counts = [0, 1, 2, 7, 8, 9, 15, 16, 17, 24, 31, 32, 33, 63, 64, 200, 255, 256, 257, 65535];
    let last = |start: u16| [256u16.saturating_sub(start), 257u16.saturating_sub(start)];
    let all = |start| counts.into_iter().chain(last(start)).map(move |count| (start, count));
    starts.into_iter().flat_map(all).collect()
}

fn any_block(noise: &mut Noise) -> u8 {
    if noise.once_in(24) { noise.pick(&[11, 12, 255]) } else { noise.below(11) as u8 }
}

/// A field inside its block, mostly.
fn any_class(noise: &mut Noise) -> (u16, u16) {
    let start = noise.below(260) as u16;
    let count = noise.below(u32::from(262u16.saturating_sub(start)) + 1) as u16;
    (start, count)
}

/// A field of that class, or of any, mostly of a good block; and a number of words, mostly good.
fn any_field(noise: &mut Noise, class: Option<(u16, u16)>) -> (Field, u8) {
    let (bit_start, bit_count) = class.unwrap_or_else(|| any_class(noise));
    (Field { block: any_block(noise), bit_start, bit_count }, any_words(noise))
}

/// Fields that end at a word's edge and a bit beside it, empty ones, and the S2's tag 24: of good blocks.
fn edges() -> Vec<Field> {
    let ends = (1..9).flat_map(|words| [32 * words - 1, 32 * words, 32 * words + 1]);
    let counts = [1, 7, 8, 9, 16, 31, 32, 33];
    let inside = |end: u16, count: u16| Some((end.checked_sub(count)?, count));
    let mut classes: Vec<_> = ends.flat_map(|end| counts.into_iter().filter_map(move |count| inside(end, count))).collect();
    classes.extend([(0, 0), (255, 0), (256, 0)]);
    let block = |(i, (bit_start, bit_count))| Field { block: (i % 11) as u8, bit_start, bit_count };
    let tag24 = Field { block: 2, bit_start: 249, bit_count: 7 };
    classes.into_iter().enumerate().map(block).chain([tag24]).collect()
}

/// Bytes of a case at 8, 16 and 32 bits.
const FIELD: usize = 16;

/// A field on so many words of a dump, at 8, 16 and 32 bits.
fn put_field(list: &mut List, dump: &Dump, lengths: &[u8], (field, n): (Field, u8)) {
    let words = lent(dump, n);
    let wide = answers::read_field_u32(&words, lengths, field);
    list.u8(n).u8(field.block).u16(field.bit_start).u16(field.bit_count).u8(number(&wide));
    list.u8(answers::read_field_u8(&words, lengths, field).unwrap_or(0));
    list.u16(answers::read_field_u16(&words, lengths, field).unwrap_or(0)).u16(0).u32(wide.unwrap_or(0));
}

/// Each class on noise, any on zeros, ones and noise, and last the edges: a dump and 256 cases at 8, 16 and 32 bits.
pub fn fields() -> List {
    const CASES: usize = 256;
    let mut list = List::new("efuse_cases", "fields", 352 + FIELD * CASES);
    let noise = &mut Noise::new(1);
    let mut classes = classes().into_iter();
    let mut edges = edges().into_iter();
    for group in 0..11 {
        let dump = match group {
            0 => ZEROS,
            1 => ONES,
            _ => noise.dump(),
        };
        list.words(&dump);
        for _ in 0..CASES {
            let next = if group < 2 { None } else { classes.next() };
            let edge = if group < 10 { None } else { edges.next() };
            let asked = edge.map(|field| (field, 88)).unwrap_or_else(|| any_field(noise, next));
            put_field(&mut list, &dump, &EIGHTS, asked);
        }
    }
    assert_eq!((classes.next(), edges.next()), (None, None), "every class and edge has its case");
    list
}

/// What the lent bytes hold before the call.
const BEFORE: u8 = 0xA5;

/// Bytes of a case into lent bytes, and cases that share a dump.
const BYTES: usize = 8 + MOST_BYTES;
const BYTES_CASES: usize = 64;

/// A field on so many words of a dump, into n lent bytes. The list has all 40 bytes as they are after the call.
fn put_bytes(list: &mut List, dump: &Dump, lengths: &[u8], (field, words): (Field, u8), n: usize) {
    let answer = answers::read_field_le(&lent(dump, words), lengths, field, n);
    let mut after = answer.clone().unwrap_or_default();
    after.resize(MOST_BYTES, BEFORE);
    list.u8(words).u8(field.block).u16(field.bit_start).u16(field.bit_count).u8(n as u8).u8(number(&answer)).put(&after);
}

/// Any class into 0 to 40 lent bytes: a dump and 64 cases.
pub fn bytes() -> List {
    let mut list = List::new("efuse_cases", "bytes", 352 + BYTES * BYTES_CASES);
    let noise = &mut Noise::new(2);
    let classes = classes();
    for group in 0..14 {
        let dump = if group == 0 { ONES } else { noise.dump() };
        list.words(&dump);
        for case in 0..BYTES_CASES {
            let (bit_start, bit_count) = if case % 2 == 0 { noise.pick(&classes) } else { any_class(noise) };
            let field = Field { block: any_block(noise), bit_start, bit_count };
            let n = noise.within(0, MOST_BYTES as u32) as usize;
            let words = any_words(noise);
            put_bytes(&mut list, &dump, &EIGHTS, (field, words), n);
        }
    }
    list
}

/// Fields at the end of a block of so many words: up to its last bit, past it, and empty ones at it and past it; at 255 and 256 too.
fn at_the_end(words: u8) -> Vec<(u16, u16)> {
    let end = 32 * u16::from(words);
    let before = |bits: u16, count: u16| end.checked_sub(bits).map(|start| (start, count));
    let inside = [before(1, 0), before(1, 1), before(1, 2), before(8, 9), before(9, 9), before(32, 32), before(32, 33)];
    let past = [(0, end), (0, end + 1), (end, 0), (end, 1), (end + 1, 0), (255, 0), (255, 1), (256, 0)];
    inside.into_iter().flatten().chain(past).collect()
}

/// A list of block lengths, and a field on so many words of a dump.
type Short = (Vec<u8>, (Field, u8));

/// The fields at the end of a block of each length, in the blocks that are asked for; the others have any length.
fn ends(noise: &mut Noise, blocks: impl Fn(u8) -> Vec<u8>) -> Vec<Short> {
    let mut cases = Vec::new();
    for words in 0..=MOST {
        for block in blocks(words) {
            let list = lengths::with(lengths::any(noise), block, words).to_vec();
            let field = |(bit_start, bit_count)| Field { block, bit_start, bit_count };
            cases.extend(at_the_end(words).into_iter().map(|place| (list.clone(), (field(place), 88))));
        }
    }
    cases
}

/// Bad lists with the first block, the last one and the one between them; and with each choice of the faults 1, 20, 4 and 5.
fn bad_lists() -> Vec<Short> {
    let mut cases = Vec::new();
    for list in lengths::bad(EIGHTS) {
        cases.extend([0, 5, 10].map(|block| (list.clone(), (Field { block, bit_start: 7, bit_count: 9 }, 88))));
    }
    for (list, words) in lengths::bad(EIGHTS).into_iter().zip([87, 89, 0, 96].into_iter().cycle()).step_by(3) {
        for fault in choices(4) {
            let (block, bit_start) = (if fault[2] { 11 } else { 3 }, if fault[3] { 256 } else { 31 });
            let field = Field { block, bit_start, bit_count: 2 };
            let list = if fault[1] { list.clone() } else { EIGHTS.to_vec() };
            cases.push((list, (field, if fault[0] { words } else { 88 })));
        }
    }
    cases
}

/// Any fields and any lists.
fn any_short(noise: &mut Noise) -> Short {
    (lengths::any(noise).to_vec(), any_field(noise, None))
}

/// Blocks of every length: a dump and 128 cases at 8, 16 and 32 bits, each with its list of lengths.
pub fn short_fields() -> List {
    const CASES: usize = 128;
    let mut list = List::new("efuse_cases", "short_fields", 352 + (LENGTHS + FIELD) * CASES);
    let noise = &mut Noise::new(14);
    let mut cases = ends(noise, |_| (0..BLOCKS as u8).collect());
    cases.extend(bad_lists());
    cases.extend((0..100).map(|_| any_short(noise)));
    for group in groups(&cases, CASES) {
        let dump = noise.dump();
        list.words(&dump);
        for (lengths, asked) in group {
            put_field(list.lengths(lengths), &dump, lengths, *asked);
        }
    }
    list
}

/// The same into lent bytes, of one block for each length: a dump and 64 cases.
pub fn short_bytes() -> List {
    let mut list = List::new("efuse_cases", "short_bytes", 352 + (LENGTHS + BYTES) * BYTES_CASES);
    let noise = &mut Noise::new(15);
    let mut cases = ends(noise, |words| vec![10 - words]);
    cases.extend(bad_lists());
    for group in groups(&cases, BYTES_CASES) {
        let dump = noise.dump();
        list.words(&dump);
        for (lengths, asked) in group {
            let n = noise.pick(&[0, 1, 3, 4, 31, 32, 33, MOST_BYTES]);
            put_bytes(list.lengths(lengths), &dump, lengths, *asked, n);
        }
    }
    list
}
