//! The lists of field maps, good ones and ones with a fault, which document 01's rules alone answer.
use oracle::fields::field_of;
use oracle::maps::{Change, changed, good_of, map_faults, of_length, spoil};
use oracle::noise::Noise;
use oracle::rules::{BLOCKS, EIGHTS, MOST, MapChip, RECORD, refusal_bytes};
use oracle::{answers, lengths};

use crate::list::{LENGTHS, List};

/// The chips in the order of their numbers in the lists.
const CHIPS: [MapChip; 3] = [MapChip::Esp32, MapChip::S2, MapChip::C6];

/// The good maps, each with its chip.
fn good() -> Vec<(MapChip, Vec<u8>)> {
    let noise = &mut Noise::new(11);
    CHIPS.into_iter().flat_map(|chip| good_of(noise, chip).map(|map| (chip, map))).collect()
}

pub fn good_maps() -> List {
    let mut list = List::new("efuse_cases", "good_maps", 128);
    for (chip, map) in good() {
        let number = CHIPS.iter().position(|other| *other == chip).expect("a chip");
        list.u8(number as u8).zeros(7).put(&of_length(map, 120));
    }
    list
}

/// The two changes of a case, of two at most; else none are given. A byte that stays, or the one change again, makes up the number.
fn two_of(good: &[u8], changes: &[Change]) -> Option<[Change; 2]> {
    match *changes {
        [] => Some([(0, good[0]); 2]),
        [one] => Some([one; 2]),
        [one, other] => Some([one, other]),
        _ => None,
    }
}

/// The bytes in which a map differs from the good one.
fn changes(good: &[u8], map: &[u8]) -> Option<[Change; 2]> {
    let changed: Vec<Change> = map.iter().copied().enumerate().filter(|(at, byte)| good[*at] != *byte).collect();
    two_of(good, &changed)
}

/// Two spoiled records, or one that is spoiled twice.
fn two_faults(noise: &mut Noise, good: &[u8]) -> [Change; 2] {
    loop {
        let mut map = good.to_vec();
        let records = (map.len() / RECORD) as u32;
        let one = noise.below(records) as usize;
        let other = noise.below(records) as usize;
        for k in [one, noise.pick(&[one, other])] {
            spoil(noise, &mut map[RECORD * k..][..RECORD]);
        }
        if let Some(changes) = changes(good, &map) {
            return changes;
        }
    }
}

/// A good map with its number and its chip.
struct Good {
    which: u8,
    chip: MapChip,
    map: Vec<u8>,
}

/// Bytes of a case.
const CASE: usize = 9;

impl Good {
    /// A case: the map at a length, with two bytes changed.
    fn put(&self, list: &mut List, lengths: &[u8], length: usize, changes: [Change; 2]) {
        let answer = answers::check_map(Some(self.chip), lengths, &of_length(changed(&self.map, &changes), length));
        list.u8(self.which).u8(length as u8);
        changes.into_iter().for_each(|(at, byte)| _ = list.u8(at as u8).u8(byte));
        list.put(&refusal_bytes(&answer));
    }

    /// The change that changes nothing, twice.
    fn same(&self) -> [Change; 2] {
        [(0, self.map[0]); 2]
    }
}

fn all_good() -> impl Iterator<Item = Good> {
    good().into_iter().zip(0..).map(|((chip, map), which)| Good { which, chip, map })
}

/// Each good map as it is, at every length, with every byte changed, with two faults at a time, and with each fault of its records.
pub fn maps() -> List {
    let mut list = List::new("efuse_cases", "maps", CASE);
    let noise = &mut Noise::new(3);
    for good in all_good() {
        let map = &good.map;
        let mut one = |length: usize, changes| good.put(&mut list, &EIGHTS, length, changes);
        (0..map.len() + 9).for_each(|length| one(length, good.same()));
        for (at, byte) in map.iter().copied().enumerate() {
            let others = [0, 255, byte.wrapping_add(1), byte.wrapping_sub(1)];
            others.into_iter().filter(|other| *other != byte).for_each(|other| one(map.len(), [(at, other); 2]));
        }
        for _ in 0..75 {
            one(map.len(), two_faults(noise, map));
        }
        for fault in map_faults(map) {
            one(map.len(), two_of(map, &fault).expect("two bytes at most"));
        }
    }
    list
}

/// A list of block lengths, the map's length, and two bytes that are changed.
type Short = (Vec<u8>, usize, [Change; 2]);

/// The map under the least lengths that it fits, under a word less for each record's block, and under none at all for it; with a block
/// of no words for each that has no record; and with each bad list.
fn by_lengths(good: &Good) -> Vec<Short> {
    let map = &good.map;
    let blocks: Vec<u8> = (0..map.len() / RECORD).map(|k| field_of(map, k).block).collect();
    let mut lists = vec![lengths::least(map).to_vec()];
    for (k, block) in blocks.iter().copied().enumerate() {
        lists.extend([lengths::outside(map, k), lengths::with(EIGHTS, block, 0)].map(Vec::from));
    }
    let unused = (0..BLOCKS as u8).filter(|block| !blocks.contains(block));
    lists.extend(unused.map(|block| lengths::with(EIGHTS, block, 0).to_vec()));
    lists.extend(lengths::bad(EIGHTS));
    lists.into_iter().map(|list| (list, map.len(), good.same())).collect()
}

/// Each record in a block of its own of 1 to 7 words, where it ends with the block and a bit past it.
fn at_the_end(good: &Good) -> Vec<Short> {
    let map = &good.map;
    let used = |block: &u8| (0..map.len() / RECORD).any(|k| field_of(map, k).block == *block);
    let block = (0..BLOCKS as u8).find(|block| !used(block)).expect("a block without a record");
    let mut cases = Vec::new();
    for (k, words) in (0..map.len() / RECORD).flat_map(|k| (1..MOST).map(move |words| (k, words))) {
        let last = (32 * u16::from(words) - field_of(map, k).bit_count) as u8;
        let list = lengths::with(EIGHTS, block, words).to_vec();
        let starts = [last, last + 1].map(|start| [(RECORD * k + 1, block), (RECORD * k + 2, start)]);
        cases.extend(starts.map(|changes| (list.clone(), map.len(), changes)));
    }
    cases
}

/// A record that lies outside its block's own length or isn't there for a bad list, with up to two of its bytes wrong, which 3, 18, 4
/// and 6 are given for, in a map of its own length and of another.
fn in_order(good: &Good, k: usize) -> Vec<Short> {
    let map = &good.map;
    let at = |place: usize| RECORD * k + place;
    let wrong = [(at(0), map[at(0)] + 1), (at(6), 1), (at(1), 11), (at(4), 0)];
    let one = wrong.iter().map(|byte| [*byte; 2]);
    let two = (0..4).flat_map(|first| (first + 1..4).map(move |second| [wrong[first], wrong[second]]));
    let outside = lengths::with(EIGHTS, field_of(map, k).block, 0);
    let lists = [EIGHTS.to_vec(), outside.to_vec(), lengths::with(outside, (k % BLOCKS) as u8, 9).to_vec()];
    let mut cases = Vec::new();
    for changes in [good.same()].into_iter().chain(one).chain(two) {
        for list in &lists {
            cases.extend([map.len(), map.len() - 1].map(|length| (list.clone(), length, changes)));
        }
    }
    cases
}

/// Maps whose blocks have lengths of their own.
pub fn short_maps() -> List {
    let mut list = List::new("efuse_cases", "short_maps", LENGTHS + CASE);
    for good in all_good() {
        let mut cases = by_lengths(&good);
        // One map of each chip has its fields anywhere, and is the first.
        if good.which % 4 == 0 {
            cases.extend(at_the_end(&good));
            cases.extend([0, good.map.len() / RECORD - 1].into_iter().flat_map(|k| in_order(&good, k)));
        }
        for (lengths, length, changes) in cases {
            good.put(list.lengths(&lengths), &lengths, length, changes);
        }
    }
    list
}
