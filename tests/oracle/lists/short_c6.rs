//! The C6 with blocks of other lengths.
use oracle::fields::{Field, field_of};
use oracle::lengths;
use oracle::noise::Noise;
use oracle::plain::record;
use oracle::records::keys;
use oracle::rules::{BLOCKS, EIGHTS, MOST, RECORD};
use oracle::together::choices;

use crate::c6::{Asked, CAL_CODE, CASE, CASES, CHAN_COMPENS, Case, INIT_CODE, map, record_of};
use crate::list::{LENGTHS, List, groups};

const CALLS: [u8; 3] = [INIT_CODE, CAL_CODE, CHAN_COMPENS];

fn case(call: u8, minor: u8, (unit, atten): (u8, u8), channel: u8) -> Case {
    Case { call, minor, unit, atten, channel, code: 0, count: 1 }
}

/// A call under the map as it is, with a list of lengths.
fn under(map: &[u8], case: Case, lengths: &[u8]) -> Asked {
    Asked { lengths: lengths.to_vec(), ..Asked::of(case, case.reads(), record_of(map, case.reads())) }
}

/// Under the least lengths that the map fits, each call of every unit and attenuation, minor version and channel; with each record
/// outside its block's own length; and with each bad list.
fn by_lengths(map: &[u8]) -> Vec<Asked> {
    let mut all = Vec::new();
    for call in CALLS {
        for (k, key) in (0..).zip(keys()) {
            all.extend([0, 1, 2].map(|minor| under(map, case(call, minor, key, k), &lengths::least(map))));
        }
        let plain = case(call, 1, (0, 3), 6);
        all.extend((0..map.len() / RECORD).map(|k| under(map, plain, &lengths::outside(map, k))));
        all.extend(lengths::bad(EIGHTS).iter().map(|list| under(map, plain, list)));
    }
    all
}

/// Each record in a block of its own, where it ends with the block and a bit past it.
fn at_the_end(map: &[u8]) -> Vec<Asked> {
    let used = |block: &u8| (0..map.len() / RECORD).any(|k| field_of(map, k).block == *block);
    let block = (0..BLOCKS as u8).find(|block| !used(block)).expect("a block without a record");
    let mut all = Vec::new();
    for (call, place) in CALLS.into_iter().flat_map(|call| (0..15).map(move |place| (call, place))) {
        let (words, bit_count) = (1 + place % MOST, field_of(map, place.into()).bit_count);
        let last = 32 * u16::from(words) - bit_count;
        for bit_start in [last, last + 1] {
            let moved = record(9 + place, Field { block, bit_start, bit_count });
            let lengths = lengths::with(EIGHTS, block, words).to_vec();
            all.push(Asked { lengths, ..Asked::of(case(call, 2, (1, place % 4), place), place, moved) });
        }
    }
    all
}

/// Each choice of the faults 1, 20, 7, 2, 5 and, of the codes, 12, with one bad list after the other.
fn in_order(map: &[u8]) -> Vec<Asked> {
    let mut all = Vec::new();
    for call in CALLS {
        for (fault, which) in choices(if call == CHAN_COMPENS { 5 } else { 6 }).zip((0..lengths::bad(EIGHTS).len()).cycle()) {
            let good = if fault[4] { lengths::outside(map, which % 15) } else { lengths::least(map) };
            let list = if fault[1] { lengths::bad(good)[which].clone() } else { good.to_vec() };
            let minor = if fault.get(5) == Some(&true) { 0 } else { 2 };
            let mut asked = under(map, case(call, minor, (0, 1), 3), &list);
            if fault[0] {
                asked.words = 89;
            }
            if fault[2] {
                asked.case.atten = 4;
            }
            if fault[3] {
                asked.length = 119;
            }
            all.push(asked);
        }
    }
    all
}

/// A dump and 128 cases, each with its list of lengths.
pub fn calls() -> List {
    let mut list = List::new("esp32c6_cases", "short_calls", 352 + (LENGTHS + CASE) * CASES);
    let (map, noise) = (map(), &mut Noise::new(20));
    let cases = [by_lengths(&map), at_the_end(&map), in_order(&map)].into_iter().flatten().collect::<Vec<_>>();
    for group in groups(&cases, CASES) {
        let dump = noise.dump();
        list.words(&dump);
        group.iter().for_each(|asked| asked.put(list.lengths(&asked.lengths), &dump, &map));
    }
    list
}
