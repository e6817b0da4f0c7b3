//! The S2 with blocks of other lengths: block 2 has its table, and the map's fields lie in others.
use oracle::dumps::Builder;
use oracle::fields::{Field, field_of};
use oracle::lengths;
use oracle::noise::Noise;
use oracle::plain::record;
use oracle::records::keys;
use oracle::rules::{EIGHTS, MOST, RECORD};
use oracle::together::choices;

use crate::list::{LENGTHS, List, groups};
use crate::s2::{Asked, CAL_CODE, CASE, CASES, FLASH_ENCRYPTION, INIT_CODE, READING, VERSION, map_of, with_table};

/// The block of the table.
const TABLE: u8 = 2;

/// A call of a version, unit, attenuation and parameter, the version that the map's field holds, and what is changed once there is a map.
struct Short {
    asked: (u8, u8, u8, u8, u8),
    held: u32,
    change: Box<dyn Fn(&mut Asked)>,
}

impl Short {
    /// On a map that holds version 2.
    fn new(asked: (u8, u8, u8, u8, u8), change: impl Fn(&mut Asked) + 'static) -> Self {
        Self { asked, held: 2, change: Box::new(change) }
    }

    /// A call that reads no version from its map, or no parameter.
    fn on_map(call: u8, (unit, atten): (u8, u8), change: impl Fn(&mut Asked) + 'static) -> Self {
        Self::new((call, 0, unit, atten, 0), change)
    }

    fn asked(&self, map: Vec<u8>) -> Asked {
        let (call, version, unit, atten, param) = self.asked;
        let mut asked = Asked { lengths: EIGHTS.to_vec(), map, length: 16, words: 88, call, version, unit, atten, param };
        (self.change)(&mut asked);
        asked
    }
}

/// The least lengths of a map, and a length of the table's block.
fn table_of(map: &[u8], words: u8) -> Vec<u8> {
    lengths::with(lengths::least(map), TABLE, words).into()
}

/// Every version, unit, attenuation and parameter with a table's block of every length; the other blocks have any.
fn readings(noise: &mut Noise) -> Vec<Short> {
    let mut cases = Vec::new();
    for (words, version) in (0..=MOST).flat_map(|words| [0, 1, 2, 3, 255].map(|version| (words, version))) {
        for (unit, atten) in keys() {
            for param in 0..3 {
                let list = lengths::with(lengths::any(noise), TABLE, words);
                cases.push(Short::new((READING, version, unit, atten, param), move |asked| asked.lengths = list.into()));
            }
        }
    }
    cases
}

/// Both codes of every unit and attenuation with a table's block of every length; at one key with a version that has none, and with a
/// map whose crypt count lies in the table's block.
fn codes() -> Vec<Short> {
    let mut cases = Vec::new();
    for (call, words) in [INIT_CODE, CAL_CODE].into_iter().flat_map(|call| (0..=MOST).map(move |words| (call, words))) {
        let short = move |asked: &mut Asked| asked.lengths = table_of(&asked.map, words);
        cases.extend(keys().map(|key| Short::on_map(call, key, short)));
        cases.push(Short { held: 3, ..Short::on_map(call, (0, 1), short) });
        let in_table = move |asked: &mut Asked| {
            asked.map[RECORD..].copy_from_slice(&record(8, Field { block: TABLE, bit_start: 180, bit_count: 3 }));
            asked.lengths = table_of(&asked.map, words);
        };
        cases.extend([(0, 0), (1, 3)].map(|key| Short::on_map(call, key, in_table)));
    }
    cases
}

/// Every call that takes a map under the least lengths that it fits, and with each record outside its block's own.
fn maps() -> Vec<Short> {
    let mut cases = Vec::new();
    for call in [VERSION, FLASH_ENCRYPTION, INIT_CODE, CAL_CODE] {
        cases.push(Short::on_map(call, (1, 2), |asked| asked.lengths = table_of(&asked.map, MOST)));
        cases.extend([0, 1].map(|k| {
            let outside = move |map: &[u8]| lengths::with(lengths::outside(map, k), TABLE, MOST);
            Short::on_map(call, (0, 3), move |asked| asked.lengths = outside(&asked.map).into())
        }));
    }
    cases
}

/// Every call that takes a list, with each bad one.
fn bad_lists() -> Vec<Short> {
    let mut cases = Vec::new();
    for list in lengths::bad(EIGHTS) {
        for call in [VERSION, FLASH_ENCRYPTION, READING, INIT_CODE, CAL_CODE] {
            let list = list.clone();
            cases.push(Short::new((call, 1, 0, 1, 1), move |asked| asked.lengths = list.clone()));
        }
    }
    cases
}

/// The faults that a call may have.
#[derive(Default)]
struct Faults {
    dump: bool,
    list: bool,
    unit: bool,
    map: bool,
    record: bool,
    table: bool,
}

impl Faults {
    /// What they make of a call, with the bad list of that number.
    fn change(self, which: usize) -> impl Fn(&mut Asked) {
        move |asked| {
            let map = if self.record { lengths::outside(&asked.map, which % 2) } else { lengths::least(&asked.map) };
            let good = lengths::with(map, TABLE, if self.table { 3 } else { MOST });
            asked.lengths = if self.list { lengths::bad(good)[which].clone() } else { good.into() };
            if self.dump {
                asked.words = 87;
            }
            if self.unit {
                asked.unit = 2;
            }
            if self.map {
                asked.length = 15;
            }
        }
    }
}

/// Each choice of a call's faults, with one bad list after the other: of the codes 1, 20, 7, 2, 5 by the map, 12, 5 by the table; of a
/// reading 1, 20, 7, 5; of the version and flash encryption 1, 20, 2, 5.
fn in_order() -> Vec<Short> {
    let mut cases = Vec::new();
    let bad = || (0..lengths::bad(EIGHTS).len()).cycle();
    for call in [INIT_CODE, CAL_CODE] {
        for (fault, which) in choices(7).zip(bad()) {
            let [dump, list, unit, map, record, version, table] = fault[..] else { unreachable!("seven faults") };
            let change = Faults { dump, list, unit, map, record, table }.change(which);
            cases.push(Short { held: if version { 3 } else { 2 }, ..Short::on_map(call, (0, 1), change) });
        }
    }
    for (version, param) in [(1, 0), (1, 1), (2, 1), (2, 2)] {
        for (fault, which) in choices(4).zip(bad()) {
            let faults = Faults { dump: fault[0], list: fault[1], unit: fault[2], table: fault[3], ..Faults::default() };
            cases.push(Short::new((READING, version, 0, 0, param), faults.change(which)));
        }
    }
    for call in [VERSION, FLASH_ENCRYPTION] {
        for (fault, which) in choices(4).zip(bad()) {
            let faults = Faults { dump: fault[0], list: fault[1], map: fault[2], record: fault[3], ..Faults::default() };
            cases.push(Short::on_map(call, (0, 0), faults.change(which)));
        }
    }
    cases
}

/// A map whose version field holds that version, with no field in the table's block.
fn map_beside_table(noise: &mut Noise, dump: &mut Builder, version: u32) -> Vec<u8> {
    loop {
        let map = map_of(noise, dump, version);
        if (0..2).all(|k| field_of(&map, k).block != TABLE) {
            return map;
        }
    }
}

/// A dump and 64 cases, each with its list of lengths.
pub fn calls() -> List {
    let mut list = List::new("esp32s2_cases", "short_calls", 352 + (LENGTHS + CASE) * CASES);
    let noise = &mut Noise::new(19);
    let cases = [readings(noise), codes(), maps(), bad_lists(), in_order()];
    let cases: Vec<Short> = cases.into_iter().flatten().collect();
    for group in groups(&cases, CASES) {
        let mut dump = with_table(noise.dump());
        let maps: Vec<Vec<u8>> = group.iter().map(|case| map_beside_table(noise, &mut dump, case.held)).collect();
        list.words(&dump.dump);
        for (map, case) in maps.into_iter().zip(group) {
            let asked = case.asked(map);
            asked.put(list.lengths(&asked.lengths), &dump);
        }
    }
    list
}
