//! The S2: every tag on zeros, ones and noise; every version, unit, attenuation and parameter; the codes; the crypt count.
use oracle::dumps::{Builder, ONES, ZEROS, any_words, lent};
use oracle::maps::{Change, any_map, changed, map_faults, of_length, spoil};
use oracle::noise::Noise;
use oracle::plain::{dump_and_map, record};
use oracle::rules::{Answer, EIGHTS, MapChip, RECORD, refusal_bytes};
use oracle::{Dump, answers};

use crate::list::List;

pub const VERSION: u8 = 0;
pub const FLASH_ENCRYPTION: u8 = 1;
pub const READING: u8 = 2;
const SKIPPED: u8 = 3;
pub const INIT_CODE: u8 = 4;
pub const CAL_CODE: u8 = 5;
const CAL_MV: u8 = 6;

/// A call as it is asked for.
#[derive(Clone)]
pub struct Asked {
    pub lengths: Vec<u8>,
    pub map: Vec<u8>,
    pub length: u8,
    pub words: u8,
    pub call: u8,
    pub version: u8,
    pub unit: u8,
    pub atten: u8,
    pub param: u8,
}

impl Asked {
    fn answer(&self, words: &[u32], map: &[u8]) -> Answer<i32> {
        let Self { ref lengths, version, unit, atten, param, .. } = *self;
        match self.call {
            VERSION => answers::s2_version(words, lengths, map).map(i32::from),
            FLASH_ENCRYPTION => answers::s2_flash_encryption(words, lengths, map).map(i32::from),
            READING => answers::s2_reading(words, lengths, version, unit, atten, param),
            SKIPPED => answers::s2_skipped(version, unit, atten, param),
            INIT_CODE => answers::s2_init_code(words, lengths, map, unit, atten).map(i32::from),
            CAL_CODE => answers::s2_cal_code(words, lengths, map, unit, atten).map(i32::from),
            CAL_MV => answers::s2_cal_mv(unit, atten).map(i32::from),
            call => unreachable!("call {call}"),
        }
    }

    pub fn put(&self, list: &mut List, dump: &Builder) {
        let map = of_length(self.map.clone(), self.length.into());
        let answer = self.answer(&lent(&dump.dump, self.words), &map);
        list.put(&self.map).u8(self.length).u8(self.words).u8(self.call);
        let [number, record, place] = refusal_bytes(&answer);
        list.u8(self.version).u8(self.unit).u8(self.atten).u8(self.param).u8(number).i32(answer.unwrap_or(0));
        list.u8(record).u8(place).zeros(2);
    }
}

/// Every call with every version, unit, attenuation and parameter, those that are refused included.
fn whole(call: u8) -> Vec<(u8, u8, u8, u8, u8)> {
    let mut all = Vec::new();
    for version in [0, 1, 2, 3, 255] {
        for unit in [0, 1, 2, 255] {
            for atten in [0, 1, 2, 3, 4, 255] {
                all.extend([0, 1, 2].map(|param| (call, version, unit, atten, param)));
            }
        }
    }
    all
}

/// The 32 tags.
fn tags() -> Vec<(u8, u8, u8, u8, u8)> {
    let paired = |&(_, version, unit, atten, param): &(u8, u8, u8, u8, u8)| {
        [(1, 0), (1, 1), (2, 1), (2, 2)].contains(&(version, param)) && unit < 2 && atten < 4
    };
    whole(READING).into_iter().filter(paired).collect()
}

/// A map whose version field holds a version, mostly 2, and whose crypt count holds anything.
fn version_map(noise: &mut Noise, dump: &mut Builder) -> Vec<u8> {
    let version = noise.pick(&[2, 2, 2, 2, 0, 1, 3, 6, 255]);
    map_of(noise, dump, version)
}

/// A map whose version field holds that version, and whose crypt count holds anything.
pub fn map_of(noise: &mut Noise, dump: &mut Builder, version: u32) -> Vec<u8> {
    let count = if version == 255 { 8 } else { noise.within(3, 8) };
    let version = record(7, dump.holding(noise, version, count));
    let count = noise.within(1, 8);
    let bits = noise.below(1 << count);
    [version, record(8, dump.holding(noise, bits, count))].concat()
}

/// A call on a map, of any unit and attenuation.
fn on_map(noise: &mut Noise, map: Vec<u8>, call: u8) -> Asked {
    let (unit, atten) = (noise.below(2) as u8, noise.below(4) as u8);
    Asked { lengths: EIGHTS.to_vec(), map, length: 16, words: 88, call, version: 0, unit, atten, param: 0 }
}

/// Every call that takes a map, with each fault of its records.
fn bad_maps() -> Vec<(u8, Vec<Change>)> {
    let faults = map_faults(&dump_and_map(MapChip::S2, &[]).1);
    let calls = [VERSION, FLASH_ENCRYPTION, INIT_CODE, CAL_CODE];
    faults.iter().flat_map(|fault| calls.map(|call| (call, fault.clone()))).collect()
}

/// A call on codes and fields, sometimes with a fault.
fn any_call(noise: &mut Noise, dump: &mut Builder) -> Asked {
    let map = version_map(noise, dump);
    let call = noise.pick(&[VERSION, FLASH_ENCRYPTION, INIT_CODE, INIT_CODE, CAL_CODE, CAL_CODE]);
    let mut asked = on_map(noise, map, call);
    if noise.once_in(4) {
        for _ in 0..noise.within(1, 2) {
            match noise.below(5) {
                0 => asked.words = any_words(noise),
                1 => asked.unit = noise.pick(&[2, 255]),
                2 => asked.atten = noise.pick(&[4, 255]),
                3 => asked.length = noise.pick(&[0, 8, 15, 17, 24]),
                _ => {
                    let k = noise.below(2) as usize;
                    spoil(noise, &mut asked.map[RECORD * k..][..RECORD]);
                }
            }
        }
    }
    asked
}

/// Bytes of a case, and cases that share a dump.
pub const CASE: usize = 32;
pub const CASES: usize = 64;

/// A dump whose table's bits stay as they are.
pub fn with_table(dump: Dump) -> Builder {
    Builder::new(dump).keep(2)
}

/// A dump and its cases; any calls make up the number.
fn put_group(list: &mut List, noise: &mut Noise, mut dump: Builder, mut cases: Vec<Asked>) {
    cases.resize_with(CASES, || any_call(noise, &mut dump));
    list.words(&dump.dump);
    cases.iter().for_each(|case| case.put(list, &dump));
}

/// A dump and 64 cases; last those of bad maps.
pub fn calls() -> List {
    let mut list = List::new("esp32s2_cases", "calls", 352 + CASE * CASES);
    let noise = &mut Noise::new(8);
    let mut group = |noise: &mut Noise, dump, asked: &[(u8, u8, u8, u8, u8)]| {
        let mut cases = Vec::new();
        for &(call, version, unit, atten, param) in asked {
            let map = any_map(noise, MapChip::S2);
            let words = any_words(noise);
            cases.push(Asked { lengths: EIGHTS.to_vec(), map, length: 16, words, call, version, unit, atten, param });
        }
        put_group(&mut list, noise, with_table(dump), cases);
    };
    for dump in [ZEROS, ONES] {
        group(noise, dump, &tags());
    }
    for _ in 0..10 {
        let dump = noise.dump();
        group(noise, dump, &tags());
    }
    for cases in [whole(READING), whole(SKIPPED), whole(CAL_MV)].concat().chunks(CASES) {
        let dump = noise.dump();
        group(noise, dump, cases);
    }
    for faults in bad_maps().chunks(CASES) {
        let mut dump = with_table(noise.dump());
        let mut cases = Vec::new();
        for (call, fault) in faults {
            let map = changed(&version_map(noise, &mut dump), fault);
            cases.push(on_map(noise, map, *call));
        }
        put_group(&mut list, noise, dump, cases);
    }
    list
}
