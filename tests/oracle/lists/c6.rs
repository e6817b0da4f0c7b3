//! The C6: every 10-bit calibration code, init codes of every width, channel codes, every channel and every minor version.
use oracle::dumps::{Builder, any_words, lent};
use oracle::maps::{any_map, changed, of_length, record_faults, spoil};
use oracle::noise::Noise;
use oracle::plain::record;
use oracle::rules::{Answer, EIGHTS, MapChip, RECORD, refusal_bytes};
use oracle::{Dump, answers};

use crate::list::{List, groups};

const VERSION: u8 = 0;
pub const INIT_CODE: u8 = 1;
pub const CAL_CODE: u8 = 2;
pub const CHAN_COMPENS: u8 = 3;
const CAL_MV: u8 = 4;

/// Bytes of a case, and cases that share a dump.
pub const CASE: usize = 24;
pub const CASES: usize = 128;

/// The map's record that a call reads.
const FIRST_CAL_RECORD: u8 = 4;
const FIRST_CHANNEL_RECORD: u8 = 8;

/// A call, the code that its field holds and the bits of that field.
#[derive(Clone, Copy)]
pub struct Case {
    pub call: u8,
    pub minor: u8,
    pub unit: u8,
    pub atten: u8,
    pub channel: u8,
    pub code: u32,
    pub count: u32,
}

impl Case {
    /// The number of the map's record that the call reads.
    pub fn reads(self) -> u8 {
        match self.call {
            CAL_CODE => FIRST_CAL_RECORD + self.atten % 4,
            CHAN_COMPENS => FIRST_CHANNEL_RECORD + self.channel.min(6),
            _ => self.atten % 4,
        }
    }

    fn answer(self, words: &[u32], lengths: &[u8], map: &[u8]) -> Answer<i32> {
        let Self { minor, unit, atten, channel, .. } = self;
        match self.call {
            VERSION => Ok(answers::c6_version(minor).into()),
            INIT_CODE => answers::c6_init_code(words, lengths, map, minor, unit, atten).map(i32::from),
            CAL_CODE => answers::c6_cal_code(words, lengths, map, minor, unit, atten).map(i32::from),
            CHAN_COMPENS => answers::c6_chan_compens(words, lengths, map, unit, channel, atten),
            CAL_MV => answers::c6_cal_mv(minor, unit, atten).map(i32::from),
            call => unreachable!("call {call}"),
        }
    }
}

/// Every code at version 1 and at version 2, and the 6 dB codes of version 2 in steps and at the ends.
fn cal_cases(noise: &mut Noise) -> Vec<Case> {
    let mut cases = Vec::new();
    let mut one = |minor, atten, code| {
        cases.push(Case { call: CAL_CODE, minor, unit: noise.below(2) as u8, atten, channel: 0, code, count: 10 });
    };
    for code in 0..1024u32 {
        one(1, (code % 4) as u8, code);
        one([2, 3, 255][code as usize % 3], [0, 1, 3][code as usize / 3 % 3], code);
        if code % 8 == 5 || code % 512 < 3 || code % 512 > 509 {
            one(2, 2, code);
        }
    }
    cases
}

/// Init codes of every width, at the ends and in between.
fn init_cases(noise: &mut Noise) -> Vec<Case> {
    let mut cases = Vec::new();
    for count in 1..16 {
        let top = 1 << (count - 1);
        for code in [0, 1, top - 1, top, 2 * top - 1, noise.below(2 * top), noise.below(2 * top), noise.below(2 * top)] {
            for minor in [noise.pick(&[1, 2]), noise.pick(&[0, 3, 255])] {
                let (unit, atten) = (noise.below(2) as u8, noise.below(4) as u8);
                cases.push(Case { call: INIT_CODE, minor, unit, atten, channel: 0, code, count });
            }
        }
    }
    cases
}

/// Every channel code on the channels that have fields and two more, and every channel.
fn channel_cases(noise: &mut Noise) -> Vec<Case> {
    let mut cases = Vec::new();
    let mut one = |atten, channel, code| {
        let unit = noise.below(2) as u8;
        cases.push(Case { call: CHAN_COMPENS, minor: noise.byte(), unit, atten, channel, code, count: 4 });
    };
    for code in 0..16 {
        for channel in [0, 1, 2, 3, 4, 5, 6, 7, 255] {
            (0..4).for_each(|atten| one(atten, channel, code));
        }
    }
    for channel in 0..=255 {
        one(channel % 4, channel, (u32::from(channel) * 7 + 9) % 16);
    }
    cases
}

/// The calls that read no field: every minor version; millivolts by version, unit and attenuation.
fn version_cases() -> Vec<Case> {
    let plain = Case { call: VERSION, minor: 0, unit: 0, atten: 0, channel: 0, code: 0, count: 1 };
    let mut cases: Vec<Case> = (0..=255).map(|minor| Case { minor, ..plain }).collect();
    for minor in [0, 1, 2, 3, 255] {
        for unit in [0, 1, 2, 255] {
            cases.extend([0, 1, 2, 3, 4, 255].map(|atten| Case { call: CAL_MV, minor, unit, atten, ..plain }));
        }
    }
    cases
}

/// What a call is asked with beside the case: the block lengths, the record put into the map, the map's length, the dump's.
pub struct Asked {
    pub lengths: Vec<u8>,
    pub case: Case,
    pub place: u8,
    pub record: [u8; RECORD],
    pub length: u8,
    pub words: u8,
}

impl Asked {
    pub fn of(case: Case, place: u8, record: [u8; RECORD]) -> Self {
        Self { lengths: EIGHTS.to_vec(), case, place, record, length: 120, words: 88 }
    }

    /// The map with the record in it.
    pub fn map(&self, map: &[u8]) -> Vec<u8> {
        let mut map = map.to_vec();
        map[RECORD * usize::from(self.place)..][..RECORD].copy_from_slice(&self.record);
        map
    }

    fn strew(&mut self, noise: &mut Noise) {
        for _ in 0..noise.within(1, 2) {
            match noise.below(6) {
                0 => self.words = any_words(noise),
                1 => self.case.unit = noise.pick(&[2, 255]),
                2 => self.case.atten = noise.pick(&[4, 255]),
                3 => self.length = noise.pick(&[0, 8, 112, 119, 121, 128]),
                _ => spoil(noise, &mut self.record),
            }
        }
    }

    pub fn put(&self, list: &mut List, dump: &Dump, map: &[u8]) {
        let map = of_length(self.map(map), self.length.into());
        let answer = self.case.answer(&lent(dump, self.words), &self.lengths, &map);
        let Case { call, minor, unit, atten, channel, .. } = self.case;
        list.put(&self.record).u8(self.place).u8(self.length).u8(self.words).u8(call);
        list.u8(minor).u8(unit).u8(atten).u8(channel).put(&refusal_bytes(&answer)).u8(0).i32(answer.unwrap_or(0));
    }
}

/// Every call that takes a map, with each fault of each of its records, whichever of them is read.
fn bad_records(map: &[u8]) -> Vec<Asked> {
    let mut all = Vec::new();
    for (good, place) in map.chunks(RECORD).zip(0..) {
        for fault in record_faults(good) {
            for call in [INIT_CODE, CAL_CODE, CHAN_COMPENS] {
                let case = Case { call, minor: 1, unit: place % 2, atten: place % 4, channel: place, code: 0, count: 1 };
                let record = changed(good, &fault).try_into().expect("a record");
                all.push(Asked::of(case, place, record));
            }
        }
    }
    all
}

/// The map that every case starts from: a good one.
pub fn map() -> Vec<u8> {
    any_map(&mut Noise::new(10), MapChip::C6)
}

/// A record of a map, by its number.
pub fn record_of(map: &[u8], place: u8) -> [u8; RECORD] {
    map[RECORD * usize::from(place)..][..RECORD].try_into().expect("a record")
}

pub fn map_list() -> List {
    let mut list = List::new("esp32c6_cases", "map", 120);
    list.put(&map());
    list
}

/// A dump and 128 cases, each with a record of the map replaced; last those of bad records, begun again until no case of a dump is left
/// over.
pub fn calls() -> List {
    let mut list = List::new("esp32c6_cases", "calls", 352 + CASE * CASES);
    let map = map();
    let noise = &mut Noise::new(9);
    let mut cases = cal_cases(noise);
    cases.extend(init_cases(noise));
    cases.extend(channel_cases(noise));
    cases.extend(version_cases());
    let faultless = cases.len();
    while cases.len() < faultless + 200 || !cases.len().is_multiple_of(CASES) {
        cases.push(noise.pick(&cases[..faultless]));
    }
    for (g, group) in cases.chunks(CASES).enumerate() {
        let mut dump = Builder::new(noise.dump());
        let places: Vec<_> = group.iter().map(|case| dump.holding(noise, case.code, case.count)).collect();
        list.words(&dump.dump);
        for (i, (case, field)) in group.iter().zip(places).enumerate() {
            let place = case.reads();
            let id = 9 + place;
            // A call that reads no field gets its record as the map had it, so that the map stays good.
            let own = [record_of(&map, place), record(id, field)];
            let record = own[usize::from([INIT_CODE, CAL_CODE, CHAN_COMPENS].contains(&case.call))];
            let mut asked = Asked::of(*case, place, record);
            if CASES * g + i >= faultless {
                asked.strew(noise);
            }
            asked.put(&mut list, &dump.dump, &map);
        }
    }
    for group in groups(&bad_records(&map), CASES) {
        let dump = noise.dump();
        list.words(&dump);
        group.iter().for_each(|asked| asked.put(&mut list, &dump, &map));
    }
    list
}
