//! ESP32 line calibration: decoding.
use std::collections::BTreeSet;

use oracle::codes::{ATTENS, Codes, UNITS};
use oracle::dumps::{Builder, any_words, lent};
use oracle::maps::{changed, map_faults, of_length, spoil};
use oracle::noise::Noise;
use oracle::plain::dump_and_map;
use oracle::records::keys;
use oracle::rules::{EIGHTS, MapChip, RECORD, refusal_bytes};
use oracle::together::choices;
use oracle::{answers, document, lengths};

use crate::list::{LENGTHS, List, groups};

/// Codes, unit and attenuation of a decoding.
type Case = (Codes, u8, u8);

/// Every Vref code with every unit and attenuation.
fn vref_cases(noise: &mut Noise) -> Vec<Case> {
    let mut cases = Vec::new();
    for vref in 0..32 {
        for unit in UNITS {
            for atten in ATTENS {
                cases.push((Codes::any(noise, 0).with_vref(vref), unit, atten));
            }
        }
    }
    cases
}

/// The reserve bit set and one code zero: Vref.
fn one_zero_cases(noise: &mut Noise) -> Vec<Case> {
    let mut cases = Vec::new();
    for unit in UNITS {
        for atten in ATTENS {
            for zero in 0..4 {
                let mut codes = Codes::any(noise, 1);
                if zero < 2 {
                    codes.low[zero] = 0
                } else {
                    codes.high[zero - 2] = 0
                };
                cases.push((codes, unit, atten));
            }
        }
    }
    cases
}

/// For each unit, attenuation and low code the high codes on both sides of two limits: where t gets above 850, which esp-hal's checked
/// build panics at, and where b gets negative, which is refused with 9.
fn limit_cases(noise: &mut Noise) -> Vec<Case> {
    // Falling codes: 0x0FF down to 1, then 0x1FF (-1) down to 0x101 (-255).
    let falling: Vec<u32> = (1..0x100).rev().chain((0x101..0x200).rev()).collect();
    let mut cases = Vec::new();
    for (unit, atten) in UNITS.into_iter().flat_map(|unit| ATTENS.map(|atten| (unit, atten))) {
        for low in 1..0x80 {
            let codes = Codes::any(noise, 1);
            let points = |high: &u32| document::two_points(unit.into(), atten.into(), low, *high);
            let above = falling.partition_point(|high| points(high).t <= 850);
            let negative = falling.partition_point(|high| points(high).b >= 0);
            let beside =
                [above, negative].into_iter().filter(|first| *first < falling.len()).flat_map(|first| [first - 1, first]);
            let places: BTreeSet<usize> = beside.collect();
            cases.extend(places.into_iter().map(|place| (codes.with(unit, low, falling[place]), unit, atten)));
        }
    }
    cases
}

/// The codes at the ends of both widths, with one another.
fn end_cases(noise: &mut Noise) -> Vec<Case> {
    let mut cases = Vec::new();
    for low in [0x01, 0x3F, 0x40, 0x41, 0x7F] {
        for high in [0x001, 0x0FF, 0x100, 0x101, 0x1BC, 0x1BD, 0x1FF] {
            for unit in UNITS {
                for atten in ATTENS {
                    cases.push((Codes::any(noise, 1).with(unit, low, high), unit, atten));
                }
            }
        }
    }
    cases
}

fn any_case(noise: &mut Noise) -> Case {
    let reserve = noise.below(2);
    (Codes::any(noise, reserve), noise.pick(&UNITS), noise.pick(&ATTENS))
}

/// Bytes of a case, and cases that share a dump.
const CASE: usize = 68;
const CASES: usize = 32;

/// Maps with each fault of their records, at each unit and attenuation in turn; begun again until no case of a dump is left over.
fn put_bad_maps(list: &mut List, noise: &mut Noise) {
    let faults = map_faults(&dump_and_map(MapChip::Esp32, &[]).1);
    let keys: Vec<_> = keys().collect();
    let cases: Vec<_> = faults.iter().cycle().zip(keys.iter().cycle()).take(faults.len().next_multiple_of(CASES)).collect();
    for group in cases.chunks(CASES) {
        let mut dump = Builder::new(noise.dump());
        let good: Vec<Vec<u8>> = group.iter().map(|_| Codes::any(noise, 1).place(noise, &mut dump)).collect();
        list.words(&dump.dump);
        for (good, (fault, key)) in good.iter().zip(group) {
            Asked::of(changed(good, fault), **key).put(list, &dump);
        }
    }
}

/// A dump and 32 cases: what is decoded, with refusals strewn in by `strew`, and last those of bad maps.
pub fn decode() -> List {
    let mut list = List::new("line_cases", "decode", 352 + CASE * CASES);
    let noise = &mut Noise::new(4);
    let mut cases = vref_cases(noise);
    cases.extend(one_zero_cases(noise));
    cases.extend(limit_cases(noise));
    cases.extend(end_cases(noise));
    let faultless = cases.len();
    cases.extend((0..500).map(|_| any_case(noise)));
    cases.truncate(cases.len() / CASES * CASES);
    for (g, group) in cases.chunks(CASES).enumerate() {
        let mut dump = Builder::new(noise.dump());
        let maps: Vec<Vec<u8>> = group.iter().map(|(codes, ..)| codes.place(noise, &mut dump)).collect();
        list.words(&dump.dump);
        for (i, (map, (_, unit, atten))) in maps.into_iter().zip(group).enumerate() {
            let mut asked = Asked::of(map, (*unit, *atten));
            if CASES * g + i >= faultless {
                asked.strew(noise);
            }
            asked.put(&mut list, &dump);
        }
    }
    put_bad_maps(&mut list, noise);
    list
}

/// A decoding as it is asked for.
struct Asked {
    lengths: Vec<u8>,
    map: Vec<u8>,
    length: usize,
    words: u8,
    unit: u8,
    atten: u8,
}

impl Asked {
    /// On a whole dump under that map.
    fn of(map: Vec<u8>, (unit, atten): (u8, u8)) -> Self {
        Self { lengths: EIGHTS.to_vec(), map, length: 48, words: 88, unit, atten }
    }

    /// Makes some of it wrong, often in more than one way, so that the order of refusals shows.
    fn strew(&mut self, noise: &mut Noise) {
        for _ in 0..noise.below(3) {
            match noise.below(6) {
                0 => self.words = any_words(noise),
                1 => self.unit = noise.pick(&[0, 1, 2, 255]),
                2 => self.atten = noise.pick(&[3, 4, 255]),
                3 => self.length = noise.pick(&[0, 1, 8, 40, 47, 49, 56]),
                _ => {
                    let k = noise.below(6) as usize;
                    spoil(noise, &mut self.map[RECORD * k..][..RECORD]);
                }
            }
        }
    }

    fn put(self, list: &mut List, dump: &Builder) {
        let Self { lengths, map, length, words, unit, atten } = self;
        list.put(&map).u8(length as u8).u8(words).u8(unit).u8(atten);
        let answer = answers::decode(&lent(&dump.dump, words), &lengths, &of_length(map, length), unit, atten);
        let [number, record, place] = refusal_bytes(&answer);
        let got = answer.unwrap_or_default();
        list.u8(number).u8(got.source).u16(got.vref as u16).u32(got.coeff_a).u32(got.coeff_b);
        list.u8(record).u8(place).zeros(2);
    }
}

/// Codes, a unit and an attenuation, and what is changed once the codes have a map: its block lengths, for one.
type Short = (Case, Box<dyn Fn(&mut Asked)>);

/// Under the least lengths that the map fits: by Vref and by two points. Then with a record outside its block's own length.
fn least_cases(noise: &mut Noise) -> Vec<Short> {
    let mut cases: Vec<Short> = Vec::new();
    let least = |asked: &mut Asked| asked.lengths = lengths::least(&asked.map).into();
    for (unit, atten) in keys() {
        cases.extend([0, 1, 1].map(|reserve| ((Codes::any(noise, reserve), unit, atten), Box::new(least) as _)));
        for k in 0..6 {
            let outside = move |asked: &mut Asked| asked.lengths = lengths::outside(&asked.map, k).into();
            cases.push(((Codes::any(noise, 1), unit, atten), Box::new(outside)));
        }
    }
    cases
}

/// Each bad list; and each choice of the faults 1, 20, 7, 2, 5 and 9, with one bad list after the other.
fn bad_lists(noise: &mut Noise) -> Vec<Short> {
    let mut cases: Vec<Short> = Vec::new();
    for (list, (unit, atten)) in lengths::bad(EIGHTS).into_iter().zip(keys().collect::<Vec<_>>().into_iter().cycle()) {
        cases.push(((Codes::any(noise, 1), unit, atten), Box::new(move |asked| asked.lengths = list.clone())));
    }
    for (fault, which) in choices(6).zip((0..lengths::bad(EIGHTS).len()).cycle()) {
        let codes = Codes::any(noise, 1);
        let codes = if fault[5] { codes.with(0, 0x3F, 0x101) } else { codes.with(0, 0x05, 0x1F0) };
        let together = move |asked: &mut Asked| {
            let good = if fault[4] { lengths::outside(&asked.map, 5) } else { lengths::least(&asked.map) };
            asked.lengths = if fault[1] { lengths::bad(good)[which].clone() } else { good.into() };
            if fault[0] {
                asked.words = 87;
            }
            if fault[2] {
                asked.atten = 4;
            }
            if fault[3] {
                asked.length = 47;
            }
        };
        cases.push(((codes, 0, 3), Box::new(together)));
    }
    cases
}

/// Blocks with lengths of their own: a dump and 32 cases.
pub fn short_decode() -> List {
    let mut list = List::new("line_cases", "short_decode", 352 + (LENGTHS + CASE) * CASES);
    let noise = &mut Noise::new(16);
    let mut cases = least_cases(noise);
    cases.extend(bad_lists(noise));
    for group in groups(&cases, CASES) {
        let mut dump = Builder::new(noise.dump());
        let maps: Vec<Vec<u8>> = group.iter().map(|((codes, ..), _)| codes.place(noise, &mut dump)).collect();
        list.words(&dump.dump);
        for (map, ((_, unit, atten), change)) in maps.into_iter().zip(group) {
            let mut asked = Asked::of(map, (*unit, *atten));
            change(&mut asked);
            list.lengths(&asked.lengths);
            asked.put(&mut list, &dump);
        }
    }
    list
}
