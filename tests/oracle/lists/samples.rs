//! A sample's answer, on two boards whose blocks have lengths of their own.
use oracle::codes::Codes;
use oracle::dumps::{Builder, lent};
use oracle::fields::field_of;
use oracle::maps::of_length;
use oracle::noise::Noise;
use oracle::rules::{self, EIGHTS, refusal_bytes};
use oracle::together::choices;
use oracle::{Dump, answers, lengths};

use crate::list::{LENGTHS, List, groups};

/// Bytes of a case, and cases that share two dumps and start from one map.
const CASE: usize = 64;
const CASES: usize = 32;

/// A sample as it is asked for, with so many words of each board's dump.
struct Asked {
    lengths: Vec<u8>,
    map: Vec<u8>,
    length: u8,
    words: [u8; 2],
    raw: u16,
    board: u8,
    last: u8,
}

impl Asked {
    fn put(&self, list: &mut List, boards: &[Dump; 2]) {
        let Self { lengths, map, length, words, raw, board, last } = self;
        let [field, reference] = [0, 1].map(|k| lent(&boards[k], words[k]));
        let lent_map = of_length(map.clone(), (*length).into());
        let answer = answers::sample(&field, &reference, lengths, &lent_map, *raw, *board, *last);
        list.lengths(lengths).put(map).u8(*length).put(words).u8(*board).u8(*last).put(&refusal_bytes(&answer));
        list.u16(*raw).u16(answer.unwrap_or(0)).zeros(4);
    }
}

/// A count, a board and a last byte, and what is changed once there is a map.
type Case = ((u16, u8, u8), Box<dyn Fn(&mut Asked)>);

/// Both boards' keys under the least lengths that the map fits; and with each record outside its block's own length.
fn least_cases() -> Vec<Case> {
    let mut cases: Vec<Case> = Vec::new();
    let keys = [0, 1].into_iter().flat_map(|board| (0..8).map(move |last| (board, last)));
    for ((board, last), raw) in keys.flat_map(|key| [0, 2912, 4095].map(|raw| (key, raw))) {
        cases.push(((raw, board, last), Box::new(|asked| asked.lengths = lengths::least(&asked.map).into())));
    }
    for (k, board) in (0..6).flat_map(|k| [0, 1].map(|board| (k, board))) {
        let outside = move |asked: &mut Asked| asked.lengths = lengths::outside(&asked.map, k).into();
        cases.push(((100, board, 3), Box::new(outside)));
    }
    cases
}

/// Each bad list; each choice of the faults 15, 1, 20, 2, 5, 9 and 8, with one bad list after the other. Unit 1 is refused with 9.
fn refused() -> Vec<Case> {
    let mut cases: Vec<Case> = Vec::new();
    for (list, last) in lengths::bad(EIGHTS).into_iter().zip((0..4).cycle()) {
        cases.push(((4095, last % 2, last), Box::new(move |asked| asked.lengths = list.clone())));
    }
    for (fault, which) in choices(7).zip((0..lengths::bad(EIGHTS).len()).cycle()) {
        let board = (which % 2) as u8;
        let sample = (if fault[6] { 4096 } else { 2900 }, board, if fault[5] { 7 } else { 3 });
        let together = move |asked: &mut Asked| {
            let good = if fault[4] { lengths::outside(&asked.map, which % 6) } else { lengths::least(&asked.map) };
            asked.lengths = if fault[2] { lengths::bad(good)[which].clone() } else { good.into() };
            if fault[0] {
                asked.board += 2;
            }
            // The other board's dump isn't looked at.
            asked.words[usize::from(1 - board)] = 87;
            if fault[1] {
                asked.words = [89, 0];
            }
            if fault[3] {
                asked.length = 49;
            }
        };
        cases.push((sample, Box::new(together)));
    }
    cases
}

/// Two boards of noise by two points, and their map. Unit 1 is refused with 9.
fn boards(noise: &mut Noise) -> ([Dump; 2], Vec<u8>) {
    let codes = [(0x05, 0x1F0), (0x7D, 0x00C)].map(|(low, high)| Codes::any(noise, 1).with(0, low, high).with(1, 0x3F, 0x101));
    let [mut field, mut reference] = [noise.dump(), noise.dump()].map(Builder::new);
    let map = codes[0].place(noise, &mut field);
    for (k, bits) in codes[1].bits().into_iter().enumerate() {
        reference.write(field_of(&map, k), bits);
    }
    let boards = [field.dump, reference.dump];
    let number = |unit| boards.map(|dump| rules::number(&answers::decode(&dump, &EIGHTS, &map, unit, 3)));
    assert_eq!([number(0), number(1)], [[0; 2], [9; 2]], "unit 1 alone is refused");
    (boards, map)
}

/// Two dumps and 32 cases.
pub fn samples() -> List {
    let mut list = List::new("line_cases", "samples", 2 * 352 + (LENGTHS + CASE) * CASES);
    let noise = &mut Noise::new(18);
    let mut cases = least_cases();
    cases.extend(refused());
    for group in groups(&cases, CASES) {
        let (boards, map) = boards(noise);
        boards.iter().for_each(|dump| _ = list.words(dump));
        for ((raw, board, last), change) in group {
            let (map, lengths) = (map.clone(), EIGHTS.to_vec());
            let mut asked = Asked { lengths, map, length: 48, words: [88; 2], raw: *raw, board: *board, last: *last };
            change(&mut asked);
            asked.put(&mut list, &boards);
        }
    }
    list
}
