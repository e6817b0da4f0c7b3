//! The session view: every block of both boards at every length.
use oracle::dumps::lent;
use oracle::noise::Noise;
use oracle::rules::{BLOCKS, EIGHTS, MOST, number};
use oracle::together::choices;
use oracle::{Dump, answers, lengths};

use crate::list::{LENGTHS, List, groups};

/// Bytes of a case, and cases that share two dumps.
const CASE: usize = 8 + 4 * MOST as usize;
const CASES: usize = 64;

/// A view as it is asked for, with so many words of each board's dump.
#[derive(Clone)]
struct Asked {
    lengths: Vec<u8>,
    words: [u8; 2],
    board: u8,
    block: u8,
}

impl Asked {
    fn put(&self, list: &mut List, boards: &[Dump; 2]) {
        let Self { lengths, words, board, block } = self;
        let [field, reference] = [0, 1].map(|k| lent(&boards[k], words[k]));
        let answer = answers::view(&field, &reference, lengths, *board, *block);
        list.lengths(lengths).put(words).u8(*board).u8(*block).u8(number(&answer));
        let view = answer.unwrap_or_default();
        list.u8(view.words as u8).zeros(2);
        let viewed = &[&field, &reference][usize::from(view.board)][view.first..][..view.words];
        list.words(viewed).zeros(CASE - 8 - 4 * view.words);
    }
}

/// Every block of both boards at every length; the others have any.
fn every_length(noise: &mut Noise) -> Vec<Asked> {
    let mut cases = Vec::new();
    for (board, block) in [0, 1].into_iter().flat_map(|board| (0..BLOCKS as u8).map(move |block| (board, block))) {
        for length in 0..=MOST {
            let lengths = lengths::with(lengths::any(noise), block, length).to_vec();
            cases.push(Asked { lengths, words: [88; 2], board, block });
        }
    }
    cases
}

/// Each bad list; each choice of the faults 15, 1, 20 and 4, on each board, the other's dump being whole or not.
fn refused() -> Vec<Asked> {
    let bad = lengths::bad(EIGHTS);
    let asked = |(lengths, block): (&Vec<u8>, u8)| Asked { lengths: lengths.clone(), words: [88; 2], board: block % 2, block };
    let mut cases: Vec<Asked> = bad.iter().zip((0..BLOCKS as u8).cycle()).map(asked).collect();
    for (fault, bad) in choices(4).zip(bad.iter().cycle()) {
        let lengths = if fault[2] { bad.clone() } else { EIGHTS.to_vec() };
        for (board, other) in [(0, 88), (0, 89), (1, 88), (1, 0)] {
            let mut words = [other; 2];
            words[usize::from(board)] = if fault[1] { 87 } else { 88 };
            let (board, block) = (if fault[0] { board + 2 } else { board }, if fault[3] { 11 } else { 10 });
            cases.push(Asked { lengths: lengths.clone(), words, board, block });
        }
    }
    cases
}

/// Two dumps and 64 cases.
pub fn views() -> List {
    let mut list = List::new("efuse_cases", "views", 2 * 352 + (LENGTHS + CASE) * CASES);
    let noise = &mut Noise::new(17);
    let mut cases = every_length(noise);
    cases.extend(refused());
    for group in groups(&cases, CASES) {
        let boards = [noise.dump(), noise.dump()];
        boards.iter().for_each(|dump| _ = list.words(dump));
        group.iter().for_each(|asked| asked.put(&mut list, &boards));
    }
    list
}
