//! The rows of the list of block lengths: one that isn't all eights, and the calls whose work is little beside it. esp-hal has no such list,
//! nor these calls.
use suongkivat::raw::{SkvDecoded, SkvView};
use suongkivat::{Chip, Source, BLOCKS, EIGHTS};

use crate::rows::{one, Bench, Row, DECODINGS, NONE, NO_DECODED};
use crate::timing::Way;

/// A list with short blocks and missing ones. The fields of examples/day lie inside.
const SHORT: [u8; BLOCKS] = [7, 8, 8, 8, 0, 0, 0, 0, 0, 0, 0];

const BLOCK_WORDS: usize = 8;

/// Each block of either board, over and over.
const VIEWS: usize = 46 * BLOCKS;

/// The words that a board's block has, as Rust takes a part of a slice. Called, as ours is.
#[inline(never)]
fn block<'a>(boards: [&'a [u32]; 2], lengths: &[u8], board: u8, block: u8) -> &'a [u32] {
    let words = &boards[usize::from(board)][BLOCK_WORDS * usize::from(block)..];
    &words[..lengths[usize::from(block)].into()]
}

impl Bench {
    /// Decoding with short blocks, which are checked as others are.
    fn short_decode(&self) -> Row {
        let (dump, map) = (self.board(Source::TWO_POINT), &self.map);
        let ours = |lengths: &'static [u8]| {
            move |out: &mut [SkvDecoded]| {
                for (k, out) in (0..8).cycle().zip(out) {
                    *out = self.ours.decode(dump, lengths, map, k / 4, k % 4);
                }
            }
        };
        let ways: [Way<SkvDecoded>; 2] = [&ours(&SHORT), &ours(&EIGHTS)];
        one("decode, two-point, short blocks".into(), "ours, blocks of eight words", None, &[NO_DECODED; DECODINGS], ways)
    }

    /// A map's check, against a decoding, which makes it too.
    fn map_check(&self) -> Row {
        let (dump, lengths, map) = (self.board(Source::TWO_POINT), &EIGHTS, &self.map);
        let check: Way<u8> = &|out| {
            for out in out {
                let outcome = (self.own.check_map)(Chip::ESP32.0, lengths.as_ptr(), lengths.len(), map.as_ptr(), map.len());
                *out = outcome.refusal.number;
            }
        };
        let decode: Way<u8> = &|out| {
            for (k, out) in (0..8).cycle().zip(out) {
                *out = self.ours.decode(dump, lengths, map, k / 4, k % 4).refusal.number;
            }
        };
        one("check a map, 6 records".into(), "ours, decode, two-point", None, &[0; DECODINGS], [check, decode])
    }

    /// A session's view of each block that has words or none.
    fn view(&self) -> Row {
        let (field, reference, lengths, view) = (&self.field, &self.reference, &SHORT, self.own.view);
        let places = || (0..2).flat_map(|board| (0..BLOCKS as u8).map(move |block| (board, block))).cycle();
        let ours: Way<SkvView> = &|out| {
            for ((board, block), out) in places().zip(out) {
                *out = view(
                    field.as_ptr(),
                    field.len(),
                    reference.as_ptr(),
                    reference.len(),
                    lengths.as_ptr(),
                    lengths.len(),
                    board,
                    block,
                );
            }
        };
        let slice: Way<SkvView> = &|out| {
            for ((board, at), out) in places().zip(out) {
                let words = block([field, reference], lengths, board, at).len() as u32;
                *out = SkvView { refusal: NONE, board, first: (BLOCK_WORDS as u32) * u32::from(at), words };
            }
        };
        let blank = [SkvView { refusal: NONE, board: 0, first: 0, words: 0 }; VIEWS];
        one("session view, short blocks".into(), "a slice in Rust", None, &blank, [ours, slice])
    }

    /// The rows of the list.
    pub fn blocks(&self) -> [Row; 3] {
        [self.short_decode(), self.map_check(), self.view()]
    }
}
