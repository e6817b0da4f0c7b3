//! The rows of the S2, whose readings look at every field along a chain: each has to lie inside its block.
use suongkivat::raw::{SkvCode, SkvReading};
use suongkivat::EIGHTS;

use crate::rows::{mixed_dump, Bench, Row, Work, DECODINGS, NONE};

const VERSION: u8 = 2;

/// The version is the three bits from bit 132 of block 2 on; flash encryption's stand in block 0.
const MAP: [u8; 16] = [7, 2, 132, 0, 3, 0, 0, 0, 8, 0, 82, 0, 3, 0, 0, 0];
const VERSION_WORD: usize = 2 * 8 + 132 / 32;
const VERSION_SHIFT: u32 = 132 % 32;

/// A dump of mixed bits, of that version.
fn s2_dump() -> [u32; 88] {
    let mut dump = mixed_dump(0);
    let word = &mut dump[VERSION_WORD];
    *word = *word & !(7 << VERSION_SHIFT) | u32::from(VERSION) << VERSION_SHIFT;
    dump
}

impl Bench {
    /// The initial code's reading of each unit at each attenuation: chains of one to four fields.
    fn s2_reading(&self, dump: &[u32; 88]) -> Row {
        let lengths = &EIGHTS;
        let how: Work<SkvReading> = &|calls, out| {
            for (k, out) in (0..8).cycle().zip(out) {
                let (dump, dump_len) = (dump.as_ptr(), dump.len());
                *out = (calls.s2_reading_vinit)(dump, dump_len, lengths.as_ptr(), lengths.len(), VERSION, k / 4, k % 4);
            }
        };
        let blank = [SkvReading { refusal: NONE, value: 0 }; DECODINGS];
        self.all("S2 reading, initial code".into(), [None; 3], &blank, how)
    }

    /// The code itself: by a map, the version and the reading.
    fn s2_code(&self, dump: &[u32; 88]) -> Row {
        let (lengths, map) = (&EIGHTS, &MAP);
        let how: Work<SkvCode> = &|calls, out| {
            for (k, out) in (0..8).cycle().zip(out) {
                *out = (calls.s2_init_code)(
                    dump.as_ptr(),
                    dump.len(),
                    lengths.as_ptr(),
                    lengths.len(),
                    map.as_ptr(),
                    map.len(),
                    k / 4,
                    k % 4,
                );
            }
        };
        let blank = [SkvCode { refusal: NONE, code: 0 }; DECODINGS];
        self.all("S2 initial code, by its map".into(), [None; 3], &blank, how)
    }

    /// The rows of the S2.
    pub fn s2(&self) -> [Row; 2] {
        let dump = s2_dump();
        self.builds().iter().for_each(|build| build.load_s2(&dump));
        [self.s2_reading(&dump), self.s2_code(&dump)]
    }
}
