//! The parts of the comparison, in the order in which they run.
use oracle::noise::Noise;

use crate::library::Library;
use crate::tally::{Compared, Tally};
use crate::{c6, convert, curve, decode, fields, fill, firmware, lengths, logs, maps, orders, records, s2, vref};

pub struct Part {
    pub name: &'static str,
    pub run: fn(&Library, &mut Tally, &mut Noise) -> Compared,
}

impl Part {
    /// Runs on a library, up to the first difference, which it tells at its smallest input. Each part has noise of its own, so that a
    /// change in one leaves the others as they were.
    pub fn compare(&self, library: &Library, tally: &mut Tally, seed: u64) -> Compared {
        let own = self.name.bytes().fold(seed, |own, byte| own.wrapping_mul(257).wrapping_add(byte.into()));
        (self.run)(library, tally, &mut Noise::new(own)).map_err(|difference| difference.smallest(library))
    }
}

pub const PARTS: [Part; 30] = [
    Part { name: "fields", run: fields::fields },
    Part { name: "fields into bytes", run: fields::bytes },
    Part { name: "views", run: fields::views },
    Part { name: "maps", run: maps::maps },
    Part { name: "maps in decoding", run: maps::in_decoding },
    Part { name: "decoding by Vref", run: decode::vref },
    Part { name: "decoding by two points", run: decode::two_point },
    Part { name: "decoding with faults", run: decode::refused },
    Part { name: "answers of firmware", run: firmware::firmware },
    Part { name: "line records", run: records::records },
    Part { name: "records by Vref", run: vref::records },
    Part { name: "converting", run: convert::convert },
    Part { name: "filling", run: fill::fill },
    Part { name: "stretches at the ends", run: fill::ends },
    Part { name: "S2 readings", run: s2::readings },
    Part { name: "S2 codes", run: s2::codes },
    Part { name: "S2 with faults", run: s2::refused },
    Part { name: "C6 codes", run: c6::codes },
    Part { name: "C6 versions", run: c6::versions },
    Part { name: "C6 with faults", run: c6::refused },
    Part { name: "curves", run: curve::curves },
    Part { name: "curves with faults", run: curve::refused },
    Part { name: "samples", run: logs::samples },
    Part { name: "logs", run: logs::next_samples },
    Part { name: "fields by length", run: lengths::fields },
    Part { name: "views by length", run: lengths::views },
    Part { name: "maps by length", run: lengths::maps },
    Part { name: "S2 by length", run: lengths::s2 },
    Part { name: "lists of lengths", run: lengths::lists },
    Part { name: "orders of refusals", run: orders::orders_of_refusals },
];
