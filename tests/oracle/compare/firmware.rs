//! Boards that the checked build turns down, t being above 850, and that firmware answered: what a plain build computes is the oracle.
use oracle::codes::Codes;
use oracle::noise::Noise;
use oracle::plain::dump_and_map;
use oracle::rules::{EIGHTS, MapChip};
use oracle::{document, line};
use suongkivat::Millivolt;

use crate::decode::{decode, pairs};
use crate::fill::at_once;
use crate::fuses::whole;
use crate::library::Library;
use crate::records::crates;
use crate::strewn::good_units_and_attens;
use crate::tally::{Compared, Tally};
use crate::told::Refused;

/// Every such pair of codes, unit and attenuation; of each that we answer the whole table too.
pub fn firmware(library: &Library, tally: &mut Tally, noise: &mut Noise) -> Compared {
    for (low, high) in pairs().filter(|(low, high)| *low != 0 && *high != 0) {
        for (unit, atten) in good_units_and_attens() {
            if document::two_points(unit.into(), atten.into(), low, high).t <= 850 {
                continue;
            }
            let codes = Codes::any(noise, 1).with(unit, low, high);
            let (dump, map) = dump_and_map(MapChip::Esp32, &codes.bits());
            decode(library, tally, whole(&dump), &map, (unit, atten))?;
            let decoded = (library.decode)(&dump, &EIGHTS, &map, unit, atten);
            if decoded.refused == Refused::NOT {
                let record = decoded.value.in_rust;
                let table = line::table_plain(crates(record)).expect("a plain build doesn't panic");
                let table: Vec<Millivolt> = table.into_iter().map(Millivolt).collect();
                at_once(library, tally, record, &table)?;
            }
        }
    }
    Ok(())
}
