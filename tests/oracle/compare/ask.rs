//! One comparison from a call's name and its input: what an input is made smaller with.
use oracle::fields::Field;
use suongkivat::{Attenuation, Count, LineRecord, Sample, Source, Unit};

use crate::fields::Boards;
use crate::input::Input;
use crate::library::Library;
use crate::smaller::smallest;
use crate::tally::{Compared, Difference, Tally};
use crate::{c6, convert, curve, decode, fields, fill, logs, maps, records, s2};

impl Input {
    fn field(&self) -> Field {
        Field { block: self.value("block"), bit_start: self.value("bit start"), bit_count: self.value("bit count") }
    }

    fn unit_and_atten(&self) -> (u8, u8) {
        (self.value("unit"), self.value("attenuation"))
    }

    fn record(&self) -> LineRecord {
        let (coeff_a, coeff_b, vref) = (self.value("a"), self.value("b"), self.value("vref"));
        let (unit, attenuation) = self.unit_and_atten();
        let source = Source(self.value("source"));
        LineRecord { coeff_a, coeff_b, vref, unit: Unit(unit), attenuation: Attenuation(attenuation), source }
    }

    fn boards(&self) -> Boards<'_> {
        (&self.dumps[0], &self.dumps[1], self.lent_lengths())
    }

    fn sample(&self) -> Sample {
        Sample { raw: Count(self.value("raw")), board: self.value("board"), last: self.value("last byte") }
    }
}

/// Compares the answers of a call.
pub fn ask(library: &Library, tally: &mut Tally, call: &'static str, input: &Input) -> Compared {
    let bytes = input.lent_bytes();
    match call {
        "read_field_le" => fields::into_bytes(library, tally, input.lent_fuses(), input.field(), input.value("bytes lent")),
        "view" => fields::view(library, tally, input.boards(), input.value("board"), input.value("block")),
        "check_map" => maps::check(library, tally, input.value("chip"), input.lent_lengths(), bytes),
        "decode" => decode::decode(library, tally, input.lent_fuses(), bytes, input.unit_and_atten()),
        "check_record" => records::check(library, tally, input.record()),
        "convert" => convert::convert_one(library, tally, input.record(), input.value("raw")),
        "fill" => fill::stretch(library, tally, input.record(), input.value("first count"), input.value("numbers lent")),
        "correct" => {
            let chip = (input.value("chip"), input.value("minor"));
            curve::correct(library, tally, chip, input.unit_and_atten(), input.value("line answer"))
        }
        "next_sample" => logs::next(library, tally, bytes),
        "sample" => logs::sample(library, tally, (input.boards(), bytes), input.sample()),
        _ if call.starts_with("read_field_") => fields::read(library, tally, input.lent_fuses(), input.field()),
        _ if call.starts_with("s2_") => ask_s2(library, tally, call, input),
        _ => ask_c6(library, tally, call, input),
    }
}

fn ask_s2(library: &Library, tally: &mut Tally, call: &'static str, input: &Input) -> Compared {
    let bytes = input.lent_bytes();
    let versioned = |input: &Input| (input.value("version"), input.value("unit"), input.value("attenuation"));
    match call {
        "s2_version" => s2::version(library, tally, input.lent_fuses(), bytes),
        "s2_flash_encryption" => s2::flash_encryption(library, tally, input.lent_fuses(), bytes),
        "s2_init_code" => s2::init_code(library, tally, input.lent_fuses(), bytes, input.unit_and_atten()),
        "s2_cal_code" => s2::cal_code(library, tally, input.lent_fuses(), bytes, input.unit_and_atten()),
        "s2_cal_mv" => s2::cal_mv(library, tally, input.unit_and_atten()),
        "s2_reading_vlow" => s2::reading_of(library, tally, input.lent_fuses(), versioned(input), 0),
        "s2_reading_vhigh" => s2::reading_of(library, tally, input.lent_fuses(), versioned(input), 1),
        "s2_reading_vinit" => s2::reading_of(library, tally, input.lent_fuses(), versioned(input), 2),
        _ => s2::skipped(library, tally, versioned(input)),
    }
}

fn ask_c6(library: &Library, tally: &mut Tally, call: &'static str, input: &Input) -> Compared {
    let bytes = input.lent_bytes();
    let at = |input: &Input| (input.value("minor"), input.unit_and_atten());
    match call {
        "c6_version" => c6::version(library, tally, input.value("minor")),
        "c6_init_code" => c6::init_code(library, tally, input.lent_fuses(), bytes, at(input)),
        "c6_cal_code" => c6::cal_code(library, tally, input.lent_fuses(), bytes, at(input)),
        "c6_get_chan_compens" => {
            c6::compensation(library, tally, input.lent_fuses(), bytes, (input.value("channel"), input.unit_and_atten()))
        }
        "c6_cal_mv" => c6::cal_mv(library, tally, at(input)),
        _ => unreachable!("no call {call}"),
    }
}

impl Difference {
    /// The same difference at its smallest input; as it is where the call alone doesn't show it.
    pub fn smallest(self: Box<Self>, library: &Library) -> Box<Self> {
        let call = self.call;
        let asked = |input: &Input| ask(library, &mut Tally::default(), call, input);
        let input = smallest(call, self.input.clone(), |input| asked(input).is_err());
        asked(&input).err().unwrap_or(self)
    }
}
