//! Document 01's formulas against the crate: the whole domain where it is small, else a seeded sample. Curves aren't here: beside
//! the crate's own polynomial document 01 has only the rule for the coefficients.
use oracle::curve::{self, Chip};
use oracle::fields::{self, Field};
use oracle::line::{self, Record, TWO_POINT, VREF};
use oracle::noise::Noise;
use oracle::plain::dump_and_map;
use oracle::rules::{self, EIGHTS, MOST, MapChip};
use oracle::{Dump, c6, document, lengths, records, s2};

/// How many answers were compared, and how many of them differ.
struct Tally {
    what: &'static str,
    compared: u64,
    differ: u64,
}

impl Tally {
    fn new(what: &'static str) -> Self {
        Self { what, compared: 0, differ: 0 }
    }

    fn same<T: PartialEq>(&mut self, crates: T, documents: T) {
        self.compared += 1;
        self.differ += u64::from(crates != documents);
    }

    /// Tells both, and gives the second.
    fn report(self) -> u64 {
        println!("{}: {} compared, {} differ", self.what, self.compared, self.differ);
        self.differ
    }
}

/// How many answers differ.
pub fn all() -> u64 {
    let parts = [marked, fields, vref, vref_lines, two_point, convert, s2_readings, s2_lengths, s2_codes, c6_codes];
    parts.iter().map(|part| part()).sum()
}

/// Document 01's marked cases, as far as a call shows them.
fn marked() -> u64 {
    let mut tally = Tally::new("marked cases");
    marked_line(&mut tally);
    marked_codes(&mut tally);
    tally.report()
}

/// Cases 1, 3, 4, 5, 6; case 2 is in every two-point code.
fn marked_line(tally: &mut Tally) {
    let decode = |bits: [u32; 6]| {
        let (dump, map) = dump_and_map(MapChip::Esp32, &bits);
        line::decode(&dump, &map, 0, 3).ok()
    };
    for (code, vref) in [(0x00, 1100), (0x10, 1100), (0x0F, 1205), (0x1F, 995)] {
        tally.same(decode([code, 0, 0, 0, 0, 0]).map(|record| record.vref), Some(vref));
    }
    let by_vref = Record { coeff_a: 52798, coeff_b: 142, vref: 1100, unit: 0, atten: 3, source: VREF };
    tally.same(decode([0; 6]), Some(by_vref));
    for (raw, mv) in [(0, 142), (2880, 2462), (2912, 2483), (2944, 2502), (4095, 3134)] {
        tally.same(line::convert(by_vref, raw), Ok(mv));
    }
    tally.same(decode([0, 1, 1, 1, 1, 1]), Some(Record { coeff_a: 52567, coeff_b: 138, source: TWO_POINT, ..by_vref }));
    marked_underflow(tally);
}

/// Case 6, as document 02 has it: the plain build's b is 53 at 11 dB, and at 0 dB a number that no record may have. The checked build
/// panics at both.
fn marked_underflow(tally: &mut Tally) {
    for (high, atten, b) in [(0x1BD, 0, 0), (0x1BD, 3, 54), (0x1BC, 3, 53), (0x1BC, 0, u32::MAX)] {
        let (dump, map) = dump_and_map(MapChip::Esp32, &[0, 1, 63, 1, high, 1]);
        tally.same(line::decode(&dump, &map, 0, atten).is_ok(), high == 0x1BD);
        tally.same(line::decode_plain(&dump, &map, 0, atten).map(|record| record.coeff_b), Ok(b));
    }
}

/// Cases 7 to 11.
fn marked_codes(tally: &mut Tally) {
    let (zeros, ones) = ([0; 88], [u32::MAX; 88]);
    for (dump, unit, atten, param, mv) in
        [(zeros, 0, 0, 1, 6110), (zeros, 0, 3, 2, 1685), (zeros, 1, 3, 2, 1719), (ones, 0, 3, 2, 1277), (ones, 1, 3, 1, 5077)]
    {
        tally.same(s2::reading(&dump, 2, unit, atten, param), Ok(mv));
    }
    let c6_dump = |k: usize, bits| {
        let mut values = [0; 15];
        values[k] = bits;
        dump_and_map(MapChip::C6, &values)
    };
    for (minor, atten, bits, code) in [(2, 2, 0x200, 2900), (1, 0, 0x3FF, 989)] {
        let (dump, map) = c6_dump(4 + usize::from(atten), bits);
        tally.same(c6::cal_code(&dump, &map, minor, 0, atten), Ok(Some(code)));
    }
    for (atten, compens) in [(0, -28), (3, -7)] {
        let (dump, map) = c6_dump(8, 0xF);
        tally.same(c6::chan_compens(&dump, &map, 0, 0, atten), Ok(Some(compens)));
    }
    tally.same(curve::correct(Chip::C3, 0, 3, 1), Ok(Some(2)));
    tally.same(curve::correct(Chip::S3, 1, 3, 1), Ok(Some(0)));
}

/// Every start and count inside the block, at 8, 16 and 32 bits and into 33 bytes.
fn fields() -> u64 {
    let mut tally = Tally::new("fields");
    let noise = &mut Noise::new(101);
    for dump in [[0; 88], [u32::MAX; 88], noise.dump(), noise.dump()] {
        for bit_start in 0..256 {
            for bit_count in 0..=256 - bit_start {
                let field = Field { block: noise.below(11) as u8, bit_start, bit_count };
                let bytes = |n| document::bytes(&dump, field, n);
                tally.same(fields::read_u8(&dump, field).map(|x| x.to_le_bytes().to_vec()), Ok(bytes(1)));
                tally.same(fields::read_u16(&dump, field).map(|x| x.to_le_bytes().to_vec()), Ok(bytes(2)));
                tally.same(fields::read_u32(&dump, field).map(|x| x.to_le_bytes().to_vec()), Ok(bytes(4)));
                tally.same(fields::read_bytes(&dump, field, 33), Ok(bytes(33)));
            }
        }
    }
    tally.report()
}

/// The record of a and b from a source.
fn record(source: u8, (coeff_a, coeff_b): (i64, i64), vref: i64, unit: usize, atten: usize) -> Record {
    let number = |x: i64| u32::try_from(x).expect("a number of a record");
    let (coeff_a, coeff_b, vref) = (number(coeff_a), number(coeff_b), number(vref));
    Record { coeff_a, coeff_b, vref, unit: unit as u8, atten: atten as u8, source }
}

/// The record of a Vref.
fn by_vref(vref: i64, unit: usize, atten: usize) -> Record {
    record(VREF, document::by_vref(unit, atten, vref), vref, unit, atten)
}

/// Every Vref code, unit and attenuation, without the reserve bit and with each two-point code zero in turn.
fn vref() -> u64 {
    let mut tally = Tally::new("Vref decoding");
    for (code, unit, atten) in codes(32, 2, 4) {
        for zero in 2..7 {
            let mut bits = [code, u32::from(zero != 6), 1, 1, 1, 1, 1];
            bits[zero] = 0;
            let (dump, map) = dump_and_map(MapChip::Esp32, &bits[..6]);
            let document = by_vref(document::vref(code), unit, atten);
            tally.same(line::decode(&dump, &map, unit as u8, atten as u8).ok(), Some(document));
        }
    }
    tally.report()
}

/// a and b of every Vref that a record may have, by the crate's own function.
fn vref_lines() -> u64 {
    let mut tally = Tally::new("lines by Vref");
    for crates in records::all_by_vref() {
        tally.same(crates, by_vref(crates.vref.into(), crates.unit.into(), crates.atten.into()));
    }
    tally.report()
}

/// Numbers below three bounds.
fn codes(first: u32, units: usize, attens: usize) -> impl Iterator<Item = (u32, usize, usize)> {
    (0..first).flat_map(move |code| (0..units).flat_map(move |unit| (0..attens).map(move |atten| (code, unit, atten))))
}

/// Every pair of two-point codes that aren't zero, every unit and attenuation. The checked build gives the formulas' record, or panics,
/// exactly where t is above 850; a plain build gives them all, with b as 32 bits hold it: the exact sum, unless that is negative.
fn two_point() -> u64 {
    let mut checked = Tally::new("two-point decoding");
    let mut plain = Tally::new("two-point decoding, plain build");
    for (pair, unit, atten) in codes(128 * 512, 2, 4) {
        let (low, high) = (pair / 512, pair % 512);
        if low == 0 || high == 0 {
            continue;
        }
        let (dump, map) = dump_and_map(MapChip::Esp32, &[0, 1, low, low, high, high]);
        let document::TwoPoints { a, t, b } = document::two_points(unit, atten, low, high);
        let wrapped = record(TWO_POINT, (a, b.rem_euclid(1 << 32)), document::vref(0), unit, atten);
        checked.same(line::decode(&dump, &map, unit as u8, atten as u8).ok(), (t <= 850).then_some(wrapped));
        plain.same(line::decode_plain(&dump, &map, unit as u8, atten as u8), Ok(wrapped));
    }
    checked.report() + plain.report()
}

/// Every count of every Vref record and of records drawn from the whole range.
fn convert() -> u64 {
    let mut tally = Tally::new("converting");
    let noise = &mut Noise::new(102);
    let mut records = records::all_by_vref();
    records.extend((0..300).map(|_| Record {
        coeff_a: noise.within(0, 131071),
        coeff_b: noise.within(0, 4095),
        vref: noise.within(995, 1205),
        unit: noise.below(2) as u8,
        atten: if noise.once_in(4) { noise.below(3) as u8 } else { 3 },
        source: TWO_POINT,
    }));
    for record in records {
        for raw in 0..4096 {
            tally.same(line::convert(record, raw).map(i64::from), Ok(document::convert(record, raw)));
        }
    }
    tally.report()
}

/// Every version, unit, attenuation and parameter, with the eFuse and without.
fn s2_readings() -> u64 {
    let mut tally = Tally::new("S2 readings");
    let noise = &mut Noise::new(103);
    let dumps = [[0; 88], [u32::MAX; 88]].into_iter().chain((0..300).map(|_| noise.dump()));
    for dump in dumps {
        for (i, unit, atten) in codes(15, 2, 4) {
            let (version, param) = ([0, 1, 2, 3, 255][i as usize / 3], (i % 3) as u8);
            let (unit, atten) = (unit as u8, atten as u8);
            let tag = document::tag(version, unit, atten, param);
            tally.same(s2::reading(&dump, version, unit, atten, param), Ok(document::reading(Some(&dump), tag)));
            tally.same(s2::skipped(version, unit, atten, param), Ok(document::reading(None, tag)));
        }
    }
    tally.report()
}

/// Document 02, #109: a reading is refused exactly if the crate reads bits past block 2's own length, so that other bits there may give
/// another reading.
fn s2_lengths() -> u64 {
    let mut tally = Tally::new("S2 readings that reach past a block 2 of 0 to 8 words");
    let noise = &mut Noise::new(104);
    for words in 0..=MOST {
        for (i, unit, atten) in codes(15, 2, 4) {
            let (version, param) = ([0, 1, 2, 3, 255][i as usize / 3], (i % 3) as u8);
            let (unit, atten) = (unit as u8, atten as u8);
            let reading = |dump: &Dump| s2::reading(dump, version, unit, atten, param);
            let reaches_past = (0..64).any(|_| {
                let dump = noise.dump();
                let mut other = dump;
                other[16 + usize::from(words)..24].fill_with(|| noise.long() as u32);
                reading(&dump) != reading(&other)
            });
            let rule = rules::s2_fields(&lengths::with(EIGHTS, 2, words), version, unit, atten, param);
            tally.same(reaches_past, rule.is_err());
        }
    }
    tally.report()
}

/// Every version field and crypt count of 8 bits.
fn s2_codes() -> u64 {
    let mut tally = Tally::new("S2 versions, codes, flash encryption");
    for (bits, unit, atten) in codes(256, 2, 4) {
        let (dump, map) = dump_and_map(MapChip::S2, &[bits, bits]);
        let code = |param| {
            (bits == 2).then(|| document::reading(Some(&dump), document::tag(2, unit as u8, atten as u8, param)) as u16)
        };
        tally.same(s2::version(&dump, &map), Ok(bits as u8));
        tally.same(s2::flash_encryption(&dump, &map), Ok((0..8).filter(|k| bits >> k & 1 == 1).count() % 2 == 1));
        tally.same(s2::init_code(&dump, &map, unit as u8, atten as u8), Ok(code(2)));
        tally.same(s2::cal_code(&dump, &map, unit as u8, atten as u8), Ok(code(1)));
        tally.same(s2::cal_mv(unit as u8, atten as u8), Ok([600, 800, 1000, 2000][atten]));
    }
    tally.report()
}

/// Every init, calibration and channel code, minor version and channel.
fn c6_codes() -> u64 {
    let mut tally = Tally::new("C6 versions and codes");
    let version = |minor: u8| minor.min(2);
    for (code, minor, atten) in codes(32768, 3, 4) {
        let minor = minor as u8;
        let mut bits = [0; 15];
        bits[atten] = code;
        bits[4 + atten] = code % 1024;
        let (dump, map) = dump_and_map(MapChip::C6, &bits);
        let init = (minor > 0).then_some(code as u16 + 1600);
        tally.same(c6::init_code(&dump, &map, minor, 0, atten as u8), Ok(init));
        let base = [0, 1500, if atten == 2 { 2900 } else { 2850 }][usize::from(minor)];
        let cal = (minor > 0).then_some((base + document::sign_magnitude(code % 1024, 10)) as u16);
        tally.same(c6::cal_code(&dump, &map, minor, 1, atten as u8), Ok(cal));
    }
    for (code, channel, atten) in codes(16, 256, 4) {
        let mut bits = [0; 15];
        bits[8 + channel.min(6)] = code;
        let (dump, map) = dump_and_map(MapChip::C6, &bits);
        let document = document::sign_magnitude(code, 4) * (4 - atten as i32);
        tally.same(c6::chan_compens(&dump, &map, 0, channel as u8, atten as u8), Ok(Some(document)));
    }
    for (minor, unit, atten) in codes(256, 2, 4) {
        let minor = minor as u8;
        tally.same(c6::version(minor), Ok(version(minor)));
        let mv = if version(minor) == 2 { [750, 1000, 1500, 2800] } else { [400, 550, 750, 1370] };
        tally.same(c6::cal_mv(minor, unit as u8, atten as u8), Ok(mv[atten]));
    }
    tally.report()
}
