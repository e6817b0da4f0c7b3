//! The rows of the table: what is timed, on which inputs, against what, with which bar.
use std::fs;

use suongkivat::raw::{SkvDecoded, SkvRead, SkvRefusal, SkvVoltage};
use suongkivat::{Attenuation, Field, LineRecord, Millivolt, Source, Unit, EIGHTS};

use crate::calls::{Calls, Crate, Own, ReadField};
use crate::timing::{contest, Outcome, Ratio, Side, Way};

pub const COUNTS: u16 = 4096;

/// Dumps that a bedside tablet loads.
const DUMPS: u32 = 200;

/// A C6 takes its second table.
const MINOR: u8 = 2;

/// The overflow-checked build is to be beaten.
pub const BEATEN: f64 = 0.99;

/// Bars against esp-hal's three builds: for release, the same with overflow checks, and for release with fat LTO.
pub type Bars = [Option<f64>; 3];

pub const NONE: SkvRefusal = SkvRefusal { number: 0, record: 0, place: 0 };
const NO_READ: SkvRead = SkvRead { refusal: NONE, value: 0 };
pub const NO_VOLTAGE: SkvVoltage = SkvVoltage { refusal: NONE, voltage: Millivolt(0) };
const NO_RECORD: LineRecord =
    LineRecord { coeff_a: 0, coeff_b: 0, vref: 0, unit: Unit(0), attenuation: Attenuation(0), source: Source(0) };
pub const NO_DECODED: SkvDecoded = SkvDecoded { refusal: NONE, record: NO_RECORD };

/// Answers of a decoding that are timed together: each unit at each attenuation, over and over.
pub const DECODINGS: usize = 512;

/// A ratio, and the bar that it is held to.
pub struct Held {
    pub ratio: Ratio,
    pub bar: Option<f64>,
}

impl Held {
    /// Whether the bar is reached, where there is one. Ratio and bar have two decimals.
    pub fn reached(&self) -> Option<bool> {
        self.bar.map(|bar| (100.0 * self.ratio.middle).round() <= (100.0 * bar).round())
    }
}

pub struct Row {
    pub work: String,
    pub against: &'static str,
    pub nanoseconds: f64,
    /// Against one other way, or against esp-hal's three builds in the order of their bars.
    pub held: Vec<Held>,
}

impl Row {
    fn new(work: String, against: &'static str, bars: &[Option<f64>], outcome: Outcome) -> Self {
        let Outcome { nanoseconds, ratios } = outcome;
        assert_eq!(ratios.len(), bars.len());
        let held = ratios.into_iter().zip(bars).map(|(ratio, bar)| Held { ratio, bar: *bar }).collect();
        Self { work, against, nanoseconds, held }
    }
}

/// A work as each set of calls does it.
pub type Work<'a, A> = &'a dyn Fn(&Calls, &mut [A]);

pub struct Bench {
    pub ours: Calls,
    pub own: Own,
    pub release: Crate,
    checked: Crate,
    whole: Crate,
    pub field: [u32; 88],
    pub reference: [u32; 88],
    pub map: Vec<u8>,
}

fn file(name: &str) -> Vec<u8> {
    let path = format!("examples/day/{name}");
    fs::read(&path).unwrap_or_else(|why| panic!("{path}: {why}"))
}

fn dump(name: &str) -> [u32; 88] {
    let bytes = file(name);
    std::array::from_fn(|k| u32::from_le_bytes(bytes[4 * k..][..4].try_into().expect("a word")))
}

/// Fields of up to so many bits, all over a dump.
pub fn fields(width: u16) -> Vec<Field> {
    let field = |i: u16| {
        let bit_count = 1 + (11 * i) % width;
        Field { block: (i % 11) as u8, bit_start: (37 * i) % (257 - bit_count), bit_count }
    };
    (0..1024).map(field).collect()
}

/// A dump of mixed bits; each number has its own.
pub fn mixed_dump(number: u32) -> [u32; 88] {
    std::array::from_fn(|k| (88 * number + k as u32 + 1).wrapping_mul(0x9E37_79B9))
}

/// The fields of a map's records.
fn mapped(map: &[u8]) -> Vec<Field> {
    let field = |record: &[u8]| Field {
        block: record[1],
        bit_start: u16::from_le_bytes([record[2], record[3]]),
        bit_count: record[4].into(),
    };
    map.chunks_exact(8).map(field).collect()
}

/// A work of ours against another way to the same answers.
pub fn one<A: Clone + PartialEq>(work: String, against: &'static str, bar: Option<f64>, blank: &[A], ways: [Way<A>; 2]) -> Row {
    let outcome = contest(&work, blank, &ways.map(Side::whole));
    Row::new(work, against, &[bar], outcome)
}

impl Bench {
    /// The four objects' calls, on the two boards of examples/day.
    pub fn open(ours: &str, release: &str, checked: &str, whole: &str) -> Self {
        let release = Crate::open(release);
        Self {
            ours: Calls::ours(ours, &release),
            own: Own::open(ours),
            release,
            checked: Crate::open(checked),
            whole: Crate::open(whole),
            field: dump("field.bin"),
            reference: dump("reference.bin"),
            map: file("map.bin"),
        }
    }

    /// The board whose a and b come from there, of either unit.
    pub fn board(&self, source: Source) -> &[u32; 88] {
        if source == Source::VREF {
            &self.reference
        } else {
            &self.field
        }
    }

    pub fn builds(&self) -> [&Crate; 3] {
        [&self.release, &self.checked, &self.whole]
    }

    /// Makes a dump esp-hal's, in each build.
    fn load(&self, dump: &[u32; 88]) {
        self.builds().iter().for_each(|build| build.calls.load(dump, MINOR));
    }

    /// A work against esp-hal's three builds, without what doesn't count of it.
    fn counted<A: Clone + PartialEq>(&self, work: String, bars: Bars, blank: &[A], how: Work<A>, uncounted: Work<A>) -> Row {
        let calls = [&self.ours, &self.release.calls, &self.checked.calls, &self.whole.calls];
        let ways = calls.map(|calls| move |out: &mut [A]| how(calls, out));
        let rests = calls.map(|calls| move |out: &mut [A]| uncounted(calls, out));
        let sides: Vec<_> = ways.iter().zip(&rests).map(|(way, rest)| Side { way: way as Way<A>, uncounted: rest }).collect();
        let outcome = contest(&work, blank, &sides);
        Row::new(work, "esp-hal", &bars, outcome)
    }

    /// A work that counts as a whole.
    pub fn all<A: Clone + PartialEq>(&self, work: String, bars: Bars, blank: &[A], how: Work<A>) -> Row {
        self.counted(work, bars, blank, how, &|_, _| ())
    }

    /// Fields of a dump of mixed bits.
    fn read_field(&self, width: u16, bar: Option<f64>, read: fn(&Calls) -> ReadField) -> Row {
        let (dump, lengths) = (mixed_dump(0), &EIGHTS);
        self.load(&dump);
        let fields = fields(width);
        let blank = vec![NO_READ; fields.len()];
        self.all(format!("read a field, {width} bits"), [bar, None, None], &blank, &|calls, out| {
            let read = read(calls);
            for (out, field) in out.iter_mut().zip(&fields) {
                *out = read(dump.as_ptr(), dump.len(), lengths.as_ptr(), lengths.len(), *field);
            }
        })
    }

    /// The map's fields of one dump after the other. esp-hal reads from one memory, so each dump has to be put there first: every
    /// side does it, and for none does it count.
    fn mapped_fields(&self) -> Row {
        let (fields, lengths) = (mapped(&self.map), &EIGHTS);
        let dumps: Vec<_> = (0..DUMPS).map(mixed_dump).collect();
        let blank = vec![NO_READ; fields.len() * dumps.len()];
        let loads: Work<SkvRead> = &|calls, _| dumps.iter().for_each(|dump| calls.load(dump, MINOR));
        let how: Work<SkvRead> = &|calls, out| {
            for (dump, out) in dumps.iter().zip(out.chunks_mut(fields.len())) {
                calls.load(dump, MINOR);
                for (out, field) in out.iter_mut().zip(&fields) {
                    *out = (calls.read_field_u32)(dump.as_ptr(), dump.len(), lengths.as_ptr(), lengths.len(), *field);
                }
            }
        };
        let work = format!("read a map's {} fields, {DUMPS} dumps", fields.len());
        self.counted(work, [Some(0.45), None, None], &blank, how, loads)
    }

    /// Decoding each unit at each attenuation, by a map; and against esp-hal's alone, whose fields hold then what the map's did. Its
    /// record has no source, so it is told the board's, which doesn't count.
    fn decode(&self, name: &str, source: Source, bars: Bars) -> [Row; 2] {
        let (dump, lengths, map) = (self.board(source), &EIGHTS, &self.map);
        self.load(dump);
        self.builds().iter().for_each(|build| (build.tell_source)(source));
        let blank = vec![NO_DECODED; DECODINGS];
        let how: Work<SkvDecoded> = &|calls, out| {
            for (k, out) in (0..8).cycle().zip(out) {
                *out = calls.decode(dump, lengths, map, k / 4, k % 4);
            }
        };
        let mapped = self.all(format!("decode, {name}"), bars, &blank, how);
        let ours: Way<SkvDecoded> = &|out| how(&self.ours, out);
        let new_cal = self.release.new_cal;
        let fixed: Way<SkvDecoded> = &|out| {
            for (k, out) in (0..8).cycle().zip(out) {
                *out = new_cal(k / 4, k % 4);
            }
        };
        [mapped, one(format!("decode, {name}"), "new_cal, fields fixed, no map", None, &blank, [ours, fixed])]
    }

    /// A curve at every line answer; the table is selected in the call.
    fn correct(&self, name: &str, chip: u8, unit: u8, atten: u8) -> Row {
        let blank = vec![NO_VOLTAGE; usize::from(COUNTS)];
        self.all(format!("curve, {name}"), [Some(1.35), None, None], &blank, &|calls, out| {
            for (mv, out) in (0..).zip(out) {
                *out = (calls.correct)(chip, MINOR, unit, atten, Millivolt(mv));
            }
        })
    }

    fn curves(&self) -> Vec<Row> {
        let curves = [
            ("C3, 0 dB", 2, 0, 0),
            ("C3, 11 dB", 2, 0, 3),
            ("C5, 11 dB", 3, 0, 3),
            ("C6 version 2, 11 dB", 4, 0, 3),
            ("C61, 11 dB", 5, 0, 3),
            ("H2, 11 dB", 6, 0, 3),
            ("P4 unit 0, 11 dB", 7, 0, 3),
            ("P4 unit 1, 11 dB", 7, 1, 3),
            ("S3 unit 0, 11 dB", 8, 0, 3),
            ("S3 unit 1, 11 dB", 8, 1, 3),
        ];
        curves.map(|(name, chip, unit, atten)| self.correct(name, chip, unit, atten)).into()
    }

    pub fn rows(&self) -> Vec<Row> {
        let mut rows = vec![
            self.read_field(8, None, |calls| calls.read_field_u8),
            self.read_field(16, None, |calls| calls.read_field_u16),
            self.read_field(32, Some(0.45), |calls| calls.read_field_u32),
            self.mapped_fields(),
        ];
        rows.extend(self.decode("two-point", Source::TWO_POINT, [Some(0.75), Some(BEATEN), Some(0.95)]));
        rows.extend(self.decode("Vref", Source::VREF, [Some(0.9), Some(BEATEN), None]));
        rows.extend(self.line());
        rows.extend(self.curves());
        rows.extend(self.binding());
        rows.extend(self.blocks());
        rows.extend(self.s2());
        rows
    }
}
