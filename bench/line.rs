//! The rows of converting and filling: by a two-point record, and by a Vref record, whose a and b are held to its vref at each call.
use std::hint::black_box;

use suongkivat::raw::{SkvOutcome, SkvVoltage};
use suongkivat::{Attenuation, Count, LineRecord, Source, EIGHTS};

use crate::calls::Calls;
use crate::rows::{one, Bars, Bench, Row, Work, BEATEN, COUNTS, NONE, NO_VOLTAGE};
use crate::timing::Way;

/// Where the lookup alone answers.
const LOOKUP_FIRST: u16 = 2945;

const STRETCH: usize = 64;

/// A call by a Vref record may take so much of one by a two-point record.
const VREF_BAR: f64 = 1.15;

const OURS_TWO_POINT: &str = "ours, two-point record";

/// What a loop calls: every side in its turn, or ours alone. A processor that has met several targets at one place may take half a
/// nanosecond more for each later call from there; a short call shows it, a longer one hides it, and it comes and goes. So where ours is
/// held to ours, the loop is one that has no other target, as a caller's own has.
const ALL: bool = false;
const ALONE: bool = true;

/// Counts rising from a first one on. Never compiled into a side's own code: sides that are timed together have one loop.
#[inline(never)]
fn convert<const WHOSE: bool>(calls: &Calls, record: LineRecord, first: u16, out: &mut [SkvVoltage]) {
    black_box(WHOSE); // else the two loops are the same, and are made one
    for (raw, out) in (first..).zip(out) {
        *out = (calls.convert)(record, Count(raw));
    }
}

/// The whole table, in stretches of that many counts; the same of its loops.
#[inline(never)]
fn fill<const WHOSE: bool>(calls: &Calls, record: LineRecord, stretch: usize, out: &mut [u16]) {
    black_box(WHOSE);
    for (k, part) in out.chunks_mut(stretch).enumerate() {
        let first = Count((stretch * k) as u16);
        assert_eq!((calls.fill)(record, first, part.as_mut_ptr(), part.len()), SkvOutcome { refusal: NONE });
    }
}

/// The same line in a record that is two-point: it gives the same answers.
fn as_two_point(record: LineRecord) -> LineRecord {
    LineRecord { source: Source::TWO_POINT, ..record }
}

impl Bench {
    /// Unit 0's record of the board of that source: at 11 dB, with the lookup, or at 6 dB, without it.
    pub fn record(&self, source: Source, lookup: bool) -> LineRecord {
        let (dump, map) = (self.board(source), &self.map);
        let attenuation = if lookup { Attenuation::DB_11 } else { Attenuation::DB_6 };
        let decoded = self.ours.decode(dump, &EIGHTS, map, 0, attenuation.0);
        assert_eq!((decoded.refusal, decoded.record.source), (NONE, source));
        decoded.record
    }

    /// Against esp-hal's three builds, and against its release build with our two tests in front.
    fn convert(&self, work: String, record: LineRecord, first: u16, bars: Bars, tested_bar: Option<f64>) -> [Row; 2] {
        let blank = vec![NO_VOLTAGE; usize::from(COUNTS - first)];
        let how: Work<SkvVoltage> = &|calls, out| convert::<ALL>(calls, record, first, out);
        let plain = self.all(work.clone(), bars, &blank, how);
        let ways: [Way<SkvVoltage>; 2] = [&|out| how(&self.ours, out), &|out| how(&self.release.tested, out)];
        [plain, one(work, "esp-hal, with our two tests", tested_bar, &blank, ways)]
    }

    fn two_point_convert(&self, name: &str, lookup: bool, first: u16, bar: f64, tested_bar: f64) -> [Row; 2] {
        let record = self.record(Source::TWO_POINT, lookup);
        let bars = [Some(bar), Some(BEATEN), None];
        self.convert(format!("convert, two-point record, {name}"), record, first, bars, Some(tested_bar))
    }

    /// Told beside esp-hal, and held to ours by a two-point record.
    fn vref_convert(&self, name: &str, lookup: bool, first: u16) -> [Row; 3] {
        let record = self.record(Source::VREF, lookup);
        let work = format!("convert, Vref record, {name}");
        let [plain, tested] = self.convert(work.clone(), record, first, [None; 3], None);
        let blank = vec![NO_VOLTAGE; usize::from(COUNTS - first)];
        let ours = |record| move |out: &mut [SkvVoltage]| convert::<ALONE>(&self.ours, record, first, out);
        let ways: [Way<SkvVoltage>; 2] = [&ours(record), &ours(as_two_point(record))];
        [plain, tested, one(work, OURS_TWO_POINT, Some(VREF_BAR), &blank, ways)]
    }

    /// Against esp-hal's three builds, and against copying a ready table.
    fn two_point_fill(&self, name: &str, lookup: bool, stretch: usize, bar: f64, copy_bar: Option<f64>) -> [Row; 2] {
        let record = self.record(Source::TWO_POINT, lookup);
        let work = format!("fill, two-point record, {name}");
        let blank = vec![0; usize::from(COUNTS)];
        let how: Work<u16> = &|calls, out| fill::<ALL>(calls, record, stretch, out);
        let plain = self.all(work.clone(), [Some(bar), Some(BEATEN), None], &blank, how);
        let mut table = blank.clone();
        how(&self.ours, &mut table);
        let copy: Way<u16> = &|out| {
            for (part, from) in out.chunks_mut(stretch).zip(table.chunks(stretch)) {
                part.copy_from_slice(from);
            }
        };
        let ours: Way<u16> = &|out| how(&self.ours, out);
        [plain, one(work, "memcpy", copy_bar, &blank, [ours, copy])]
    }

    /// What a call of a fill costs more by a Vref record.
    fn vref_fill(&self, name: &str, lookup: bool, stretch: usize) -> Row {
        let record = self.record(Source::VREF, lookup);
        let ours = |record| move |out: &mut [u16]| fill::<ALONE>(&self.ours, record, stretch, out);
        let ways: [Way<u16>; 2] = [&ours(record), &ours(as_two_point(record))];
        one(format!("fill, Vref record, {name}"), OURS_TWO_POINT, None, &vec![0; usize::from(COUNTS)], ways)
    }

    fn converts(&self) -> Vec<Row> {
        let mut rows = vec![];
        rows.extend(self.two_point_convert("lookup, counts rising", true, 0, 1.25, 1.15));
        rows.extend(self.two_point_convert("lookup, counts 2945 and up", true, LOOKUP_FIRST, 1.25, 1.15));
        rows.extend(self.two_point_convert("no lookup", false, 0, 1.6, 1.25));
        rows.extend(self.vref_convert("lookup, counts rising", true, 0));
        rows.extend(self.vref_convert("lookup, counts 2945 and up", true, LOOKUP_FIRST));
        rows.extend(self.vref_convert("no lookup", false, 0));
        rows
    }

    fn fills(&self) -> Vec<Row> {
        let whole = usize::from(COUNTS);
        let mut rows = vec![];
        rows.extend(self.two_point_fill("4,096, lookup", true, whole, 0.12, Some(5.0)));
        rows.extend(self.two_point_fill("4,096, no lookup", false, whole, 0.35, Some(5.0)));
        rows.extend(self.two_point_fill("stretches of 64, lookup", true, STRETCH, 0.30, None));
        rows.extend(self.two_point_fill("stretches of 64, no lookup", false, STRETCH, 0.30, None));
        rows.push(self.vref_fill("4,096, lookup", true, whole));
        rows.push(self.vref_fill("4,096, no lookup", false, whole));
        rows.push(self.vref_fill("stretches of 64, lookup", true, STRETCH));
        rows.push(self.vref_fill("stretches of 64, no lookup", false, STRETCH));
        rows
    }

    /// The rows of line records.
    pub fn line(&self) -> Vec<Row> {
        let mut rows = self.converts();
        rows.extend(self.fills());
        rows
    }
}
