//! What the binding for Rust costs: a call through bindings/rust, linked as a Rust program links it, against the same call for C. Both
//! sides look at the number of each answer, and stop where one is refused.
use suongkivat::raw::SkvRefusal;
use suongkivat::{correct, Attenuation, Chip, Count, LineRecord, Millivolt, Source, Unit, EIGHTS};

use crate::rows::{fields, mixed_dump, one, Bench, Row, COUNTS, DECODINGS};
use crate::timing::Way;

/// By the place of a function alone a call can cost so much more or less.
const BAR: f64 = 1.1;

const GOOD: &str = "a good answer";

/// The value beside a number, as a caller in C takes it.
fn taken<T>(refusal: SkvRefusal, value: T) -> T {
    assert!(refusal.number == 0, "{GOOD}");
    value
}

fn row<A: Clone + PartialEq + Default>(work: &str, answers: usize, ways: [Way<A>; 2]) -> Row {
    one(format!("{work}, bindings/rust"), "our call for C", Some(BAR), &vec![A::default(); answers], ways)
}

impl Bench {
    fn binding_reads(&self) -> Row {
        let (dump, lengths, fields) = (mixed_dump(0), &EIGHTS, fields(32));
        let ours: Way<u32> = &|out| {
            for (out, field) in out.iter_mut().zip(&fields) {
                *out = field.read_u32(&dump, lengths).expect(GOOD);
            }
        };
        let read = self.ours.read_field_u32;
        let c: Way<u32> = &|out| {
            for (out, field) in out.iter_mut().zip(&fields) {
                let read = read(dump.as_ptr(), dump.len(), lengths.as_ptr(), lengths.len(), *field);
                *out = taken(read.refusal, read.value);
            }
        };
        row("read a field, 32 bits", fields.len(), [ours, c])
    }

    fn binding_decodes(&self) -> Row {
        let (dump, lengths, map, calls) = (&self.field, &EIGHTS, &self.map, self.ours);
        let ours: Way<LineRecord> = &|out| {
            for (k, out) in (0..8).cycle().zip(out) {
                *out = LineRecord::decode(dump, lengths, map, Unit(k / 4), Attenuation(k % 4)).expect(GOOD);
            }
        };
        let c: Way<LineRecord> = &|out| {
            for (k, out) in (0..8).cycle().zip(out) {
                let decoded = calls.decode(dump, lengths, map, k / 4, k % 4);
                *out = taken(decoded.refusal, decoded.record);
            }
        };
        row("decode, two-point", DECODINGS, [ours, c])
    }

    fn binding_converts(&self) -> Row {
        let (record, convert) = (self.record(Source::TWO_POINT, true), self.ours.convert);
        let ours: Way<Millivolt> = &|out| {
            for (raw, out) in (0..).zip(out) {
                *out = record.convert(Count(raw)).expect(GOOD);
            }
        };
        let c: Way<Millivolt> = &|out| {
            for (raw, out) in (0..).zip(out) {
                let answer = convert(record, Count(raw));
                *out = taken(answer.refusal, answer.voltage);
            }
        };
        row("convert, two-point record, lookup, counts rising", COUNTS.into(), [ours, c])
    }

    fn binding_fills(&self) -> Row {
        let (record, fill) = (self.record(Source::TWO_POINT, true), self.ours.fill);
        let ours: Way<Millivolt> = &|out| record.fill(Count(0), out).expect(GOOD);
        let c: Way<Millivolt> = &|out| {
            let outcome = fill(record, Count(0), out.as_mut_ptr().cast(), out.len());
            taken(outcome.refusal, ());
        };
        row("fill, two-point record, 4,096, lookup", COUNTS.into(), [ours, c])
    }

    fn binding_corrects(&self) -> Row {
        let call = self.ours.correct;
        let (chip, unit, attenuation) = (Chip::S3, Unit::ADC1, Attenuation::DB_11);
        let ours: Way<Millivolt> = &|out| {
            for (mv, out) in (0..).zip(out) {
                *out = correct(chip, 0, unit, attenuation, Millivolt(mv)).expect(GOOD);
            }
        };
        let c: Way<Millivolt> = &|out| {
            for (mv, out) in (0..).zip(out) {
                let answer = call(chip.0, 0, unit.0, attenuation.0, Millivolt(mv));
                *out = taken(answer.refusal, answer.voltage);
            }
        };
        row("curve, S3 unit 0, 11 dB", COUNTS.into(), [ours, c])
    }
    /// The rows of the binding.
    pub fn binding(&self) -> [Row; 5] {
        [self.binding_reads(), self.binding_decodes(), self.binding_converts(), self.binding_fills(), self.binding_corrects()]
    }
}
