//! Each difference at its smallest input, and what the crate's answers are like.
use std::fmt::Display;

use oracle::curve::{self, Chip};
use oracle::fields::{self, Field};
use oracle::line::{self, Record, VREF};
use oracle::plain::dump_and_map;
use oracle::rules::MapChip;
use oracle::{c6, document, s2};

pub fn all() {
    fields();
    line();
    two_point();
    underflows();
    s2_units();
    c6_init();
    curve_inputs();
    curve_answers();
    blends();
}

fn fields() {
    let mut dump = [0; 88];
    (dump[0], dump[8]) = (5, 1);
    let read = |block, bit_start, bit_count| fields::read_u32(&dump, Field { block, bit_start, bit_count });
    println!("field: block 11: {:?}", read(11, 0, 1));
    println!("field: block 0, start 255, count 2, where block 1 begins with a 1: {:?}", read(0, 255, 2));
    println!("field: block 0, start 256, count 1: {:?}", read(0, 256, 1));
    println!("field: block 0, which begins with a 5, start 0, count 257: {:?}", read(0, 0, 257));
    println!("field: block 10, start 256, count 0, which reads a word behind the dump: {:?}", read(10, 256, 0));
}

/// Document 01's case 3: Vref 1100, unit 0, 11 dB.
const CASE_3: Record = Record { coeff_a: 52798, coeff_b: 142, vref: 1100, unit: 0, atten: 3, source: VREF };

/// The first number of a range at which a call panics, with the panic.
fn first_panic<T>(range: std::ops::RangeInclusive<u32>, call: impl Fn(u32) -> Result<T, oracle::Panic>) -> String {
    let found = range.into_iter().find_map(|n| call(n).err().map(|panic| format!("{n}: {}", panic.0)));
    found.unwrap_or("none".into())
}

fn line() {
    let plain = Record { atten: 0, ..CASE_3 };
    println!("line: case 3's record, raw 4096: {:?}", line::convert(CASE_3, 4096));
    println!(
        "line: case 3's record, first raw that panics: {}",
        first_panic(0..=65535, |raw| line::convert(CASE_3, raw as u16))
    );
    println!("line: the same without lookup, raw 4096: {:?}", line::convert(plain, 4096));
    println!(
        "line: the same without lookup, first raw that panics: {}",
        first_panic(0..=65535, |raw| line::convert(plain, raw as u16))
    );
    let by_a = |coeff_a| line::convert(Record { coeff_a, ..plain }, 4095);
    println!("line: at raw 4095, first a that panics: {}", first_panic(131072..=2_000_000, by_a));
    let loses = |b: &u32| line::convert(Record { coeff_a: 0, coeff_b: *b, ..plain }, 0).map(u32::from) != Ok(*b);
    let cut = (4096..=200_000).find(loses);
    println!("line: at raw 0 and a 0, first b whose millivolts lose a bit: {cut:?}");
    let by_vref = |vref| line::convert(Record { vref, ..CASE_3 }, 4095);
    println!("line: case 3's record with vref 994, raw 4095: {:?}; vref 1206: {:?}", by_vref(994), by_vref(1206));
    println!("line: case 3's record with unit 2, raw 4095: {:?}, as unit 1", line::convert(Record { unit: 2, ..CASE_3 }, 4095));
}

fn two_point() {
    for (high, atten) in [(0x1BD, 3), (0x1BC, 3), (0x1BC, 0)] {
        let (dump, map) = dump_and_map(MapChip::Esp32, &[0, 1, 63, 63, high, high]);
        let plain = line::decode_plain(&dump, &map, 0, atten);
        println!("two-point: unit 0, low code 63, high code {high:#X}, attenuation {atten}:");
        println!("  this build: {:?}", line::decode(&dump, &map, 0, atten));
        println!("  plain build: {plain:?}");
        println!("  plain build, at raw 0: {:?}", plain.and_then(line::table_plain).map(|table| table[0]));
    }
}

/// What the two builds make of every pair of codes that aren't zero, by unit and attenuation.
fn underflows() {
    for (unit, atten) in (0..2).flat_map(|unit| (0..4).map(move |atten| (unit, atten))) {
        let mut pairs = Pairs::default();
        (1..128)
            .flat_map(|low| (1..512).map(move |high| (low, high)))
            .for_each(|(low, high)| pairs.see(unit, atten, low, high));
        let Pairs { good, low, high, back, wrapped } = pairs;
        println!("two-point: unit {unit}, attenuation {atten}: no panic: {} pairs, b {}", good.len(), range(&good));
        println!("  panic: {} pairs, low codes {}, high codes {}", low.len(), range(&low), range(&high));
        println!("  of them in a plain build: b {} for {}, wrapped around for {}", range(&back), back.len(), wrapped.len());
        println!("  wrapped around: {} of the lowest counts read above 65,000 mV, and no other above 4,095", range(&wrapped));
    }
}

/// What was seen of pairs of codes.
#[derive(Default)]
struct Pairs {
    /// b where the checked build has an answer.
    good: Vec<u32>,
    /// The codes where it panics.
    low: Vec<i32>,
    high: Vec<i32>,
    /// Of these, b that a plain build brings back from below zero.
    back: Vec<u32>,
    /// Of the others, whose b stays wrapped around, how many of the lowest counts read as a voltage that can't be.
    wrapped: Vec<usize>,
}

impl Pairs {
    fn see(&mut self, unit: u8, atten: u8, low: u32, high: u32) {
        let (dump, map) = dump_and_map(MapChip::Esp32, &[0, 1, low, low, high, high]);
        let plain = line::decode_plain(&dump, &map, unit, atten).expect("a plain build doesn't panic");
        if line::decode(&dump, &map, unit, atten).is_ok() {
            return self.good.push(plain.coeff_b);
        }
        self.low.push(document::two_point_code(low, 64));
        self.high.push(document::two_point_code(high, 256));
        if plain.coeff_b <= 4095 {
            return self.back.push(plain.coeff_b);
        }
        let table = line::table_plain(plain).expect("a plain build doesn't panic");
        let lowest = table.partition_point(|mv| *mv > 65_000);
        assert!(table[lowest..].iter().all(|mv| *mv <= 4095), "only the lowest counts are wrapped around");
        self.wrapped.push(lowest);
    }
}

/// From the least to the largest.
fn range<T: Ord + Display>(numbers: &[T]) -> String {
    let ends = numbers.iter().min().zip(numbers.iter().max());
    ends.map_or("none".into(), |(least, largest)| format!("{least} to {largest}"))
}

fn s2_units() {
    println!(
        "S2: version 1, unit 2, 0 dB, Vlow: {:?}; tag 9 is unit 0, Vhigh: {:?}",
        s2::skipped(1, 2, 0, 0),
        s2::skipped(1, 0, 0, 1)
    );
    println!("S2: version 2, unit 2, 0 dB, Vinit: {:?}", s2::skipped(2, 2, 0, 2));
    println!("S2: version 1, unit 64, 0 dB, Vlow: {:?}", s2::skipped(1, 64, 0, 0));
}

fn c6_init() {
    let init = |code: u32| {
        let (dump, mut map) = dump_and_map(MapChip::C6, &[code]);
        map[4] = 16;
        c6::init_code(&dump, &map, 1, 0, 0)
    };
    println!("C6: a 16-bit init code, first that panics: {}", first_panic(32768..=65535, init));
    println!("C6: a 16-bit init code 32768: {:?}", init(32768));
}

/// Every curve: chip, unit, attenuation.
fn curves() -> Vec<(Chip, u8, u8)> {
    let chips = [Chip::C3, Chip::C5, Chip::C6(1), Chip::C6(2), Chip::C61, Chip::H2, Chip::P4, Chip::S3];
    let all = chips.into_iter().flat_map(|chip| [0, 1].map(|unit| (chip, unit)));
    let all = all.flat_map(|(chip, unit)| [0, 1, 2, 3].map(|atten| (chip, unit, atten)));
    all.filter(|(chip, unit, atten)| curve::correct(*chip, *unit, *atten, 0) != Ok(None)).collect()
}

fn curve_inputs() {
    for (chip, unit, atten) in curves() {
        let panic = first_panic(0..=65535, |line| curve::correct(chip, unit, atten, line as u16));
        if panic != "none" {
            println!("curve: {chip:?}, unit {unit}, attenuation {atten}: first line answer that panics: {panic}");
        }
    }
    println!("curve: S3, unit 0, attenuation 3, line answer 4096: {:?}", curve::correct(Chip::S3, 0, 3, 4096));
}

fn curve_answers() {
    for (chip, unit, atten) in curves() {
        let answers: Vec<i32> =
            (0..4096).map(|line| curve::correct(chip, unit, atten, line).ok().flatten().map_or(-1, i32::from)).collect();
        let over = answers.iter().zip(0..).map(|(answer, line)| answer - line).max().unwrap_or(0);
        let under = answers.iter().zip(0..).map(|(answer, line)| line - answer).max().unwrap_or(0);
        let most = answers.iter().max().unwrap_or(&0);
        let falls: Vec<usize> = (1..4096).filter(|line| answers[*line] < answers[line - 1]).collect();
        let first = falls.first().map_or(String::new(), |line| {
            format!(", first from {} at {} to {} at {line}", answers[line - 1], line - 1, answers[*line])
        });
        println!(
            "curve: {chip:?}, unit {unit}, attenuation {atten}: at most {over} above the line and {under} below, \
             largest answer {most}, falls {} times{first}",
            falls.len()
        );
    }
}

/// How many 11 dB records by Vref have an answer that falls, and where the first does.
fn blends() {
    let mut falling = Vec::new();
    for unit in [0, 1] {
        for code in 0..32 {
            let (dump, map) = dump_and_map(MapChip::Esp32, &[code, 0, 0, 0, 0, 0]);
            let record = line::decode(&dump, &map, unit, 3).expect("a Vref record");
            let mv: Vec<u16> = (0..4096).map(|raw| line::convert(record, raw).expect("an answer")).collect();
            let falls: Vec<usize> = (1..4096).filter(|raw| mv[*raw] < mv[raw - 1]).collect();
            if let Some(raw) = falls.first() {
                falling.push(format!(
                    "Vref code {code}, unit {unit}: {} mV at {} and {} mV at {raw}",
                    mv[raw - 1],
                    raw - 1,
                    mv[*raw]
                ));
            }
            assert!(falls.iter().all(|raw| (2880..=2944).contains(raw)), "an answer falls outside the blend");
        }
    }
    println!(
        "line: of 64 records by Vref at 11 dB, the answer falls somewhere in the blend for {}; the first: {}",
        falling.len(),
        falling[0]
    );
}
