//! Suongkivat from Rust: the records of two boards, a few counts by each, and a log's samples as the desk program answers them. Run in
//! a folder with field.bin, reference.bin, map.bin, samples.bin and, where the chip has short blocks, lengths.bin; examples/run
//! builds it with the crate of bindings/rust.
use std::fs;
use std::io::ErrorKind;

use suongkivat::{
    dump_from_bytes, Answer, Attenuation, Board, Count, LineRecord, Log, Millivolt, Refusal, Session, Unit, EIGHTS,
};

/// A file's bytes; a missing one counts as empty.
fn load(name: &str) -> Vec<u8> {
    fs::read(name).unwrap_or_default()
}

/// A dump file has 352 bytes; one of another length is a dump without words, which each call refuses.
fn load_dump(name: &str) -> Vec<u32> {
    dump_from_bytes(&load(name)).map_or(Vec::new(), Vec::from)
}

/// How many words each block has: without a file eight, as the desk program has it.
fn load_lengths(name: &str) -> Vec<u8> {
    match fs::read(name) {
        Err(why) if why.kind() == ErrorKind::NotFound => EIGHTS.to_vec(),
        bytes => bytes.unwrap_or_default(),
    }
}

/// As the desk program says it; the refusal's own `Display` has the words.
fn refused(refusal: Refusal) -> String {
    format!("refused {}", refusal.number())
}

/// Why there is no record, and which record of the map is bad, where it is one.
fn undecoded(refusal: Refusal) -> String {
    let record = refusal.record.map_or_else(String::new, |record| format!(": map record {record}"));
    let byte = refusal.place.map_or_else(String::new, |place| format!(", byte {place}"));
    format!("{}{record}{byte}", refused(refusal))
}

fn told(answer: Answer<Millivolt>) -> String {
    answer.map_or_else(refused, |voltage| voltage.0.to_string())
}

/// A board's record for a unit and an attenuation, with where it comes from, and what it makes of a few counts.
fn print_record(name: char, board: Board, unit: Unit, attenuation: Attenuation) {
    print!("record {name}, unit {}, attenuation {}: ", unit.0, attenuation.0);
    match board.record(unit, attenuation) {
        Err(refusal) => println!("{}", undecoded(refusal)),
        Ok(record) => {
            let LineRecord { coeff_a, coeff_b, vref, attenuation, source, .. } = record;
            println!("by {source} at {attenuation}, a {coeff_a}, b {coeff_b}, Vref {vref}");
            for count in [0, 2880, 2912, 4095, 4096].map(Count) {
                println!("count {count}: {}", told(record.convert(count)));
            }
        }
    }
}

fn print_log(log: Log, session: Session, map: &[u8]) {
    for (k, sample) in log.enumerate() {
        match sample {
            Err(refusal) => println!("{}", refused(refusal)),
            Ok(sample) => {
                let board = ['F', 'R'].get(usize::from(sample.board)).unwrap_or(&'?');
                println!("{k} {board} {} {}", sample.raw, told(session.sample(map, sample)));
            }
        }
    }
}

fn main() {
    let (field, reference) = (load_dump("field.bin"), load_dump("reference.bin"));
    let (lengths, map, log) = (load_lengths("lengths.bin"), load("map.bin"), load("samples.bin"));
    let board = |dump| Board { dump, lengths: &lengths, map: &map };
    print_record('F', board(&field), Unit::ADC1, Attenuation::DB_11);
    print_record('F', board(&field), Unit::ADC2, Attenuation::DB_0);
    print_record('R', board(&reference), Unit::ADC1, Attenuation::DB_11);
    print_log(Log::new(&log), Session { field: &field, reference: &reference, lengths: &lengths }, &map);
}
