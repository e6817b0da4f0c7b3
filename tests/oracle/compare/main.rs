//! The proved library, called through its binding for Rust, against document 01 and the crate, in one process.
//! Exit 1 at the first difference; with --self-check, where a seeded fault is missed. With --fault the library has that fault.
mod ask;
mod c6;
mod convert;
mod curve;
mod decode;
mod faults;
mod fields;
mod fill;
mod firmware;
mod fuses;
mod input;
mod lengths;
mod library;
mod logs;
mod maps;
mod orders;
mod parts;
mod records;
mod s2;
mod self_check;
mod smaller;
mod strewn;
mod tally;
mod told;
mod vref;

use std::process::ExitCode;
use std::time::{Duration, Instant};

use library::{Library, PROVED};
use parts::PARTS;
use tally::Tally;

const SEED: u64 = 20_261_115;

/// A number with its thousands apart.
fn apart(number: u64) -> String {
    let digits = number.to_string();
    let groups: Vec<&str> = digits.as_bytes().rchunks(3).rev().map(|group| str::from_utf8(group).expect("digits")).collect();
    groups.join(",")
}

/// A row of the table.
fn row(name: &str, tally: &Tally, took: Duration) -> String {
    let numbers: Vec<String> = tally.numbers.iter().map(u8::to_string).collect();
    let (compared, refused, took) = (apart(tally.compared), apart(tally.refused), took.as_secs_f64());
    format!("{name:22}{compared:>12}{refused:>12}{took:>7.1} s  {}", numbers.join(" "))
}

/// All parts on a library: a line as each begins, and a table at the end.
fn compare(library: &Library, seed: u64) -> ExitCode {
    let mut table = vec![format!("{:22}{:>12}{:>12}{:>9}  {}", "part", "compared", "refusals", "time", "their numbers")];
    let (mut all, started) = (Tally::default(), Instant::now());
    for (k, part) in PARTS.iter().enumerate() {
        println!("{} of {}: {}", k + 1, PARTS.len(), part.name);
        let (mut tally, started) = (Tally::default(), Instant::now());
        if let Err(difference) = part.compare(library, &mut tally, seed) {
            println!("DIFFERENT\n{difference}");
            return ExitCode::FAILURE;
        }
        table.push(row(part.name, &tally, started.elapsed()));
        all.compared += tally.compared;
        all.refused += tally.refused;
        all.numbers.extend(tally.numbers);
    }
    table.push(row("all", &all, started.elapsed()));
    println!("\n{}\nno difference", table.join("\n"));
    ExitCode::SUCCESS
}

fn usage() -> ! {
    eprintln!("usage: compare [--seed N] [--self-check | --fault PART:NAME]");
    std::process::exit(2)
}

fn main() -> ExitCode {
    let (mut seed, mut library, mut checks_itself) = (SEED, PROVED, false);
    let mut arguments = std::env::args().skip(1);
    while let Some(argument) = arguments.next() {
        match argument.as_str() {
            "--self-check" => checks_itself = true,
            "--seed" => seed = arguments.next().and_then(|seed| seed.parse().ok()).unwrap_or_else(|| usage()),
            "--fault" => library = arguments.next().and_then(|name| faults::named(&name)).unwrap_or_else(|| usage()),
            _ => usage(),
        }
    }
    println!("seed {seed}");
    if checks_itself { self_check::self_check(seed) } else { compare(&library, seed) }
}
