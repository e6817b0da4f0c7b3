//! Does the comparison notice a wrong library? Each seeded fault must be caught by its part; each part and each call must have one.
use std::collections::BTreeSet;
use std::process::ExitCode;

use crate::faults::{self, Fault};
use crate::input::Input;
use crate::library::CALLS;
use crate::parts::{PARTS, Part};
use crate::tally::Tally;

/// Tells the faults of a part that it catches, each with its smallest input, and gives the calls that they are seen in.
fn caught(part: &Part, faults: &[Fault], seed: u64) -> Vec<&'static str> {
    let of_part = faults.iter().filter(|fault| fault.part == part.name);
    println!("{}", part.name);
    let mut caught = Vec::new();
    for fault in of_part {
        match part.compare(&fault.library, &mut Tally::default(), seed) {
            Err(difference) => {
                println!("  caught: {}\n{difference}", fault.name);
                caught.push(difference.call);
            }
            Ok(()) => println!("  MISSED: {}", fault.name),
        }
    }
    caught
}

/// An oracle that stops, as it does where document 01 and the crate differ, counts as a difference.
fn stop_is_difference() -> bool {
    let stopped = Tally::default().same("c6_version", Input::default, 0, || panic!("stopped"));
    stopped.is_err_and(|difference| difference.wanted == "stopped")
}

pub fn self_check(seed: u64) -> ExitCode {
    let faults = faults::all();
    let (mut caught_in_all, mut calls, mut idle) = (0, BTreeSet::new(), Vec::new());
    for part in &PARTS {
        let caught = caught(part, &faults, seed);
        caught_in_all += caught.len();
        idle.extend(caught.is_empty().then_some(part.name));
        calls.extend(caught);
    }
    idle.extend(CALLS.iter().filter(|call| !calls.contains(*call)));
    println!("{} faults, {} missed", faults.len(), faults.len() - caught_in_all);
    println!("{} parts and {} calls; without a fault that was caught: {idle:?}", PARTS.len(), CALLS.len());
    let good = caught_in_all == faults.len() && idle.is_empty() && stop_is_difference();
    if good { ExitCode::SUCCESS } else { ExitCode::FAILURE }
}
