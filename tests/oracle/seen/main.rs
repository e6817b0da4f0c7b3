//! Prints what docs/DIFFERENCES.md says of the crate, as seen on this build, and compares document 01's formulas with it. Exits 1 where
//! an answer differs.
mod compare;
mod seen;

use std::process::ExitCode;

fn main() -> ExitCode {
    println!("Document 01 and the crate, where both have an answer");
    let differ = compare::all();
    println!("\nWhere they differ, and what the crate's answers are like");
    seen::all();
    if differ == 0 { ExitCode::SUCCESS } else { ExitCode::FAILURE }
}
