//! main OURS RELEASE CHECKED WHOLE: times the calls of four shared objects on the same inputs, and prints a table. `bench/run` builds
//! them.
mod binding;
mod blocks;
mod calls;
mod line;
mod rows;
mod s2;
mod timing;

use rows::{Bench, Held, Row};

fn told(held: &Held) -> String {
    let ratio = &held.ratio;
    let bar = held.bar.map_or(String::new(), |bar| format!("{bar:.2}"));
    let reached = held.reached().map_or("", |reached| if reached { " yes" } else { " NO" });
    format!("{:.2} | {:.2} to {:.2} | {bar}{reached}", ratio.middle, ratio.low, ratio.high)
}

fn line(row: &Row) -> String {
    let builds: Vec<_> = (0..3).map(|k| row.held.get(k).map_or("| |".to_string(), told)).collect();
    format!("| {} | {} | {:.2} | {} |", row.work, row.against, row.nanoseconds, builds.join(" | "))
}

fn main() {
    let paths: Vec<_> = std::env::args().skip(1).collect();
    let [ours, release, checked, whole] = &paths[..] else { panic!("usage: main OURS RELEASE CHECKED WHOLE") };
    let rows = Bench::open(ours, release, checked, whole).rows();
    println!(
        "| work | against | ours, ns | ratio | middle half | bar | with overflow checks | middle half | bar | with fat LTO \
         | middle half | bar |"
    );
    println!("|---|---|---|---|---|---|---|---|---|---|---|---|");
    rows.iter().for_each(|row| println!("{}", line(row)));
    let reached: Vec<_> = rows.iter().flat_map(|row| &row.held).filter_map(Held::reached).collect();
    println!("\n{} bars, {} not reached", reached.len(), reached.iter().filter(|reached| !**reached).count());
}
