//! ESP32 line calibration: filling, at once and in stretches, and stretches that are turned down.
use oracle::noise::Noise;
use oracle::{Panic, answers, quietly};
use suongkivat::{LineRecord, Millivolt};

use crate::input::Input;
use crate::library::Library;
use crate::records;
use crate::tally::{Compared, Difference, Lent, Tally, outcome};
use crate::told::{Outcome, Refused};

/// Numbers of a table.
const TABLE: usize = 4096;

/// What lent numbers are before a call.
const BEFORE: Millivolt = Millivolt(0xA5A5);

/// From a count to the one before another.
type Stretch = (usize, usize);

fn input(record: LineRecord, first: usize, n: usize) -> Input {
    records::input(record).number("first count", first as u64).number("numbers lent", n as u64)
}

/// Stretches that cover the table, in any order; some overlap, some are empty.
fn covering(noise: &mut Noise) -> Vec<Stretch> {
    let mut cuts: Vec<usize> = (0..noise.within(1, 40)).map(|_| noise.below(4097) as usize).collect();
    cuts.extend([0, TABLE]);
    cuts.sort();
    let mut stretches: Vec<Stretch> = cuts.windows(2).map(|cut| (cut[0], cut[1])).collect();
    for _ in 0..noise.below(5) {
        let first = noise.below(4097);
        stretches.push((first as usize, noise.within(first, 4096) as usize));
    }
    for k in 1..stretches.len() {
        stretches.swap(k, noise.below(k as u32 + 1) as usize);
    }
    stretches
}

/// Fills a table, each stretch lent as the table's own part that starts at its first count. After each the whole table is looked at:
/// the stretch has the crate's answers, and all else is as it was.
fn fill_in(library: &Library, tally: &mut Tally, record: LineRecord, crates: &[Millivolt], stretches: &[Stretch]) -> Compared {
    let (mut table, mut wanted) = (vec![BEFORE; TABLE], vec![BEFORE; TABLE]);
    for (first, end) in stretches.iter().copied() {
        let ours = (library.fill)(record, first as u16, &mut table[first..end]);
        tally.same("fill", || input(record, first, end - first), ours, || Outcome { refused: Refused::NOT })?;
        wanted[first..end].copy_from_slice(&crates[first..end]);
        tally.same_table("fill", || input(record, first, end - first), [&table, &wanted], first..end)?;
    }
    assert_eq!(wanted, crates, "the stretches cover the table");
    Ok(())
}

/// Fills a whole table, and holds it to the crate's.
pub fn at_once(library: &Library, tally: &mut Tally, record: LineRecord, crates: &[Millivolt]) -> Compared {
    fill_in(library, tally, record, crates, &[(0, TABLE)])
}

/// The crate's whole table. Where the oracle stops, that is the difference.
fn crates_table(record: LineRecord) -> Result<Vec<Millivolt>, Box<Difference>> {
    let table = quietly(|| answers::fill(records::crates(record), 0, TABLE).expect("a good record"));
    let difference = |wanted| Difference { call: "fill", input: input(record, 0, TABLE), ours: "not asked".into(), wanted };
    let millivolts = |table: Vec<u16>| table.into_iter().map(Millivolt).collect();
    table.map(millivolts).map_err(|Panic(said)| Box::new(difference(said)))
}

/// Every record's table at once, in halves, count by count for some, and in stretches.
pub fn fill(library: &Library, tally: &mut Tally, noise: &mut Noise) -> Compared {
    let one_by_one: Vec<Stretch> = (0..TABLE).map(|count| (count, count + 1)).collect();
    for (k, record) in records::all(noise).into_iter().enumerate() {
        let crates = crates_table(record)?;
        at_once(library, tally, record, &crates)?;
        fill_in(library, tally, record, &crates, &[(0, 2880), (2880, TABLE)])?;
        fill_in(library, tally, record, &crates, &covering(noise))?;
        if k % 64 == 0 {
            fill_in(library, tally, record, &crates, &one_by_one)?;
        }
    }
    Ok(())
}

/// Lends the first n of some more numbers, and compares them all after the call.
pub fn stretch(library: &Library, tally: &mut Tally, record: LineRecord, first: u16, n: usize) -> Compared {
    let behind = 8;
    let mut numbers = vec![BEFORE; n + behind];
    let ours = (library.fill)(record, first, &mut numbers[..n]);
    let numbers = numbers.into_iter().map(|Millivolt(mv)| mv).collect();
    let wanted = || {
        let answer = answers::fill(records::crates(record), first, n);
        let mut after = vec![BEFORE.0; n + behind];
        answer.iter().for_each(|filled| after[..n].copy_from_slice(filled));
        Lent(outcome(&answer), after)
    };
    tally.same("fill", || input(record, first.into(), n), Lent(ours, numbers), wanted)
}

/// Stretches at and past the table's end: every first count with short ones, every length, far ones; records outside their ranges.
pub fn ends(library: &Library, tally: &mut Tally, noise: &mut Noise) -> Compared {
    let all = records::all(noise);
    for first in 0..=65535 {
        [0, 1, 2].into_iter().try_for_each(|n| stretch(library, tally, all[usize::from(first) % all.len()], first, n))?;
    }
    for n in 0..=4100 {
        let last = 4096usize.saturating_sub(n) as u16;
        [last, last + 1].into_iter().try_for_each(|first| stretch(library, tally, all[n % all.len()], first, n))?;
    }
    let outside = records::outside();
    for record in outside.chain([all[0], all[all.len() / 2], all[all.len() - 1]]) {
        for first in [0, 1, 2880, 4095, 4096, 4097, 61440, 65535] {
            for n in [0, 1, 64, 4096, 4097, 65535, 65536, 70_000] {
                stretch(library, tally, record, first, n)?;
            }
        }
    }
    Ok(())
}
