//! Faults of filling.
use suongkivat::{LineRecord, Millivolt};

use super::line::{line_alone, looked_up_at_6_db, not_held, sourced};
use super::outcome;
use crate::library::PROVED;
use crate::told::Outcome;

pub fn from_0(cal: LineRecord, first: u16, out: &mut [Millivolt]) -> Outcome {
    let past = usize::from(first) + out.len() > 4096;
    (PROVED.fill)(cal, if past { first } else { 0 }, out)
}

pub fn first_not_written(cal: LineRecord, first: u16, out: &mut [Millivolt]) -> Outcome {
    let before = out.first().copied();
    let told = (PROVED.fill)(cal, first, out);
    out.iter_mut().zip(before).for_each(|(number, before)| *number = before);
    told
}

pub fn nothing_written(cal: LineRecord, first: u16, out: &mut [Millivolt]) -> Outcome {
    (PROVED.fill)(cal, first, &mut out.to_vec())
}

pub fn first_repeated(cal: LineRecord, first: u16, out: &mut [Millivolt]) -> Outcome {
    let told = (PROVED.fill)(cal, first, out);
    if let Some(number) = out.first().copied() {
        out.fill(number);
    }
    told
}

/// A walk by additions that doesn't stop at 2880, where the stretch began below it.
pub fn line_through_blend(cal: LineRecord, first: u16, out: &mut [Millivolt]) -> Outcome {
    let told = (PROVED.fill)(cal, first, out);
    let below = 2945usize.saturating_sub(first.into()).min(out.len());
    if told == outcome(0) && first < 2880 {
        (PROVED.fill)(line_alone(cal), first, &mut out[..below]);
    }
    told
}

pub fn lookup_at_6_db(cal: LineRecord, first: u16, out: &mut [Millivolt]) -> Outcome {
    (PROVED.fill)(looked_up_at_6_db(cal), first, out)
}

pub fn by_any_line(cal: LineRecord, first: u16, out: &mut [Millivolt]) -> Outcome {
    (PROVED.fill)(not_held(cal), first, out)
}

/// 11, where the same would be given for a record without the fault that was found.
fn stretch_before(faultless: LineRecord, cal: LineRecord, first: u16, out: &mut [Millivolt]) -> Outcome {
    let told = (PROVED.fill)(cal, first, out);
    let past = || (PROVED.fill)(faultless, first, &mut out.to_vec()) == outcome(11);
    if told == outcome(10) && past() { outcome(11) } else { told }
}

/// The ranges first, then 11, and only then the line of a record by Vref, or whether there is such a source.
pub fn stretch_before_line(cal: LineRecord, first: u16, out: &mut [Millivolt]) -> Outcome {
    stretch_before(not_held(cal), cal, first, out)
}

pub fn stretch_before_source(cal: LineRecord, first: u16, out: &mut [Millivolt]) -> Outcome {
    stretch_before(sourced(cal), cal, first, out)
}

pub fn written_on_refusal(cal: LineRecord, first: u16, out: &mut [Millivolt]) -> Outcome {
    let told = (PROVED.fill)(cal, first, out);
    if told != outcome(0) {
        out.iter_mut().take(1).for_each(|number| *number = Millivolt(0));
    }
    told
}

pub fn refused_at_4096(cal: LineRecord, first: u16, out: &mut [Millivolt]) -> Outcome {
    let at_end = usize::from(first) + out.len() == 4096;
    (PROVED.fill)(cal, if at_end { first + 1 } else { first }, out)
}

pub fn wrapping_sum(cal: LineRecord, first: u16, out: &mut [Millivolt]) -> Outcome {
    let told = (PROVED.fill)(cal, first, out);
    let sum = first.wrapping_add(out.len() as u16);
    if told == outcome(11) && sum <= 4096 { outcome(0) } else { told }
}

pub fn stretch_before_record(cal: LineRecord, first: u16, out: &mut [Millivolt]) -> Outcome {
    let told = (PROVED.fill)(cal, first, out);
    let past = usize::from(first) + out.len() > 4096;
    if told == outcome(10) && past { outcome(11) } else { told }
}
