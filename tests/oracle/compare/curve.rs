//! Curves: every chip, unit and attenuation at every line answer.
use oracle::answers;
use oracle::curve::Chip;
use oracle::noise::Noise;
use oracle::rules::{self, Answer, Refusal};

use crate::input::Input;
use crate::library::Library;
use crate::strewn::{good_units_and_attens, units_and_attens};
use crate::tally::{Compared, Tally, told};

/// The number of the C6, whose curve goes by its minor version.
const C6: u8 = 4;

/// A number that names no chip has no curve.
fn wanted(chip: u8, minor: u8, unit: u8, atten: u8, line: u16) -> Answer<u16> {
    let Some(chip) = Chip::numbered(chip, minor) else { return rules::unit(unit, atten).and(Err(Refusal::numbered(14))) };
    answers::correct(chip, unit, atten, line)
}

pub fn correct(library: &Library, tally: &mut Tally, (chip, minor): (u8, u8), (unit, atten): (u8, u8), line: u16) -> Compared {
    let input = || {
        let input = Input::default().number("chip", chip).number("minor", minor).number("unit", unit);
        input.number("attenuation", atten).number("line answer", line)
    };
    let ours = (library.correct)(chip, minor, unit, atten, line);
    tally.same("correct", input, ours, || told(wanted(chip, minor, unit, atten, line)))
}

/// Every curve at every number that a line answer can be; a C6's at every minor version.
pub fn curves(library: &Library, tally: &mut Tally, _noise: &mut Noise) -> Compared {
    for chip in 0..9 {
        for at in good_units_and_attens() {
            (0..=65535).try_for_each(|line| correct(library, tally, (chip, 0), at, line))?;
        }
    }
    for minor in 1..=255 {
        for at in good_units_and_attens() {
            (0..4096).try_for_each(|line| correct(library, tally, (C6, minor), at, line))?;
        }
    }
    Ok(())
}

/// Every chip number with units, attenuations and line answers at and past their ends.
pub fn refused(library: &Library, tally: &mut Tally, _noise: &mut Noise) -> Compared {
    for (chip, minor) in (0..=255).flat_map(|chip| [0, 1, 2, 3, 255].map(|minor| (chip, minor))) {
        for at in units_and_attens() {
            for line in [0, 1, 2, 2500, 4095, 4096, 65535] {
                correct(library, tally, (chip, minor), at, line)?;
            }
        }
    }
    Ok(())
}
