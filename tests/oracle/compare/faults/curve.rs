//! Faults of curves.
use super::{good, refused, swapped};
use crate::library::PROVED;
use crate::told::Told;

const C3: u8 = 2;
const C6: u8 = 4;
const H2: u8 = 6;

/// Where the answer is above the line the error is below 0, and flooring takes one more away from it.
pub fn floored(chip: u8, minor: u8, unit: u8, atten: u8, line: u16) -> Told<u16> {
    let told = (PROVED.correct)(chip, minor, unit, atten, line);
    if told.refused.number() == 0 && told.value > line { good(told.value + 1) } else { told }
}

/// Large enough that it shows from 4000 on.
pub fn larger_coefficient(chip: u8, minor: u8, unit: u8, atten: u8, line: u16) -> Told<u16> {
    let told = (PROVED.correct)(chip, minor, unit, atten, line);
    let shows = (chip, unit, atten) == (H2, 0, 0) && line >= 4000;
    if told.refused.number() == 0 && shows { good(told.value - 1) } else { told }
}

pub fn first_table(chip: u8, minor: u8, unit: u8, atten: u8, line: u16) -> Told<u16> {
    (PROVED.correct)(chip, if (chip, minor) == (C6, 3) { 1 } else { minor }, unit, atten, line)
}

pub fn no_second_unit(chip: u8, minor: u8, unit: u8, atten: u8, line: u16) -> Told<u16> {
    let told = (PROVED.correct)(chip, minor, unit, atten, line);
    if told.refused.number() == 0 && (chip, unit) == (C3, 1) { refused(14) } else { told }
}

pub fn line_4096(chip: u8, minor: u8, unit: u8, atten: u8, line: u16) -> Told<u16> {
    (PROVED.correct)(chip, minor, unit, atten, if line == 4096 { 4095 } else { line })
}

pub fn curve_before_unit(chip: u8, minor: u8, unit: u8, atten: u8, line: u16) -> Told<u16> {
    swapped((PROVED.correct)(chip, minor, unit, atten, line), 7, 14, || (PROVED.correct)(chip, minor, unit.min(1), 0, line))
}

pub fn line_before_curve(chip: u8, minor: u8, unit: u8, atten: u8, line: u16) -> Told<u16> {
    swapped((PROVED.correct)(chip, minor, unit, atten, line), 14, 13, || (PROVED.correct)(C3, minor, unit, atten, line))
}

pub fn no_chip(chip: u8, minor: u8, unit: u8, atten: u8, line: u16) -> Told<u16> {
    if chip > 8 { refused(7) } else { (PROVED.correct)(chip, minor, unit, atten, line) }
}
