//! Curve correction.
use crate::{raw, Answer, Attenuation, Chip, Millivolt, Unit};

/// Corrects a line answer by the curve of its chip, unit and attenuation. The minor block version is looked at for a C6 alone.
///
/// # Errors
/// [`Unit`](crate::Reason::Unit), [`Curve`](crate::Reason::Curve), so too for a number that names no chip,
/// [`LineAnswer`](crate::Reason::LineAnswer).
#[inline]
pub fn correct(
    chip: Chip,
    minor_block_version: u8,
    unit: Unit,
    attenuation: Attenuation,
    line_answer: Millivolt,
) -> Answer<Millivolt> {
    let answer = raw::correct(chip.0, minor_block_version, unit.0, attenuation.0, line_answer);
    answer.refusal.or(answer.voltage)
}
