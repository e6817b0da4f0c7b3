"""Curve correction of a line answer."""
from __future__ import annotations

from typing import Optional, SupportsIndex

from . import raw
from .library import ask
from .units import Chip, Millivolt, held, millivolt


def correct(
    chip: SupportsIndex,
    unit: SupportsIndex,
    attenuation: SupportsIndex,
    line_answer: SupportsIndex,
    minor_block_version: Optional[SupportsIndex] = None,
) -> Millivolt:
    """Corrects a line answer by the curve of its chip, unit and attenuation. A C6 has two curves, and goes by its minor block version,
    which has to be said; of other chips it isn't looked at. Refusals 7, 14, 13.
    """
    if minor_block_version is None:
        if chip == Chip.C6:
            raise TypeError("a C6's curve goes by its minor block version: correct(Chip.C6, .., minor_block_version=..)")
        minor_block_version = 0
    asked = held("a chip", chip, 8), held("a minor block version", minor_block_version, 8)
    by = held("a unit", unit, 8), held("an attenuation", attenuation, 8)
    return Millivolt(ask("skv_correct", *asked, *by, raw.SkvMillivolt(millivolt(line_answer))).voltage.mv)
