"""The C6's calibration."""
from __future__ import annotations

from typing import SupportsIndex, Tuple

from .lent import Bytes, DumpSource, Lengths, bytes_lent, dump_lent, lengths_lent
from .library import ask, loaded
from .units import Millivolt, held


def _asked(minor: SupportsIndex, unit: SupportsIndex, attenuation: SupportsIndex) -> Tuple[int, int, int]:
    return held("a minor block version", minor, 8), held("a unit", unit, 8), held("an attenuation", attenuation, 8)


def version(minor_block_version: SupportsIndex) -> int:
    """The calibration's version: 1 or 2, or 0 where there is none. No refusal."""
    return int(loaded().calls.skv_c6_version(held("a minor block version", minor_block_version, 8)))


def init_code(
    dump: DumpSource,
    lengths: Lengths,
    field_map: Bytes,
    minor_block_version: SupportsIndex,
    unit: SupportsIndex,
    attenuation: SupportsIndex,
) -> int:
    """The initial code. Refusals 1, 20, 7, the map's, 12."""
    lent = (*dump_lent(dump), *lengths_lent(lengths), *bytes_lent(field_map))
    return int(ask("skv_c6_init_code", *lent, *_asked(minor_block_version, unit, attenuation)).code)


def cal_code(
    dump: DumpSource,
    lengths: Lengths,
    field_map: Bytes,
    minor_block_version: SupportsIndex,
    unit: SupportsIndex,
    attenuation: SupportsIndex,
) -> int:
    """The code at the reference voltage. Refusals 1, 20, 7, the map's, 12."""
    lent = (*dump_lent(dump), *lengths_lent(lengths), *bytes_lent(field_map))
    return int(ask("skv_c6_cal_code", *lent, *_asked(minor_block_version, unit, attenuation)).code)


def get_chan_compens(
    dump: DumpSource,
    lengths: Lengths,
    field_map: Bytes,
    unit: SupportsIndex,
    channel: SupportsIndex,
    attenuation: SupportsIndex,
) -> int:
    """A channel's compensation; channels 6 and up use channel 6. Refusals 1, 20, 7, the map's."""
    lent = (*dump_lent(dump), *lengths_lent(lengths), *bytes_lent(field_map))
    asked = held("a unit", unit, 8), held("a channel", channel, 8), held("an attenuation", attenuation, 8)
    return int(ask("skv_c6_get_chan_compens", *lent, *asked).value)


def cal_mv(minor_block_version: SupportsIndex, unit: SupportsIndex, attenuation: SupportsIndex) -> Millivolt:
    """The reference voltage of an attenuation. Refusal 7."""
    return Millivolt(ask("skv_c6_cal_mv", *_asked(minor_block_version, unit, attenuation)).voltage.mv)
