"""The S2's calibration, and whether its flash is encrypted."""
from __future__ import annotations

from typing import SupportsIndex, Tuple

from .fields import check_map
from .lent import Bytes, DumpSource, Lengths, bytes_lent, dump_lent, lengths_lent
from .library import ask
from .refusals import BIT_RANGE, Refused
from .units import Chip, Millivolt, held


def _asked(unit: SupportsIndex, attenuation: SupportsIndex) -> Tuple[int, int]:
    return held("a unit", unit, 8), held("an attenuation", attenuation, 8)


def version(dump: DumpSource, lengths: Lengths, field_map: Bytes) -> int:
    """The calibration's version. Refusals 1, 20, the map's."""
    return int(ask("skv_s2_version", *dump_lent(dump), *lengths_lent(lengths), *bytes_lent(field_map)).version)


def _reading(
    call: str, dump: DumpSource, lengths: Lengths, version: SupportsIndex, unit: SupportsIndex, attenuation: SupportsIndex
) -> int:
    lent = (*dump_lent(dump), *lengths_lent(lengths))
    return int(ask(call, *lent, held("a version", version, 8), *_asked(unit, attenuation)).value)


def reading_vlow(
    dump: DumpSource, lengths: Lengths, version: SupportsIndex, unit: SupportsIndex, attenuation: SupportsIndex
) -> int:
    """The low voltage's reading by a version, 0 where the two don't pair. Refusals 1, 20, 7, 5 where a field that it reads lies past
    block 2's own length.
    """
    return _reading("skv_s2_reading_vlow", dump, lengths, version, unit, attenuation)


def reading_vhigh(
    dump: DumpSource, lengths: Lengths, version: SupportsIndex, unit: SupportsIndex, attenuation: SupportsIndex
) -> int:
    """The high voltage's reading by a version, 0 where the two don't pair. Refusals 1, 20, 7, 5 where a field that it reads lies past
    block 2's own length.
    """
    return _reading("skv_s2_reading_vhigh", dump, lengths, version, unit, attenuation)


def reading_vinit(
    dump: DumpSource, lengths: Lengths, version: SupportsIndex, unit: SupportsIndex, attenuation: SupportsIndex
) -> int:
    """The initial code's reading by a version, 0 where the two don't pair. Refusals 1, 20, 7, 5 where a field that it reads lies past
    block 2's own length.
    """
    return _reading("skv_s2_reading_vinit", dump, lengths, version, unit, attenuation)


def skipped_vlow(version: SupportsIndex, unit: SupportsIndex, attenuation: SupportsIndex) -> int:
    """`reading_vlow` with the eFuse skipped. Refusal 7."""
    return int(ask("skv_s2_skipped_vlow", held("a version", version, 8), *_asked(unit, attenuation)).value)


def skipped_vhigh(version: SupportsIndex, unit: SupportsIndex, attenuation: SupportsIndex) -> int:
    """`reading_vhigh` with the eFuse skipped. Refusal 7."""
    return int(ask("skv_s2_skipped_vhigh", held("a version", version, 8), *_asked(unit, attenuation)).value)


def skipped_vinit(version: SupportsIndex, unit: SupportsIndex, attenuation: SupportsIndex) -> int:
    """`reading_vinit` with the eFuse skipped. Refusal 7."""
    return int(ask("skv_s2_skipped_vinit", held("a version", version, 8), *_asked(unit, attenuation)).value)


def _code(
    call: str, dump: DumpSource, lengths: Lengths, field_map: Bytes, unit: SupportsIndex, attenuation: SupportsIndex
) -> int:
    listed, mapped = lengths_lent(lengths), bytes_lent(field_map)
    try:
        return int(ask(call, *dump_lent(dump), *listed, *mapped, *_asked(unit, attenuation)).code)
    except Refused as refused:
        # C's 5 of the map's record 0 and its 5 of a reading, which is no record's, are the same three bytes. The map is checked before
        # anything is read: where it is good, a reading was meant.
        if refused.number != BIT_RANGE:
            raise
    check_map(Chip.S2, listed[0], mapped[0])
    raise Refused(BIT_RANGE)


def init_code(dump: DumpSource, lengths: Lengths, field_map: Bytes, unit: SupportsIndex, attenuation: SupportsIndex) -> int:
    """The initial code. Refusals 1, 20, 7, the map's, 12, 5 as of a reading, which tells no record."""
    return _code("skv_s2_init_code", dump, lengths, field_map, unit, attenuation)


def cal_code(dump: DumpSource, lengths: Lengths, field_map: Bytes, unit: SupportsIndex, attenuation: SupportsIndex) -> int:
    """The code at the reference voltage. Refusals 1, 20, 7, the map's, 12, 5 as of a reading, which tells no record."""
    return _code("skv_s2_cal_code", dump, lengths, field_map, unit, attenuation)


def cal_mv(unit: SupportsIndex, attenuation: SupportsIndex) -> Millivolt:
    """The reference voltage of an attenuation. Refusal 7."""
    return Millivolt(ask("skv_s2_cal_mv", *_asked(unit, attenuation)).voltage.mv)


def flash_encryption(dump: DumpSource, lengths: Lengths, field_map: Bytes) -> bool:
    """Whether flash encryption is on. Refusals 1, 20, the map's."""
    lent = (*dump_lent(dump), *lengths_lent(lengths), *bytes_lent(field_map))
    return bool(ask("skv_s2_flash_encryption", *lent).on)
