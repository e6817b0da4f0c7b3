"""Fields of a dump, and maps."""
from __future__ import annotations

from ctypes import c_uint8
from typing import SupportsIndex

from . import raw
from .lent import Bytes, Dump, DumpSource, Lengths, bytes_lent, dump_lent, lengths_lent
from .library import ask
from .units import held


def _field(block: SupportsIndex, bit_start: SupportsIndex, bit_count: SupportsIndex) -> raw.SkvField:
    return raw.SkvField(held("a block", block, 8), held("a bit start", bit_start, 16), held("a bit count", bit_count, 16))


def read_field_u8(
    dump: DumpSource, lengths: Lengths, block: SupportsIndex, bit_start: SupportsIndex, bit_count: SupportsIndex
) -> int:
    """A field's low 8 bits. Refusals 1, 20, 4, 5."""
    lent = (*dump_lent(dump), *lengths_lent(lengths))
    return int(ask("skv_read_field_u8", *lent, _field(block, bit_start, bit_count)).value)


def read_field_u16(
    dump: DumpSource, lengths: Lengths, block: SupportsIndex, bit_start: SupportsIndex, bit_count: SupportsIndex
) -> int:
    """A field's low 16 bits. Refusals 1, 20, 4, 5."""
    lent = (*dump_lent(dump), *lengths_lent(lengths))
    return int(ask("skv_read_field_u16", *lent, _field(block, bit_start, bit_count)).value)


def read_field_u32(
    dump: DumpSource, lengths: Lengths, block: SupportsIndex, bit_start: SupportsIndex, bit_count: SupportsIndex
) -> int:
    """A field's low 32 bits. Refusals 1, 20, 4, 5."""
    lent = (*dump_lent(dump), *lengths_lent(lengths))
    return int(ask("skv_read_field_u32", *lent, _field(block, bit_start, bit_count)).value)


def read_field_le(
    dump: DumpSource,
    lengths: Lengths,
    block: SupportsIndex,
    bit_start: SupportsIndex,
    bit_count: SupportsIndex,
    length: SupportsIndex,
) -> bytes:
    """A field as so many bytes, low first, with zeros behind its last bit. Refusals 1, 20, 4, 5."""
    n = held("a length", length, 64)
    # Empty memory too is at a place.
    memory = (c_uint8 * max(1, n))()
    lent = (*dump_lent(dump), *lengths_lent(lengths))
    ask("skv_read_field_le", *lent, _field(block, bit_start, bit_count), memory, n)
    return bytes(memory[:n])


def check_map(chip: SupportsIndex, lengths: Lengths, field_map: Bytes) -> None:
    """Raises Refused where a map isn't its chip's, whose blocks have these lengths; no map is that of a chip other than ESP32, S2 and C6.
    Refusals 20, and the map's: 2, and then of each record from first to last 3, 18, 4, 5, 6, with the `record` that it is.
    """
    ask("skv_check_map", held("a chip", chip, 8), *lengths_lent(lengths), *bytes_lent(field_map))


def view(field_dump: Dump, reference_dump: Dump, lengths: Lengths, board: SupportsIndex, block: SupportsIndex) -> memoryview:
    """The words that a board's block has, perhaps none, as a part of its dump, not copied. Only the chosen dump is looked at.
    Refusals 15, 1, 20, 4.
    """
    lent = (*field_dump.lent, *reference_dump.lent, *lengths_lent(lengths))
    found = ask("skv_view", *lent, held("a board", board, 8), held("a block", block, 8))
    return (field_dump if found.board == 0 else reference_dump).part(found.first, found.words)
