"""What a call is lent to read: a dump's words, a list of block lengths, and the bytes of a map or a log."""
from __future__ import annotations

import operator
import os
import pathlib
from ctypes import Array, c_uint32
from typing import Any, Iterable, List, SupportsIndex, Tuple, Union, cast

from . import raw, units

# Whatever has bytes: bytes, bytearray, memoryview, an array of bytes; or the name of a file that has them.
Bytes = Union[bytes, bytearray, memoryview, str, "os.PathLike[str]"]


def bytes_of(source: Bytes) -> bytes:
    """The bytes themselves, or those of the file that is named."""
    if isinstance(source, bytes):
        return source
    if isinstance(source, (str, os.PathLike)):
        return pathlib.Path(source).read_bytes()
    view = memoryview(source)
    if view.itemsize != 1:
        raise TypeError(f"bytes are asked for, and these are numbers of {view.itemsize} bytes each")
    return view.tobytes()


def bytes_lent(source: Bytes) -> Tuple[bytes, int]:
    """Bytes as two arguments."""
    held = bytes_of(source)
    return held, len(held)


# How many words each block has: bytes as above, or the numbers.
Lengths = Union[Bytes, Iterable[SupportsIndex]]


def lengths_of(source: Lengths) -> bytes:
    """A list of block lengths, a byte each. A number that a byte has no room for is the largest: both are refused (20)."""
    if _has_bytes(source):
        return bytes_of(cast(Bytes, source))
    return bytes(units.held("a block's length", length, 8) for length in cast(Iterable[SupportsIndex], source))


def lengths_lent(source: Lengths) -> Tuple[bytes, int]:
    """A list of block lengths as two arguments."""
    return bytes_lent(lengths_of(source))


class Dump:
    """A board's eFuse: a file or its bytes, 352 of them, each word low byte first; or the 88 words. Bytes of another length are a dump
    without words, and every call that reads one refuses it (1).
    """

    def __init__(self, source: DumpSource) -> None:
        words = source.words if isinstance(source, Dump) else _words(source)
        # Empty memory too is at a place.
        self._memory: Array[c_uint32] = (c_uint32 * max(1, len(words)))(*words)
        self._length = len(words)

    @property
    def words(self) -> List[int]:
        return list(self._memory[: self._length])

    @property
    def lent(self) -> Tuple[Array[c_uint32], int]:
        """The words as two arguments."""
        return self._memory, self._length

    def part(self, first: int, words: int) -> memoryview:
        """Words of the dump, which are not copied."""
        return memoryview(self._memory).cast("B").cast("I")[first : first + words].toreadonly()

    def __len__(self) -> int:
        return self._length

    def __repr__(self) -> str:
        return f"<Dump of {self._length} words>"


DumpSource = Union[Dump, Bytes, Iterable[SupportsIndex]]


def dump_lent(source: DumpSource) -> Tuple[Array[c_uint32], int]:
    """A dump as two arguments."""
    return (source if isinstance(source, Dump) else Dump(source)).lent


def _words(source: Union[Bytes, Iterable[SupportsIndex]]) -> List[int]:
    if not _has_bytes(source):
        return [_word(word) for word in cast(Iterable[SupportsIndex], source)]
    held = bytes_of(cast(Bytes, source))
    if len(held) != 4 * raw.DUMP_WORDS:
        return []
    return [int.from_bytes(held[k : k + 4], "little") for k in range(0, len(held), 4)]


def _has_bytes(source: Any) -> bool:
    if isinstance(source, (str, os.PathLike)):
        return True
    try:
        return memoryview(source).itemsize == 1
    except TypeError:
        return False


def _word(number: SupportsIndex) -> int:
    word = operator.index(number)
    if not 0 <= word < 1 << 32:
        raise ValueError(f"{word} is no word of a dump: a word has 32 bits")
    return word
