"""Many numbers at once: numpy's arrays where numpy is there, and plain lists where it isn't, with the same values."""
from __future__ import annotations

import operator
from ctypes import c_uint16
from typing import TYPE_CHECKING, Any, Callable, Iterable, List, Tuple, Union

try:
    import numpy
except ImportError:
    numpy = None  # type: ignore[assignment]

from .raw import COUNTS
from .refusals import Refused
from .units import Millivolt

if TYPE_CHECKING:
    from numpy.typing import NDArray

Numbers = Union[List[int], "NDArray[numpy.uint16]"]
TOO_LARGE = 8


def kind() -> str:
    """What many numbers are, in words."""
    return "lists" if numpy is None else f"arrays of numpy {numpy.__version__}"


def written(length: int, write: Callable[[Any, int], object]) -> Numbers:
    """So many numbers, as `write` writes them into the memory that it is lent."""
    # Empty memory too is at a place.
    memory = (c_uint16 * max(1, length))()
    write(memory, length)
    if numpy is None:
        return list(memory[:length])
    return numpy.frombuffer(memoryview(memory), dtype=numpy.uint16)[:length]


def written_lent(memory: Any) -> Tuple[Any, int]:
    """Memory for millivolts as two arguments: an array of numpy's or of the module array, ctypes' own, or any other that lends numbers of
    16 bits without sign, one after the other, to be written.
    """
    view = memoryview(memory)
    if view.readonly or view.ndim != 1 or not view.c_contiguous or view.format.lstrip("@=<") != "H":
        raise TypeError("millivolts are written into numbers of 16 bits without sign, one after the other: numpy.uint16, array('H')")
    if len(view) == 0:
        return (c_uint16 * 1)(), 0
    return (c_uint16 * len(view)).from_buffer(memory), len(view)


def looked_up(table: Numbers, counts: Union[Iterable[int], NDArray[Any]]) -> Numbers:
    """The millivolts of counts, in their order and shape, by a table of all counts."""
    if numpy is None:
        return [table[place] for place in _checked(counts)]
    if not isinstance(counts, numpy.ndarray):
        counts = numpy.array(_checked(counts), dtype=numpy.uint16)
    elif counts.dtype.kind not in "iu":
        raise TypeError(f"counts are whole numbers, and these are {counts.dtype}")
    elif counts.size:
        _first_bad(counts)
    return numpy.asarray(table)[counts]


def _checked(counts: Iterable[int]) -> List[int]:
    checked = []
    for at, count in enumerate(counts):
        if isinstance(count, Millivolt):
            raise TypeError(f"the number at place {at} is in millivolts, and counts are asked for")
        whole = operator.index(count)
        _look(whole, at)
        checked.append(whole)
    return checked


def _look(count: int, at: int) -> None:
    if count < 0:
        raise ValueError(f"the count at place {at} is {count}: it can't be below 0")
    if count >= COUNTS:
        raise Refused(TOO_LARGE, at)


def _first_bad(counts: Any) -> None:
    """The same over an array: the first count in its order that isn't one."""
    bad = (counts < 0) | (counts >= COUNTS)
    if bad.any():
        at = int(bad.argmax())
        _look(int(counts.flat[at]), at)
