"""Counts and millivolts, two kinds of whole number of which neither is taken for the other; chips; where a line record comes from;
and numbers on their way to C.
"""
from __future__ import annotations

import enum
import operator
from typing import SupportsIndex


class Count(int):
    """A raw reading of the converter: 0 to 4095. Calls that ask for a count take a plain number too, but no Millivolt."""


class Millivolt(int):
    """A voltage. Calls that ask for a voltage take a plain number too, but no Count."""


class Chip(enum.IntEnum):
    """The chips. Maps are those of ESP32, S2 and C6."""

    ESP32 = 0
    S2 = 1
    C3 = 2
    C5 = 3
    C6 = 4
    C61 = 5
    H2 = 6
    P4 = 7
    S3 = 8


class Source(enum.IntEnum):
    """Where a line record's a and b come from: the board's two calibration points, or the reference voltage alone."""

    TWO_POINT = 0
    VREF = 1


def held(what: str, number: SupportsIndex, bits: int) -> int:
    """A number as C holds it in so many bits. ctypes would cut a larger one, and 256 would be 0. The largest number that there is room
    for takes its place: every rule that looks at the number says the same of both.
    """
    whole = operator.index(number)
    if whole < 0:
        raise ValueError(f"{what} is {whole}: it can't be below 0")
    return min(whole, (1 << bits) - 1)


def count(number: SupportsIndex) -> int:
    """A count as C holds it."""
    if isinstance(number, Millivolt):
        raise TypeError(f"{int(number)} is in millivolts, and a count is asked for")
    return held("a count", number, 16)


def millivolt(number: SupportsIndex) -> int:
    """A voltage as C holds it."""
    if isinstance(number, Count):
        raise TypeError(f"{int(number)} is a count, and millivolts are asked for")
    return held("a voltage", number, 16)
