"""Why a call is turned down, and what to do about it, by number. The words are those of include/suongkivat.h, what to do is that of
docs/RULES.md; tests/test_header.py holds both to them.
"""
from __future__ import annotations

from typing import Optional

from . import raw

WORDS = {
    1: ("the dump hasn't 88 words", "dump the board again; a dump file has 352 bytes"),
    2: ("the map's length isn't its chip's", "take the map of this chip, and see that it is whole"),
    3: (
        "a map record's id isn't that of its place",
        "mend that record: ids in order, each once; look for a shifted byte",
    ),
    4: ("block above 10", "mend the block"),
    5: (
        "bit start above 255, or start + count past the block's own length, 32 bits a word",
        "mend bit start or count: a field stays inside its block; see that the list of block lengths is this chip's",
    ),
    6: ("a map record's bit count isn't its id's", "mend the count by the table of ids"),
    7: ("unit above 1 or attenuation above 3", "ask for a unit and an attenuation that exist"),
    8: ("count above 4095", "distrust the log: no converter of 12 bits gives it"),
    9: (
        "by the two points the line would begin below 0 mV",
        "see that the map is this board's; if it is, take no voltages from this unit at this attenuation. docs/DIFFERENCES.md says what "
        "firmware may make of it",
    ),
    10: (
        "line record outside its ranges, or by Vref with another a or b than its Vref's",
        "decode it again; a stored record was damaged, or is from before version 3.0",
    ),
    11: ("a stretch whose first count plus length is above 4096", "lend a shorter list"),
    12: (
        "no code in that version: S2 version not 2, or C6 version not 1 or 2",
        "this chip has no such code; esp-hal answers `None` there",
    ),
    13: ("line answer above 4095 given to the curve", "see where that voltage came from"),
    14: ("no curve for that chip and unit", "ask only for a chip and a unit that have a curve"),
    15: (
        "board above 1, or a sample's last byte above 7",
        "distrust the log: a byte was lost or the layout is another",
    ),
    16: ("log ends inside a record", "the log was cut off; what came before it stands"),
    18: (
        "a byte among a map record's last three isn't zero",
        "mend that byte: it is zero in every record; look for a shifted byte",
    ),
    20: (
        "the list of block lengths isn't eleven, or one of them is above 8",
        "take this chip's list of block lengths, whole: eleven bytes, each 0 to 8",
    ),
}

BIT_RANGE = 5
MAP_BYTE = 18
# The refusals of one record of a map, in their order. Reading a field gives 4 and 5 too, a view 4 and an S2's reading 5, but of no record.
OF_A_RECORD = 3, MAP_BYTE, 4, BIT_RANGE, 6


class Refused(ValueError):
    """A call was turned down. `number` says why, by the table of docs/RULES.md; `words` says it in words, and `advice` what to do.

    `record` is the number of the map's first bad record, from 0, where a call that takes a map gives 3, 18, 4, 5 or 6 for one of them; else
    None. `place` is at 18 that of this record's first byte that should be zero and isn't, 5, 6 or 7; else None.

    `at` is the place of the first count that was refused, where many were handed in at once; else None.
    """

    def __init__(
        self, number: int, at: Optional[int] = None, record: Optional[int] = None, place: Optional[int] = None
    ) -> None:
        super().__init__(number, at, record, place)
        self.number = number
        self.at = at
        self.record = record
        self.place = place
        unknown = "a number that this package doesn't know", "take the package of the library's version"
        self.words, self.advice = WORDS.get(number, unknown)

    def __str__(self) -> str:
        byte = "" if self.place is None else f", byte {self.place}"
        record = "" if self.record is None else f"map record {self.record}{byte}: "
        count = "" if self.at is None else f" (the count at place {self.at})"
        return f"refused {self.number}: {record}{self.words}{count}; {self.advice}"


def refused(refusal: raw.SkvRefusal, mapped: bool) -> Refused:
    """What a refusal of a call says, which takes a map or doesn't. C has 0 where no record and no place is told."""
    number = refusal.number
    record = refusal.record if mapped and number in OF_A_RECORD else None
    return Refused(number, record=record, place=refusal.place if number == MAP_BYTE else None)
