"""Where the project's files stand, and what the tests share."""
import pathlib
import struct

import suongkivat

ROOT = pathlib.Path(__file__).resolve().parents[3]
HEADER = (ROOT / "include/suongkivat.h").read_text()
CRATES = ROOT / "crates"
DAY = ROOT / "examples/day"


def answered(call, *arguments):
    """A call's number, and its value, 0 beside a refusal: as the lists have it."""
    try:
        return 0, call(*arguments)
    except suongkivat.Refused as refused:
        return refused.number, 0


def number_of(call, *arguments):
    return answered(call, *arguments)[0]


def told(call, *arguments):
    """A call's number, the map's record and the byte's place that it tells, each None where it tells none, and its value."""
    try:
        return 0, None, None, call(*arguments)
    except suongkivat.Refused as refused:
        return refused.number, refused.record, refused.place, 0


def field_map(*places):
    """A map of records of an id, a block, a bit start and a bit count."""
    return b"".join(struct.pack("<BBHB3x", *place) for place in places)
