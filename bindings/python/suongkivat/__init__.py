"""Suongkivat for Python: the raw ADC counts of ESP32 boards and their kin into millivolts, by the proved library, over ctypes.

    board = suongkivat.Board("field.bin", suongkivat.EIGHTS, "map.bin")
    record = board.record(unit=0, attenuation=3)      # ADC1 at 11 dB
    record.convert(2880)                              # millivolts
    record.millivolts([0, 2880, 4095])                # of many counts: an array where numpy is there, else a list

EIGHTS is the list of block lengths of a chip whose blocks all have eight words; one whose first blocks are shorter has another.

A call that is turned down raises Refused, with the number of docs/RULES.md, its words and what to do. Units are 0 and 1; attenuations
0, 1, 2, 3 are 0, 2.5, 6 and 11 dB. `python3 -m suongkivat` tells which library is used.
"""
from . import c6, s2
from .boards import Answer, Board, Session
from .curve import correct
from .fields import check_map, read_field_le, read_field_u8, read_field_u16, read_field_u32, view
from .lent import Dump
from .library import LibraryMissing
from .line import LineRecord, decode
from .logs import Sample, next_sample, samples
from .raw import BLOCKS, C6_MAP_BYTES, COUNTS, DUMP_WORDS, EIGHTS, ESP32_MAP_BYTES, S2_MAP_BYTES, SAMPLE_BYTES
from .raw import VERSION as __version__
from .refusals import WORDS, Refused
from .units import Chip, Count, Millivolt, Source

__all__ = [
    "Answer",
    "BLOCKS",
    "Board",
    "C6_MAP_BYTES",
    "COUNTS",
    "Chip",
    "Count",
    "DUMP_WORDS",
    "Dump",
    "EIGHTS",
    "ESP32_MAP_BYTES",
    "LibraryMissing",
    "LineRecord",
    "Millivolt",
    "Refused",
    "S2_MAP_BYTES",
    "SAMPLE_BYTES",
    "Sample",
    "Session",
    "Source",
    "WORDS",
    "__version__",
    "c6",
    "check_map",
    "correct",
    "decode",
    "next_sample",
    "read_field_le",
    "read_field_u16",
    "read_field_u32",
    "read_field_u8",
    "s2",
    "samples",
    "view",
]
