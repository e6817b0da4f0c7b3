"""Line records: where they come from, which of them are taken, and how they are kept."""
import base64
import copy
import dataclasses
import itertools
import json
import pickle
import unittest
from array import array

import suongkivat
from suongkivat import EIGHTS, Board, LineRecord, Source, raw
from suongkivat.library import loaded

from .project import DAY, number_of

MAP = (DAY / "map.bin").read_bytes()
# Of each unit at each attenuation, as docs/RULES.md has them for records by Vref.
SCALES = (57431, 76236, 105481, 196602), (57236, 76175, 105678, 197170)
OFFSETS = (75, 78, 107, 142), (63, 66, 89, 128)
KEYS = [(unit, attenuation) for unit in (0, 1) for attenuation in range(4)]
# Document 01's marked record, as version 2 of this package pickled it: with C's bytes of then.
OF_VERSION_2 = base64.b64decode(
    "gASVvgAAAAAAAACMD3N1b25na2l2YXQubGluZZSMCkxpbmVSZWNvcmSUk5QpgZR9lCiMB2NvZWZmX2GUTT7OjAdjb2VmZl9ilEuOjAR2cmVmlE1MBIwEdW5pdJRLAIwHdX"
    "NlX2x1dJSIjARfcmF3lIwHX2N0eXBlc5SMCV91bnBpY2tsZZSTlIwOc3VvbmdraXZhdC5yYXeUjA1Ta3ZMaW5lUmVjb3JklJOUfZRDED7OAACOAAAATAQAAAABAACUhpSG"
    "lFKUdWIu"
)


def by_vref(vref, unit, attenuation):
    """The one record that there is by a Vref."""
    return LineRecord(vref * SCALES[unit][attenuation] // 4096, OFFSETS[unit][attenuation], vref, unit, attenuation, Source.VREF)


def beside(record):
    """The record with a or b one less or one more."""
    for part, step in itertools.product(("coeff_a", "coeff_b"), (-1, 1)):
        yield dataclasses.replace(record, **{part: getattr(record, part) + step})


class Sources(unittest.TestCase):
    """The day's field board has two points, its reference board has not."""

    def records(self, name):
        return list(Board(DAY / f"{name}.bin", EIGHTS, MAP).records())

    def test_a_record_says_where_it_came_from(self):
        for name, source in ("field", Source.TWO_POINT), ("reference", Source.VREF):
            told = [(record.unit, record.attenuation, record.source) for record in self.records(name)]
            self.assertEqual(told, [(*key, source) for key in KEYS])
            self.assertEqual({type(record.source) for record in self.records(name)}, {Source})

    def test_by_vref_it_is_the_one_record(self):
        self.assertEqual(self.records("reference"), [by_vref(1121, *key) for key in KEYS])

    def test_the_lookup_is_used_at_attenuation_3_alone(self):
        for unit, attenuation in KEYS:
            # The line is 0 mV everywhere, and the lookup nowhere: what isn't 0 is of the lookup.
            record = LineRecord(0, 0, 1100, unit, attenuation, Source.TWO_POINT)
            looked_up = [count for count, millivolts in enumerate(record.table()) if millivolts]
            self.assertEqual(looked_up, list(range(2881, 4096)) if attenuation == 3 else [])
            self.assertEqual(record.uses_lookup, attenuation == 3)


class Taken(unittest.TestCase):
    def takes(self, record):
        room = array("H", [9])
        numbers = number_of(record.check), number_of(record.convert, 4095), number_of(record.fill, 4095, room)
        self.assertEqual((numbers, room[0]), ((0, 0, 0), record.convert(4095)), record)

    def refuses(self, record):
        """With 10 everywhere, though the count and the stretch are bad too; with zeros, and without a number written."""
        room = array("H", [9, 9])
        numbers = number_of(record.check), number_of(record.convert, 4096), number_of(record.fill, 4095, room)
        self.assertEqual((numbers, room.tolist()), ((10, 10, 10), [9, 9]), record)
        self.assertEqual(loaded().calls.skv_convert(record.as_c, raw.SkvCount(4095)).voltage.mv, 0)

    def test_each_record_by_vref(self):
        every = [by_vref(vref, *key) for vref in range(995, 1206) for key in KEYS]
        self.assertEqual(len(set(every)), 1688)
        for record in every:
            self.takes(record)
            for other in beside(record):
                self.refuses(other)
                self.takes(dataclasses.replace(other, source=Source.TWO_POINT))

    def test_the_record_of_another_key(self):
        for key, other in itertools.permutations(KEYS, 2):
            unit, attenuation = other
            self.refuses(dataclasses.replace(by_vref(1100, *key), unit=unit, attenuation=attenuation))

    def test_ranges(self):
        for key in KEYS:
            self.takes(LineRecord(0, 0, 995, *key, Source.TWO_POINT))
            self.takes(LineRecord(131071, 4095, 1205, *key, Source.TWO_POINT))
            for good in by_vref(1100, *key), LineRecord(0, 0, 1100, *key, Source.TWO_POINT):
                for part, bad in (
                    ("coeff_a", (131072, 0xFFFFFFFF)),
                    ("coeff_b", (4096, 0xFFFFFFFF)),
                    ("vref", (0, 994, 1206, 0xFFFFFFFF)),
                    ("unit", (2, 255)),
                    ("attenuation", (4, 5, 6, 7, 255)),
                    ("source", (2, 3, 128, 255)),
                ):
                    for number in bad:
                        self.refuses(dataclasses.replace(good, **{part: number}))

    def test_zeros_beside_a_refused_decoding(self):
        dump = suongkivat.Dump(DAY / "reference.bin").lent
        for length, unit, attenuation, number in (48, 2, 3, 7), (48, 1, 4, 7), (47, 1, 3, 2):
            decoded = loaded().calls.skv_decode(*dump, EIGHTS, 11, MAP, length, unit, attenuation)
            parts = [getattr(decoded.record, name) for name, _ in raw.SkvLineRecord._fields_]
            self.assertEqual((decoded.refusal.number, parts), (number, [0] * 6))


class Kept(unittest.TestCase):
    RECORDS = by_vref(1121, 1, 2), LineRecord(53791, 133, 1093, 0, 3, Source.TWO_POINT)

    def test_by_its_parts(self):
        for record in self.RECORDS:
            kept = json.loads(json.dumps(dataclasses.asdict(record)))
            self.assertEqual(len(kept), 6)
            self.assertEqual(LineRecord(**kept), record)
            self.assertEqual(LineRecord(**kept).convert(2912), record.convert(2912))

    def test_pickled_and_copied(self):
        for record in self.RECORDS:
            for again in pickle.loads(pickle.dumps(record)), copy.copy(record), copy.deepcopy(record):
                self.assertEqual((again, type(again.source)), (record, Source))
                self.assertEqual((bytes(again.as_c), again.convert(2912)), (bytes(record.as_c), record.convert(2912)))

    def test_one_that_version_2_pickled_is_no_record(self):
        self.assertIn(b"use_lut", OF_VERSION_2)
        with self.assertRaisesRegex(ValueError, "stored before version 3.0, .*: decode its board again"):
            pickle.loads(OF_VERSION_2)
