"""Numbers on their way in and out: what C has no room for, units, many counts at once with and without numpy, dumps in their forms."""
import dataclasses
import tempfile
import unittest
from array import array
from unittest import mock

import suongkivat
from suongkivat import EIGHTS, Board, Chip, Count, Dump, LineRecord, Millivolt, Source, arrays, c6, s2

from .project import DAY, answered, number_of

RECORD = LineRecord(52798, 142, 1100, 0, 3, Source.TWO_POINT)
MAP = (DAY / "map.bin").read_bytes()
FIELD = (DAY / "field.bin").read_bytes()
HUGE = 1 << 70


class TooLarge(unittest.TestCase):
    """C would cut a number that it has no room for: 256 would be unit 0."""

    def test_units_and_counts(self):
        for large in 256, 256 + 3, 65536, HUGE:
            self.assertEqual(number_of(suongkivat.decode, FIELD, EIGHTS, MAP, large, 0), 7)
            self.assertEqual(number_of(suongkivat.decode, FIELD, EIGHTS, MAP, 0, large), 7)
            self.assertEqual(number_of(suongkivat.read_field_u8, FIELD, EIGHTS, large, 0, 1), 4)
            self.assertEqual(number_of(suongkivat.check_map, large, EIGHTS, MAP), 2)
            self.assertEqual(number_of(suongkivat.correct, large, 0, 0, 0), 14)
            self.assertEqual(number_of(s2.cal_mv, large, 0), 7)
            self.assertEqual(c6.version(large), 2)
        for large in 65536, 65536 + 5, HUGE:
            self.assertEqual(number_of(RECORD.convert, large), 8)
            self.assertEqual(number_of(RECORD.table, large, 0), 11)
            self.assertEqual(number_of(RECORD.table, 0, large), 11)
            self.assertEqual(number_of(suongkivat.read_field_u8, FIELD, EIGHTS, 0, large, 0), 5)
            self.assertEqual(number_of(suongkivat.read_field_u8, FIELD, EIGHTS, 0, 0, large), 5)
            self.assertEqual(number_of(suongkivat.correct, Chip.C3, 0, 0, large), 13)
        for part, bits in zip(("coeff_a", "coeff_b", "vref", "unit", "attenuation", "source"), (32, 32, 32, 8, 8, 8)):
            for large in 1 << bits, HUGE:
                bad = dataclasses.replace(RECORD, **{part: getattr(RECORD, part) + large})
                self.assertEqual(number_of(bad.check), 10, bad)

    def test_below_zero(self):
        session = suongkivat.Session(FIELD, FIELD, EIGHTS, MAP)
        for call in (
            lambda: suongkivat.decode(FIELD, EIGHTS, MAP, -1, 0),
            lambda: suongkivat.decode(FIELD, EIGHTS, MAP, 0, -256),
            lambda: RECORD.convert(-1),
            lambda: RECORD.millivolts([0, -1]),
            lambda: RECORD.table(0, -1),
            lambda: suongkivat.read_field_le(FIELD, EIGHTS, 0, 0, 8, -1),
            lambda: LineRecord(-1, 0, 1100, 0, 3, 0),
            lambda: LineRecord(0, 0, 1100, 0, -1, 0),
            lambda: LineRecord(0, 0, 1100, 0, 3, -1),
            lambda: Dump([-1]),
            lambda: Dump([1 << 32]),
            lambda: session.view(-1, 0),
            lambda: session.sample(suongkivat.Sample(-1, 0, 0)),
        ):
            with self.assertRaises(ValueError) as told:
                call()
            self.assertNotIsInstance(told.exception, suongkivat.Refused)

    def test_other_kinds_of_number(self):
        for call in (
            lambda: RECORD.convert(2880.0),
            lambda: RECORD.convert(Millivolt(2880)),
            lambda: RECORD.millivolts([Millivolt(1)]),
            lambda: RECORD.millivolts([1.5]),
            lambda: suongkivat.correct(Chip.C3, 0, 3, Count(1)),
            lambda: suongkivat.correct(Chip.C6, 0, 3, 1),
            lambda: RECORD.fill(0, bytes(2)),
            lambda: RECORD.fill(0, bytearray(2)),
            lambda: RECORD.fill(0, array("h", [0])),
            lambda: RECORD.fill(0, memoryview(array("H", [0, 0, 0]))[::2]),
            lambda: Board(5, EIGHTS, MAP),
            lambda: Board(FIELD, EIGHTS, array("H", [0])),
        ):
            self.assertRaises(TypeError, call)

    def test_units_come_back(self):
        self.assertIsInstance(RECORD.convert(Count(1)), Millivolt)
        self.assertIsInstance(suongkivat.correct(Chip.C3, 0, 3, RECORD.convert(1)), Millivolt)
        self.assertIsInstance(next(suongkivat.samples(bytes(4))).raw, Count)
        self.assertNotEqual(suongkivat.correct(Chip.C6, 0, 3, 4095, 1), suongkivat.correct(Chip.C6, 0, 3, 4095, 2))


class Many(unittest.TestCase):
    COUNTS = [4095, 0, 2880, 2912, 2912, 2944]

    def test_lists_without_numpy(self):
        with mock.patch.object(arrays, "numpy", None):
            table, some = RECORD.table(), RECORD.millivolts(iter(self.COUNTS))
            self.assertEqual((type(table), type(some)), (list, list))
            self.assertEqual(some, [3134, 142, 2462, 2483, 2483, 2502])
            self.assertEqual(table, [RECORD.convert(count) for count in range(4096)])
            self.assertEqual((RECORD.table(4096, 0), RECORD.millivolts([])), ([], []))
            with self.assertRaises(suongkivat.Refused) as told:
                RECORD.millivolts([1, 2, 4096, -1])
            self.assertEqual((told.exception.number, told.exception.at), (8, 2))

    def test_arrays_with_numpy(self):
        numpy = arrays.numpy
        if numpy is None:
            self.skipTest("there is no numpy (Debian: python3-numpy)")
        table, some = RECORD.table(), RECORD.millivolts(self.COUNTS)
        self.assertEqual((table.dtype, some.dtype), (numpy.uint16, numpy.uint16))
        with mock.patch.object(arrays, "numpy", None):
            self.assertEqual((table.tolist(), some.tolist()), (RECORD.table(), RECORD.millivolts(self.COUNTS)))
        self.assertEqual((len(RECORD.table(4096, 0)), len(RECORD.millivolts([]))), (0, 0))
        for kind in numpy.int16, numpy.uint16, numpy.int64, numpy.uint64:
            shaped = numpy.array(self.COUNTS, dtype=kind).reshape(2, 3)
            self.assertEqual(RECORD.millivolts(shaped).tolist(), some.reshape(2, 3).tolist())
        for bad, number in (numpy.array([0, 4096, -1]), 8), (numpy.array([[0, 1], [70000, 4096]]), 8):
            with self.assertRaises(suongkivat.Refused) as told:
                RECORD.millivolts(bad)
            self.assertEqual((told.exception.number, told.exception.at), (number, 1 if bad.ndim == 1 else 2))
        self.assertRaises(ValueError, RECORD.millivolts, numpy.array([-1]))
        self.assertRaises(TypeError, RECORD.millivolts, numpy.array([1.0]))
        room = numpy.full(3, 9, dtype=numpy.uint16)
        RECORD.fill(2880, room[1:])
        self.assertEqual(room.tolist(), [9, 2462, RECORD.convert(2881)])
        self.assertRaises(TypeError, RECORD.fill, 0, numpy.zeros(4, dtype=numpy.uint16)[::2])
        self.assertRaises(TypeError, RECORD.fill, 0, numpy.zeros(4, dtype=numpy.uint32))

    def test_empty_memory(self):
        RECORD.fill(0, array("H"))
        self.assertEqual(number_of(RECORD.fill, 4097, array("H")), 11)
        self.assertEqual(suongkivat.read_field_le(FIELD, EIGHTS, 0, 0, 8, 0), b"")

    def test_a_board(self):
        board = Board(FIELD, EIGHTS, MAP)
        records = list(board.records())
        self.assertEqual([(record.unit, record.attenuation) for record in records], [(k // 4, k % 4) for k in range(8)])
        self.assertEqual(board.record(1, 2), records[6])
        self.assertEqual(list(board.table(0, 3)), [board.convert(0, 3, count) for count in range(4096)])
        self.assertEqual(list(board.millivolts(0, 3, [2880, 2944])), [2497, 2487])
        self.assertEqual(number_of(board.table, 0, 4), 7)


class Dumps(unittest.TestCase):
    def test_forms(self):
        words = Dump(FIELD).words
        forms = [DAY / "field.bin", str(DAY / "field.bin"), bytearray(FIELD), memoryview(FIELD), words, iter(words), array("I", words)]
        if arrays.numpy is not None:
            forms += [arrays.numpy.fromfile(DAY / "field.bin", dtype=kind) for kind in ("u1", "<u4")]
        for form in forms:
            self.assertEqual(Dump(form).words, words, type(form))
        self.assertEqual(Dump(Dump(FIELD)).words, words)
        with tempfile.NamedTemporaryFile() as file:
            file.write(MAP)
            file.flush()
            self.assertEqual(Board(FIELD, EIGHTS, file.name).record(0, 3), Board(FIELD, EIGHTS, MAP).record(0, 3))

    def test_other_lengths(self):
        for length in 0, 1, 351, 353, 348, 356, 704:
            self.assertEqual(len(Dump(bytes(length))), 0)
            self.assertEqual(answered(Board(bytes(length), EIGHTS, MAP).record, 2, 0), (1, 0))
        self.assertEqual(number_of(suongkivat.decode, [0] * 87, EIGHTS, MAP, 0, 0), 1)
        self.assertEqual(number_of(suongkivat.decode, [0] * 89, EIGHTS, MAP, 0, 0), 1)

    def test_a_missing_file_is_no_empty_one(self):
        self.assertRaises(FileNotFoundError, Board, "no-such-file", EIGHTS, MAP)
        self.assertRaises(FileNotFoundError, Board, FIELD, "no-such-file", MAP)
