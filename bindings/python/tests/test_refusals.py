"""Every refusal that there is, through the binding, and what Refused says of it."""
import contextlib
import copy
import pickle
import unittest
from unittest import mock

import suongkivat
from suongkivat import EIGHTS, Board, Chip, LineRecord, Refused, Sample, Session, Source, c6, raw, s2
from suongkivat.library import loaded

from .project import CRATES, DAY, field_map, number_of, told

MAP = (DAY / "map.bin").read_bytes()
ZEROS = bytes(352)
S2_MAP = field_map((7, 1, 0, 3), (8, 0, 0, 3))
C6_MAP = (CRATES / "esp32c6_cases/data/map").read_bytes()
RECORD = LineRecord(52798, 142, 1100, 0, 3, Source.VREF)


def changed(whole, *changes):
    """A map with other bytes, each at a place in it."""
    data = bytearray(whole)
    for at, byte in changes:
        data[at] = byte
    return bytes(data)


def two_points(high):
    """A dump with two-point codes of which ADC1's low one is 63: the marked case 6."""
    dump = 0
    for (block, start), code in zip(((0, 110), (3, 96), (3, 112), (3, 103), (3, 119)), (1, 63, 1, high, 1)):
        dump |= code << (256 * block + start)
    return dump.to_bytes(352, "little")


# What is asked, by the number that it gives.
GIVEN = {
    1: (suongkivat.decode, ZEROS[1:], EIGHTS, MAP, 0, 3),
    2: (suongkivat.decode, ZEROS, EIGHTS, MAP[1:], 0, 3),
    3: (suongkivat.decode, ZEROS, EIGHTS, changed(MAP, (8, 7)), 0, 3),
    4: (suongkivat.read_field_u8, ZEROS, EIGHTS, 11, 0, 8),
    5: (suongkivat.read_field_le, ZEROS, EIGHTS, 10, 255, 2, 4),
    6: (suongkivat.check_map, Chip.ESP32, EIGHTS, changed(MAP, (4, 6))),
    7: (suongkivat.decode, ZEROS, EIGHTS, MAP, 0, 4),
    8: (RECORD.convert, 4096),
    9: (suongkivat.decode, two_points(0x1BC), EIGHTS, MAP, 0, 0),
    10: (LineRecord(52798, 143, 1100, 0, 3, Source.VREF).convert, 4096),
    11: (RECORD.table, 1, 4096),
    12: (s2.init_code, ZEROS, EIGHTS, S2_MAP, 0, 0),
    13: (suongkivat.correct, Chip.C3, 0, 3, 4096),
    14: (suongkivat.correct, Chip.S2, 0, 3, 1),
    15: (Session(ZEROS, ZEROS, EIGHTS, MAP).sample, Sample(0, 2, 3)),
    16: (lambda: list(suongkivat.samples(bytes(5))),),
    18: (suongkivat.decode, ZEROS, EIGHTS, changed(MAP, (8 * 3 + 6, 1)), 0, 3),
    20: (suongkivat.decode, ZEROS, EIGHTS[1:], MAP, 0, 3),
}
# The record and the place that it tells, where it tells one.
WHERE = {3: (1, None), 6: (0, None), 18: (3, 6)}

# A wrong byte of a map's record: its place there, what is put, and what is told, in the order in which it is.
WRONG = (
    (0, 0, (3, None)),
    (5, 1, (18, 5)),
    (6, 0x80, (18, 6)),
    (7, 0xFF, (18, 7)),
    (1, 11, (4, None)),
    (3, 1, (5, None)),
    (4, 0, (6, None)),
)


def sampled(board):
    """A call that answers one sample of a board by a map."""
    return lambda by: Session(ZEROS, ZEROS, EIGHTS, by).sample(Sample(0, board, 3))


def logged(by):
    """The same as the answer to a log of one sample, whose refusal is beside it and not raised."""
    answer = next(Session(ZEROS, ZEROS, EIGHTS, by).answers(bytes((0, 0, 0, 3))))
    if answer.refused:
        raise answer.refused
    return answer.millivolts


# Every call that takes a map, by the chip, and a good map of it.
BY_MAP = {
    Chip.ESP32: (
        MAP,
        lambda by: suongkivat.decode(ZEROS, EIGHTS, by, 0, 3),
        lambda by: Board(ZEROS, EIGHTS, by).record(1, 0),
        lambda by: Board(ZEROS, EIGHTS, by).convert(0, 0, 1),
        lambda by: Board(ZEROS, EIGHTS, by).table(0, 0),
        lambda by: Board(ZEROS, EIGHTS, by).millivolts(0, 0, [1]),
        sampled(0),
        sampled(1),
        logged,
    ),
    Chip.S2: (
        S2_MAP,
        lambda by: s2.version(ZEROS, EIGHTS, by),
        lambda by: s2.flash_encryption(ZEROS, EIGHTS, by),
        lambda by: s2.init_code(ZEROS, EIGHTS, by, 0, 3),
        lambda by: s2.cal_code(ZEROS, EIGHTS, by, 1, 0),
    ),
    Chip.C6: (
        C6_MAP,
        lambda by: c6.init_code(ZEROS, EIGHTS, by, 1, 0, 3),
        lambda by: c6.cal_code(ZEROS, EIGHTS, by, 2, 1, 0),
        lambda by: c6.get_chan_compens(ZEROS, EIGHTS, by, 0, 6, 3),
    ),
}


class Refusals(unittest.TestCase):
    def test_each_number(self):
        self.assertEqual(set(GIVEN), set(suongkivat.WORDS))
        for number, asked in GIVEN.items():
            with self.subTest(number=number), self.assertRaises(Refused) as raised:
                asked[0](*asked[1:])
            refused = raised.exception
            self.assertEqual((refused.number, (refused.words, refused.advice)), (number, suongkivat.WORDS[number]))
            self.assertEqual((refused.record, refused.place, refused.at), (*WHERE.get(number, (None, None)), None), number)
            self.assertIn(f"{refused.words}; {refused.advice}", str(refused))

    def test_what_isn_t_refused(self):
        self.assertEqual([suongkivat.decode(two_points(0x1BD), EIGHTS, MAP, 0, at).coeff_b for at in range(4)], [0, 1, 27, 54])
        self.assertEqual([suongkivat.decode(two_points(0x1BC), EIGHTS, MAP, 0, at).coeff_b for at in (1, 2, 3)], [0, 26, 53])
        self.assertEqual([RECORD.convert(count) for count in (0, 2880, 2912, 2944, 4095)], [142, 2462, 2483, 2502, 3134])
        self.assertEqual(len(list(suongkivat.samples(bytes(8)))), 2)
        self.assertIsNone(suongkivat.check_map(Chip.C6, EIGHTS, C6_MAP))

    def test_the_order(self):
        self.assertEqual(number_of(suongkivat.decode, b"", b"", b"", 2, 0), 1)
        self.assertEqual(number_of(suongkivat.decode, ZEROS, b"", b"", 2, 0), 20)
        self.assertEqual(number_of(suongkivat.decode, ZEROS, EIGHTS, b"", 2, 0), 7)
        self.assertEqual(number_of(LineRecord(0, 4096, 1100, 0, 0, Source.TWO_POINT).table, 1, 4096), 10)
        self.assertEqual(number_of(suongkivat.correct, Chip.S2, 2, 0, 4096), 7)
        self.assertEqual(number_of(suongkivat.correct, Chip.S2, 0, 0, 4096), 14)
        self.assertEqual(number_of(c6.init_code, ZEROS, EIGHTS, C6_MAP, 0, 0, 0), 12)

    def test_a_view(self):
        field, reference = suongkivat.Dump(range(88)), suongkivat.Dump(range(100, 188))
        session = Session(field, reference, EIGHTS, MAP)
        self.assertEqual(list(session.view(0, 10)), list(range(80, 88)))
        self.assertEqual(list(session.view(1, 0)), list(range(100, 108)))
        self.assertEqual([number_of(session.view, *asked) for asked in ((2, 11), (0, 11))], [15, 4])
        torn = Session(b"", reference, EIGHTS, MAP)
        self.assertEqual([number_of(torn.view, *asked) for asked in ((0, 11), (1, 1))], [1, 0])
        part = suongkivat.view(field, reference, EIGHTS, 0, 1)
        self.assertTrue(part.readonly)
        field.lent[0][8] = 7
        self.assertEqual(part[0], 7)

    def test_a_refusal_leaves_lent_memory(self):
        from array import array

        room = array("H", [9] * 4)
        self.assertEqual(number_of(RECORD.fill, 4093, room), 11)
        self.assertEqual(room.tolist(), [9] * 4)

    def test_a_torn_log_is_told_after_its_samples(self):
        answers = Session(ZEROS, ZEROS, EIGHTS, MAP).answers(bytes.fromhex("00 00 00 03 40 0B 01 03 00 10 00 03 01"))
        three = [next(answers) for _ in range(3)]
        self.assertEqual([answer.millivolts for answer in three], [142, 2462, None])
        self.assertEqual(three[2].refused.number, 8)
        self.assertEqual(number_of(lambda: next(answers)), 16)

    def test_refused_is_an_error_like_others(self):
        self.assertTrue(issubclass(Refused, ValueError))
        for one in Refused(8, 3), Refused(4), Refused(4, record=0), Refused(18, record=14, place=7):
            for again in pickle.loads(pickle.dumps(one)), copy.copy(one):
                self.assertEqual((vars(again), str(again), repr(again)), (vars(one), str(one), repr(one)))
        self.assertIn("doesn't know", str(Refused(200)))

    def test_the_text(self):
        zero = "a byte among a map record's last three isn't zero; mend that byte: it is zero in every record; look for a shifted byte"
        for refused, text in (
            (Refused(18, record=3, place=6), f"refused 18: map record 3, byte 6: {zero}"),
            (Refused(4, record=0), "refused 4: map record 0: block above 10; mend the block"),
            (Refused(4), "refused 4: block above 10; mend the block"),
            (
                Refused(8, 2),
                "refused 8: count above 4095 (the count at place 2); distrust the log: no converter of 12 bits gives it",
            ),
        ):
            self.assertEqual(str(refused), text)


def watched(name):
    """One of C's calls, made as before and seen where it is made."""
    calls = loaded().calls
    return mock.patch.object(calls, name, wraps=getattr(calls, name))


class MapRecords(unittest.TestCase):
    """Which record of the map is bad, by every call that takes one."""

    def calls(self):
        """Each chip's good map, and its calls by a map."""
        for chip, (good, *calls) in BY_MAP.items():
            yield good, [lambda by, chip=chip: suongkivat.check_map(chip, EIGHTS, by), *calls]

    def holds(self, calls, by, number, record, place):
        for k, call in enumerate(calls):
            self.assertEqual(told(call, by), (number, record, place, 0), f"call {k} by {by.hex()}")

    def test_every_call_is_here(self):
        """Each of C's calls that take a map is made, with a good map too."""
        with contextlib.ExitStack() as stack:
            seen = {name: stack.enter_context(watched(name)) for name in raw.MAPPED}
            for good, calls in self.calls():
                for call in calls:
                    self.assertIn(number_of(call, good), (0, 12))
        self.assertEqual([name for name, call in seen.items() if not call.called], [])

    def test_each_record_each_fault(self):
        for good, calls in self.calls():
            for record in range(len(good) // 8):
                for at, byte, (number, place) in WRONG:
                    self.holds(calls, changed(good, (8 * record + at, byte)), number, record, place)

    def test_the_order_within_a_record(self):
        for good, calls in self.calls():
            last = len(good) // 8 - 1
            for k, (at, byte, (number, place)) in enumerate(WRONG):
                for at2, byte2, _ in WRONG[k + 1 :]:
                    both = changed(good, (8 * last + at, byte), (8 * last + at2, byte2))
                    self.holds(calls, both, number, last, place)

    def test_the_first_bad_record(self):
        for good, calls in self.calls():
            for record in range(len(good) // 8 - 1):
                for at, byte, (number, place) in WRONG:
                    for at2, byte2, _ in WRONG:
                        both = changed(good, (8 * record + at, byte), (8 * record + 8 + at2, byte2))
                        self.holds(calls[:1], both, number, record, place)
                all_bad = changed(good, *((k, 0xFF) for k in range(8 * record + 1, len(good))))
                self.holds(calls, all_bad, 18, record, 5)

    def test_none_is_told_before_or_after_the_records(self):
        for good, calls in self.calls():
            self.holds(calls, changed(good, (0, 0), (5, 1))[:-1], 2, None, None)
        bad = changed(MAP, (0, 0))
        self.assertEqual(told(suongkivat.decode, b"", EIGHTS, bad, 0, 3), (1, None, None, 0))
        self.assertEqual(told(suongkivat.decode, ZEROS, EIGHTS, bad, 2, 3), (7, None, None, 0))
        self.assertEqual(told(suongkivat.decode, two_points(0x1BC), EIGHTS, MAP, 0, 0), (9, None, None, 0))
        self.assertEqual(told(s2.init_code, ZEROS, EIGHTS, S2_MAP, 0, 0), (12, None, None, 0))
        self.assertEqual(told(Session(ZEROS, ZEROS, EIGHTS, bad).sample, Sample(0, 2, 3)), (15, None, None, 0))
        self.assertEqual(told(Session(ZEROS, ZEROS, EIGHTS, bad).sample, Sample(4096, 0, 3)), (3, 0, None, 0))
        self.assertEqual(told(Session(ZEROS, ZEROS, EIGHTS, MAP).sample, Sample(4096, 0, 3)), (8, None, None, 0))

    def test_a_field_and_a_view_are_of_no_record(self):
        for read in suongkivat.read_field_u8, suongkivat.read_field_u16, suongkivat.read_field_u32:
            self.assertEqual(told(read, ZEROS, EIGHTS, 11, 256, 1), (4, None, None, 0))
            self.assertEqual(told(read, ZEROS, EIGHTS, 10, 256, 0), (5, None, None, 0))
        self.assertEqual(told(suongkivat.read_field_le, ZEROS, EIGHTS, 11, 0, 8, 1), (4, None, None, 0))
        self.assertEqual(told(suongkivat.read_field_le, ZEROS, EIGHTS, 0, 0, 257, 1), (5, None, None, 0))
        self.assertEqual(told(Session(ZEROS, ZEROS, EIGHTS, MAP).view, 0, 11), (4, None, None, 0))

    def test_c_has_zeros_where_none_is_told(self):
        dump, listed, calls = suongkivat.Dump(ZEROS).lent, (EIGHTS, 11), loaded().calls
        for refusal in (
            calls.skv_read_field_u8(*dump, *listed, raw.SkvField(11, 0, 1)).refusal,
            calls.skv_read_field_u32(*dump, *listed, raw.SkvField(0, 256, 0)).refusal,
            calls.skv_view(*dump, *dump, *listed, 0, 11).refusal,
            calls.skv_check_map(Chip.ESP32, *listed, MAP, 47).refusal,
            calls.skv_check_map(Chip.ESP32, *listed, MAP, 48).refusal,
            *(calls.skv_check_map(Chip.ESP32, *listed, changed(MAP, wrong[:2]), 48).refusal for wrong in WRONG if wrong[2][1] is None),
            calls.skv_decode(*dump, *listed, b"", 0, 2, 0).refusal,
            calls.skv_check_map(Chip.ESP32, EIGHTS, 10, changed(MAP, (0, 0)), 48).refusal,
            calls.skv_next_sample(b"abc", 3).refusal,
        ):
            self.assertEqual((refusal.record, refusal.place), (0, 0), refusal.number)
