"""Lists of block lengths: their forms, which are refused and when, and what each call reads by them."""
import contextlib
import re
import tempfile
import unittest
from array import array
from unittest import mock

import suongkivat
from suongkivat import EIGHTS, Board, Chip, Dump, Sample, Session, arrays, c6, raw, s2
from suongkivat.library import loaded

from .project import CRATES, DAY, HEADER, field_map, number_of, told

ZEROS, ONES = bytes(352), bytes([255] * 352)
MAP = (DAY / "map.bin").read_bytes()
S2_MAP = field_map((7, 1, 0, 3), (8, 0, 0, 3))
C6_MAP = (CRATES / "esp32c6_cases/data/map").read_bytes()
# The S2's table: of each tag where its field begins and how many bits it has, and the tag that it depends on.
FIELDS = dict(
    enumerate(
        [
            *[(208 + 6 * k, 6, 0) for k in range(8)],
            *[(144 + 8 * k, 8, 0) for k in range(8)],
            *[(197, 6, 19), (203, 6, 19), (209, 9, 22), (218, 7, 19), (225, 7, 22), (232, 10, 0), (242, 7, 22), (249, 7, 22)],
            *[(147, 8, 0), (155, 6, 25), (161, 5, 26), (166, 6, 27), (172, 8, 0), (180, 6, 29), (186, 5, 30), (191, 6, 31)],
        ],
        1,
    )
)
# The readings that there are: version, call and first tag.
READINGS = (1, s2.reading_vlow, 1), (1, s2.reading_vhigh, 9), (2, s2.reading_vhigh, 17), (2, s2.reading_vinit, 25)
UNPAIRED = (1, s2.reading_vinit), (2, s2.reading_vlow), (0, s2.reading_vhigh), (3, s2.reading_vhigh), (255, s2.reading_vlow)


def shorter(block, length):
    """Eleven eights, but for one block's length."""
    return bytes(length if k == block else 8 for k in range(11))


def bad_lists():
    for length in 0, 1, 10, 12, 255:
        yield bytes([8] * length)
    for block in range(11):
        for length in 9, 128, 255:
            yield shorter(block, length)


def tag_bits(tag):
    """The bits of block 2 that a tag's chain reads: where the last of its fields ends."""
    start, count, depends = FIELDS[tag]
    return max(start + count, tag_bits(depends) if depends else 0)


# Every call that takes a list, by a dump, a list and a map, asked for a unit, a field, a block or a version that is none where it takes one.
CALLS = (
    lambda dump, by, _: suongkivat.read_field_u8(dump, by, 11, 0, 8),
    lambda dump, by, _: suongkivat.read_field_u16(dump, by, 0, 256, 0),
    lambda dump, by, _: suongkivat.read_field_u32(dump, by, 11, 256, 1),
    lambda dump, by, _: suongkivat.read_field_le(dump, by, 11, 0, 8, 1),
    lambda dump, by, _: suongkivat.view(Dump(dump), Dump(b""), by, 0, 11),
    lambda dump, by, _: Session(b"", dump, by, MAP).view(1, 11),
    lambda dump, by, field_map: suongkivat.decode(dump, by, field_map, 2, 0),
    lambda dump, by, field_map: Board(dump, by, field_map).table(0, 4),
    lambda dump, by, field_map: Session(dump, b"", by, field_map).sample(Sample(4096, 0, 3)),
    lambda dump, by, field_map: s2.version(dump, by, field_map),
    lambda dump, by, field_map: s2.flash_encryption(dump, by, field_map),
    lambda dump, by, _: s2.reading_vlow(dump, by, 1, 2, 0),
    lambda dump, by, _: s2.reading_vhigh(dump, by, 1, 0, 4),
    lambda dump, by, _: s2.reading_vinit(dump, by, 2, 2, 0),
    lambda dump, by, field_map: s2.init_code(dump, by, field_map, 2, 0),
    lambda dump, by, field_map: s2.cal_code(dump, by, field_map, 0, 4),
    lambda dump, by, field_map: c6.init_code(dump, by, field_map, 0, 2, 0),
    lambda dump, by, field_map: c6.cal_code(dump, by, field_map, 0, 0, 4),
    lambda dump, by, field_map: c6.get_chan_compens(dump, by, field_map, 2, 0, 0),
)


class Forms(unittest.TestCase):
    BLOCKS = [7, 6, 8, 8, 0, 8, 8, 8, 8, 8, 8]

    def test_eleven_eights(self):
        self.assertEqual((type(EIGHTS), list(EIGHTS)), (bytes, [8] * suongkivat.BLOCKS))
        self.assertEqual(re.search(r"#define SKV_EIGHTS \{(.*)\}", HEADER)[1], ", ".join(map(str, EIGHTS)))

    def test_forms(self):
        whole = bytes(self.BLOCKS)
        forms = [whole, bytearray(whole), memoryview(whole), self.BLOCKS, tuple(self.BLOCKS), iter(self.BLOCKS)]
        forms += [array(kind, self.BLOCKS) for kind in "BHI"]
        if arrays.numpy is not None:
            forms += [arrays.numpy.array(self.BLOCKS, dtype=kind) for kind in ("u1", "i1", "u2", "i8")]
        for form in forms:
            board = Board(ZEROS, form, MAP)
            self.assertEqual((board.lengths, board.record(0, 3).vref), (whole, 1100), type(form))
        with tempfile.NamedTemporaryFile() as file:
            file.write(whole)
            file.flush()
            self.assertEqual(Board(ZEROS, file.name, MAP).lengths, whole)

    def test_an_iterator_is_enough(self):
        for by, number in (EIGHTS, 12), (shorter(1, 0), 5):
            self.assertEqual(number_of(s2.init_code, ZEROS, iter(by), S2_MAP, 0, 0), number)

    def test_what_a_byte_has_no_room_for(self):
        for large in 256, 256 + 8, 1 << 70:
            self.assertEqual(number_of(suongkivat.check_map, Chip.ESP32, [large] + [8] * 10, MAP), 20)
        with self.assertRaises(ValueError) as raised:
            suongkivat.check_map(Chip.ESP32, [8] * 10 + [-1], MAP)
        self.assertNotIsInstance(raised.exception, suongkivat.Refused)
        for wrong in [8.0] * 11, 11, None:
            self.assertRaises(TypeError, suongkivat.check_map, Chip.ESP32, wrong, MAP)

    def test_it_has_to_be_said(self):
        for call in (
            lambda: Board(ZEROS, field_map=MAP),
            lambda: Session(ZEROS, ZEROS, field_map=MAP),
            lambda: suongkivat.check_map(Chip.ESP32, field_map=MAP),
        ):
            self.assertRaises(TypeError, call)


class Refusals(unittest.TestCase):
    def test_every_call_is_here(self):
        names = set(re.findall(r"(skv_\w+)\([^)]*\bconst uint8_t \*lengths,", HEADER))
        self.assertEqual(len(names), 18)
        with contextlib.ExitStack() as stack:
            calls = loaded().calls
            seen = {name: stack.enter_context(mock.patch.object(calls, name, wraps=getattr(calls, name))) for name in names}
            for call in CALLS:
                number_of(call, ZEROS, EIGHTS, b"")
            suongkivat.check_map(Chip.ESP32, EIGHTS, MAP)
        self.assertEqual([name for name, call in seen.items() if not call.called], [])

    def test_right_after_the_dump(self):
        for by in bad_lists():
            for k, call in enumerate(CALLS):
                for field_map in b"", MAP, S2_MAP, C6_MAP:
                    self.assertEqual(told(call, ZEROS, by, field_map), (20, None, None, 0), f"call {k} by {by.hex()}")
                self.assertEqual(told(call, ZEROS[1:], by, b""), (1, None, None, 0), f"call {k} by {by.hex()}")

    def test_check_map_begins_with_it(self):
        for by in bad_lists():
            for chip, field_map in (Chip.ESP32, MAP), (Chip.S2, MAP), (Chip.C6, b""), (Chip.C3, MAP), (255, b""):
                self.assertEqual(told(suongkivat.check_map, chip, by, field_map), (20, None, None, 0))
        self.assertEqual(told(suongkivat.check_map, Chip.C3, EIGHTS, MAP), (2, None, None, 0))

    def test_a_board_is_told_before_it(self):
        session = Session(b"", b"", b"", b"")
        self.assertEqual((number_of(session.view, 2, 11), number_of(session.sample, Sample(4096, 2, 3))), (15, 15))
        self.assertEqual((number_of(session.view, 1, 11), number_of(session.sample, Sample(4096, 1, 3))), (1, 1))

    def test_c_has_zeros_beside_it(self):
        calls, dump, listed = loaded().calls, Dump(ONES).lent, (EIGHTS, 10)
        for answer in (
            calls.skv_read_field_u32(*dump, *listed, raw.SkvField(0, 0, 8)),
            calls.skv_view(*dump, *dump, *listed, 1, 1),
            calls.skv_decode(*dump, *listed, MAP, 48, 0, 3),
            calls.skv_s2_reading_vlow(*dump, *listed, 1, 0, 0),
        ):
            self.assertEqual(bytes(answer), bytes([20]) + bytes(len(bytes(answer)) - 1))
        room = (raw.c_uint8 * 3)(7, 7, 7)
        self.assertEqual(calls.skv_read_field_le(*dump, *listed, raw.SkvField(0, 0, 8), room, 3).refusal.number, 20)
        self.assertEqual(list(room), [7, 7, 7])


class Read(unittest.TestCase):
    def test_a_field_ends_with_its_block(self):
        for block in range(11):
            for length in range(9):
                by, bits = shorter(block, length), 32 * length
                for start in range(max(0, bits - 9), bits + 2):
                    for count in range(10):
                        good = start <= 255 and start + count <= bits
                        wanted = 0 if good else 5, None, None, (1 << count) - 1 if good else 0
                        self.assertEqual(told(suongkivat.read_field_u16, ONES, by, block, start, count), wanted)

    def test_a_view_is_the_block_s_own_words(self):
        field, reference = Dump(range(88)), Dump(range(100, 188))
        for block in range(11):
            for length in range(9):
                session = Session(field, reference, shorter(block, length), MAP)
                words = list(range(8 * block, 8 * block + length))
                self.assertEqual(list(session.view(0, block)), words)
                self.assertEqual(list(session.view(1, block)), [100 + word for word in words])

    def test_it_is_no_copy(self):
        field = Dump(range(88))
        part = suongkivat.view(field, Dump(ZEROS), shorter(1, 3), 0, 1)
        field.lent[0][8] = 7
        self.assertEqual((list(part), part.readonly), ([7, 9, 10], True))

    def test_a_map_is_checked_by_it(self):
        """Record k is the only one in its block, and ends with its third word."""
        places = [(k + 1, k, 96 - count, count) for k, count in enumerate((5, 1, 7, 7, 9, 9))]
        for k in range(6):
            for length in range(9):
                by = shorter(k, length)
                session = Session(ONES, ONES, by, field_map(*places))
                wanted = (0, None, None) if length >= 3 else (5, k, None)
                for call in (
                    lambda: suongkivat.check_map(Chip.ESP32, by, session.field.field_map),
                    lambda: session.field.record(0, 3),
                    lambda: session.sample(Sample(0, 1, 3)),
                ):
                    self.assertEqual(told(call)[:3], wanted)

    def test_readings(self):
        for length in range(9):
            by = shorter(2, length)
            for version, reading, first in READINGS:
                for key in range(8):
                    asked = version, key // 4, key % 4
                    good = tag_bits(first + key) <= 32 * length
                    wanted = (0, None, None, reading(ONES, EIGHTS, *asked)) if good else (5, None, None, 0)
                    self.assertEqual(told(reading, ONES, by, *asked), wanted, f"tag {first + key} by {length} words")
            for version, reading in UNPAIRED:
                self.assertEqual(reading(ONES, by, version, 1, 3), 0)
        seven = [tag for tag in FIELDS if tag_bits(tag) > 32 * 7]
        self.assertEqual(seven, [*range(3, 9), *range(17, 25)])

    def test_codes(self):
        """What they read past block 2 is of no record; what a record names past its block is of that record."""
        dump = bytes(32) + bytes([2]) + bytes(319)
        for length in range(9):
            by = shorter(2, length)
            for code, first in (s2.cal_code, 17), (s2.init_code, 25):
                for key in range(8):
                    wanted = (0, None, None) if tag_bits(first + key) <= 32 * length else (5, None, None)
                    self.assertEqual(told(code, dump, by, S2_MAP, key // 4, key % 4)[:3], wanted)
        for code in s2.init_code, s2.cal_code:
            for block, record in (1, 0), (0, 1):
                by = bytes(0 if k in (block, 2) else 8 for k in range(11))
                self.assertEqual(told(code, dump, by, S2_MAP, 0, 0), (5, record, None, 0))
            self.assertEqual(told(code, ZEROS, shorter(2, 0), S2_MAP, 0, 0), (12, None, None, 0))
