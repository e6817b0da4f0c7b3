"""The lists that the gate replays (crates/*_cases/data, with esp-hal's answers), through the binding. tests/oracle/README.md has their
formats. As many cases are compared as the gate's programs compare, by their stdout. A case of a list `short_..`, of the views and of the
samples begins with its block lengths; the others are asked with eleven eights.
"""
import pathlib
import re
import struct
import unittest
from array import array

import suongkivat
from suongkivat import EIGHTS, LineRecord, c6, s2

from .project import CRATES, answered, number_of, told

DUMP_BYTES = 352
LENGTHS_BYTES = 16
BEFORE = 65535


def with_zeros(data, at):
    """The words of a dump, and zeros behind them."""
    return struct.unpack_from("<88I", data, at) + (0,) * 8


def cases(program, name, size, per_dump=0, dumps=1):
    """A list's cases, each with the words of its dump, or of its two dumps."""
    data = (CRATES / program / "data" / name).read_bytes()
    at, words, number = 0, (), 0
    while at < len(data):
        if per_dump and number % per_dump == 0:
            words = [with_zeros(data, at + k * DUMP_BYTES) for k in range(dumps)]
            at += dumps * DUMP_BYTES
        yield words[0] if dumps == 1 and words else words, data[at : at + size]
        at += size
        number += 1


def short(same):
    """The same of a case that begins with its block lengths: how many there are, the lengths, zeros."""
    return lambda words, case: same(words, case[LENGTHS_BYTES:], case[1 : 1 + case[0]])


def compared(program, name):
    """How many cases of a list the gate's program compares."""
    return int(re.search(rf"^{name}: (\d+) compared, 0 differ$", (CRATES / program / "stdout").read_text(), flags=re.M)[1])


def listed(number, record, place, value):
    """What a list has, as it is told: a record by 3, 18, 4, 5, 6 alone and a place by 18 alone. Elsewhere the list has 0, or it differs."""
    tells_record, tells_place = number in (3, 18, 4, 5, 6), number == 18
    return number, record if tells_record or record else None, place if tells_place or place else None, value


def record_of(case):
    """The record that a case begins with, as C has it."""
    return LineRecord(*struct.unpack_from("<IIIBBB", case))


class Lists(unittest.TestCase):
    def replay_short(self, program, name, size, same, *dumps):
        """A list with block lengths."""
        self.replay(program, name, LENGTHS_BYTES + size, short(same), *dumps)

    def replay(self, program, name, size, same, *dumps):
        """Compares a list to its end: `same` gives what the library answers and what the list has."""
        number = 0
        for words, case in cases(program, name, size, *dumps):
            got, listed = same(words, case)
            self.assertEqual(got, listed, f"case {number} of {program}/{name}")
            number += 1
        self.assertEqual(number, compared(program, name))

    def test_fields(self):
        def same(words, case, by=EIGHTS):
            lent, block, start, count, number, at8, at16, at32 = struct.unpack("<BBHHBBH2xI", case)
            dump = suongkivat.Dump(words[:lent])
            reads = suongkivat.read_field_u8, suongkivat.read_field_u16, suongkivat.read_field_u32
            return [answered(read, dump, by, block, start, count) for read in reads], [(number, at) for at in (at8, at16, at32)]

        self.replay("efuse_cases", "fields", 16, same, 256)
        self.replay_short("efuse_cases", "short_fields", 16, same, 128)

    def test_bytes(self):
        def same(words, case, by=EIGHTS):
            lent, block, start, count, n, number = struct.unpack_from("<BBHHBB", case)
            got = answered(suongkivat.read_field_le, words[:lent], by, block, start, count, n)
            return got, (number, 0 if number else case[8 : 8 + n])

        self.replay("efuse_cases", "bytes", 48, same, 64)
        self.replay_short("efuse_cases", "short_bytes", 48, same, 64)

    def test_views(self):
        def same(boards, case, by):
            lent, lent2, board, block, number, length = case[:6]
            field, reference = (suongkivat.Dump(words[:n]) for words, n in zip(boards, (lent, lent2)))
            got = answered(lambda: list(suongkivat.view(field, reference, by, board, block)))
            return got, (number, 0 if number else list(struct.unpack_from(f"<{length}I", case, 8)))

        self.replay_short("efuse_cases", "views", 40, same, 64, 2)

    def test_maps(self):
        good = (CRATES / "efuse_cases/data/good_maps").read_bytes()
        chips = suongkivat.Chip.ESP32, suongkivat.Chip.S2, suongkivat.Chip.C6

        def same(_, case, by=EIGHTS):
            which, length, at, byte, at2, byte2, number, record, place = case
            changed = bytearray(good[128 * which + 8 : 128 * which + 128] + bytes(256))
            changed[at], changed[at2] = byte, byte2
            got = told(suongkivat.check_map, chips[good[128 * which]], by, changed[:length])
            return got, listed(number, record, place, 0 if number else None)

        self.replay("efuse_cases", "maps", 9, same)
        self.replay_short("efuse_cases", "short_maps", 9, same)

    def test_decode(self):
        def same(words, case, by=EIGHTS):
            length, lent, unit, attenuation, number, source, vref, a, b, record, place = struct.unpack_from("<BBBBBBHIIBB", case, 48)
            line = LineRecord(a, b, vref, unit, attenuation, source)
            got = told(suongkivat.decode, words[:lent], by, case[:length], unit, attenuation)
            board = suongkivat.Board(words[:lent], by, case[:length])
            self.assertEqual(told(board.record, unit, attenuation), got)
            return got, listed(number, record, place, 0 if number else line)

        self.replay("line_cases", "decode", 68, same, 32)
        self.replay_short("line_cases", "short_decode", 68, same, 32)

    def test_samples(self):
        def same(boards, case, by):
            length, lent, lent2, board, last, number, record, place, raw, millivolts = struct.unpack_from("<8BHH", case, 48)
            session = suongkivat.Session(boards[0][:lent], boards[1][:lent2], by, case[:length])
            return told(session.sample, suongkivat.Sample(raw, board, last)), listed(number, record, place, millivolts)

        self.replay_short("line_cases", "samples", 64, same, 32, 2)

    def test_convert(self):
        def same(_, case):
            raw, number, millivolts = struct.unpack_from("<HBxH", case, 16)
            record = record_of(case)
            self.assertEqual(number_of(record.check), 10 if number == 10 else 0)
            many = answered(lambda: [int(mv) for mv in record.millivolts([raw])][0])
            return [answered(record.convert, raw), many], [(number, millivolts)] * 2

        self.replay("line_cases", "convert", 24, same)

    def test_fill(self):
        cuts = (1, 0, 4096), (2, 2048, 2048), (64, 64, 64), (4096, 1, 1), (111, 37, 37), (64, 4032, 100), (4096, 2891, 3)

        def cut(record, stretches, stride, n):
            table = array("H", [BEFORE]) * 4096
            part = memoryview(table)
            first = 0
            for _ in range(stretches):
                record.fill(first, part[first : first + n])
                first = (first + stride) % 4096
            return table

        def same(_, case):
            record, listed = record_of(case), list(struct.unpack_from("<4096H", case, 16))
            self.assertEqual(list(record.table()), listed)
            return [list(cut(record, *way)) for way in cuts], [listed] * len(cuts)

        self.replay("line_cases", "fill", 8208, same)

    def test_stretches(self):
        def same(_, case):
            first, n, number, total = struct.unpack_from("<HHB3xI", case, 16)
            record = record_of(case)
            room = array("H", [BEFORE]) * 4104
            got = number_of(record.fill, first, memoryview(room)[:n])
            behind = n if got == 0 else 0
            self.assertEqual(set(room[behind:]), {BEFORE})
            written = sum(room[:behind])
            table = answered(lambda: sum(int(mv) for mv in record.table(first, n)))
            return [(got, written), table], [(number, total)] * 2

        self.replay("line_cases", "stretches", 28, same)

    def test_s2(self):
        readings = s2.reading_vlow, s2.reading_vhigh, s2.reading_vinit
        skipped = s2.skipped_vlow, s2.skipped_vhigh, s2.skipped_vinit

        def same(words, case, by=EIGHTS):
            length, lent, call, version, unit, attenuation, parameter, number, value, *where = struct.unpack_from("<8BiBB", case, 16)
            dump, field_map = words[:lent], case[:length]
            asked = (
                (s2.version, dump, by, field_map),
                (s2.flash_encryption, dump, by, field_map),
                (readings[parameter], dump, by, version, unit, attenuation),
                (skipped[parameter], version, unit, attenuation),
                (s2.init_code, dump, by, field_map, unit, attenuation),
                (s2.cal_code, dump, by, field_map, unit, attenuation),
                (s2.cal_mv, unit, attenuation),
            )[call]
            # A reading's 5 is of no record, in a code too, where the map is then good. The list has C's zeros there.
            of_a_reading = number == 5 and number_of(suongkivat.check_map, suongkivat.Chip.S2, by, field_map) == 0
            wanted = (number, None, None, value) if call == 2 or of_a_reading else listed(number, *where, value)
            self.assertEqual(where, [record or 0 for record in wanted[1:3]])
            return told(*asked), wanted

        self.replay("esp32s2_cases", "calls", 32, same, 64)
        self.replay_short("esp32s2_cases", "short_calls", 32, same, 64)

    def test_c6(self):
        good = (CRATES / "esp32c6_cases/data/map").read_bytes()

        def same(words, case, by=EIGHTS):
            at, length, lent, call, minor, unit, attenuation, channel, number, *where, value = struct.unpack_from("<11Bxi", case, 8)
            changed = bytearray(good + bytes(8))
            changed[8 * at : 8 * at + 8] = case[:8]
            dump, field_map = words[:lent], changed[:length]
            asked = (
                (c6.version, minor),
                (c6.init_code, dump, by, field_map, minor, unit, attenuation),
                (c6.cal_code, dump, by, field_map, minor, unit, attenuation),
                (c6.get_chan_compens, dump, by, field_map, unit, channel, attenuation),
                (c6.cal_mv, minor, unit, attenuation),
            )[call]
            return told(*asked), listed(number, *where, value)

        self.replay("esp32c6_cases", "calls", 24, same, 128)
        self.replay_short("esp32c6_cases", "short_calls", 24, same, 128)

    def test_every_list_is_here(self):
        """Each that a program of the gate compares is named above."""
        named = pathlib.Path(__file__).read_text()
        lists = [name for out in CRATES.glob("*_cases/stdout") for name in re.findall(r"^(\w+): \d+ compared", out.read_text(), flags=re.M)]
        self.assertGreaterEqual(len(lists), 18)
        self.assertEqual([name for name in lists if f'"{name}"' not in named], [])

    def test_curve_tables(self):
        def same(_, case):
            chip, minor, unit, attenuation = case[:4]
            got = [suongkivat.correct(chip, unit, attenuation, line, minor) for line in range(4096)]
            listed, answer = [], 0
            for step in struct.unpack_from("<4096b", case, 4):
                answer += step
                listed.append(answer)
            return got, listed

        self.replay("curve_cases", "tables", 4100, same)

    def test_curve_single(self):
        def same(_, case):
            chip, minor, unit, attenuation, line, answer, number = struct.unpack_from("<BBBBHHB", case)
            return answered(suongkivat.correct, chip, unit, attenuation, line, minor), (number, answer)

        self.replay("curve_cases", "single", 12, same)
