"""The desk program and the binding answer logs alike: the gate's cases of the desk, and folders that are drawn at random and given to
`skv desk`. SEED in the environment is the first folder's seed.
"""
import os
import pathlib
import random
import subprocess
import tempfile
import unittest

import suongkivat
from suongkivat import EIGHTS

from .project import CRATES, ROOT, field_map

FOLDERS = 24
MISSING = 255
BIT_COUNTS = 5, 1, 7, 7, 9, 9


def lines(field, reference, lengths, map_bytes, log):
    """What the desk program writes, by the binding; without a list of lengths, as with eleven eights."""
    written = []
    by = EIGHTS if lengths is None else lengths
    try:
        for answer in suongkivat.Session(field, reference, by, map_bytes).answers(log):
            board = "FR"[answer.sample.board] if answer.sample.board < 2 else "?"
            told = answer.millivolts if answer.refused is None else f"refused {answer.refused.number}"
            written.append(f"{answer.number} {board} {answer.sample.raw} {told}\n")
    except suongkivat.Refused as refused:
        written.append(f"refused {refused.number}\n")
    return "".join(written)


def noise_dump(draw):
    """A dump: noise, or bits that are mostly set, mostly clear or all clear; now and then of another length."""
    words = [draw.choice((draw.getrandbits(32), 0xFFFFFFFF, 0)) if draw.random() < 0.5 else draw.getrandbits(32) for _ in range(88)]
    data = bytes(352) if draw.random() < 0.1 else b"".join(word.to_bytes(4, "little") for word in words)
    return data[: draw.choice((0, 351, 348))] if draw.random() < 0.1 else data


def noise_map(draw):
    """A map with its fields anywhere; now and then one byte of it is another, or it is cut."""
    places = [(k + 1, draw.randrange(11), draw.randrange(257 - count), count) for k, count in enumerate(BIT_COUNTS)]
    places[1] = (2, *draw.choice(((2, draw.randrange(256)), places[1][1:3])), 1)
    data = bytearray(field_map(*places))
    if draw.random() < 0.2:
        data[draw.randrange(48)] = draw.randrange(256)
    return bytes(data[: draw.choice((0, 47))] if draw.random() < 0.05 else data)


def noise_log(draw):
    """A log: mostly good samples of a few keys, and then others; now and then it ends inside a sample."""
    log = bytearray()
    for _ in range(draw.randrange(2000)):
        raw = draw.randrange(4096) if draw.random() < 0.95 else draw.randrange(65536)
        board = draw.randrange(2) if draw.random() < 0.97 else draw.randrange(256)
        last = draw.randrange(8) if draw.random() < 0.97 else draw.randrange(256)
        log += raw.to_bytes(2, "little") + bytes((board, last))
    return bytes(log) + bytes(draw.randrange(4) if draw.random() < 0.3 else 0)


def noise_lengths(draw):
    """A list of lengths, or none: mostly eights with a shorter block or two; now and then a length above 8, or another number of them."""
    if draw.random() < 0.4:
        return None
    lengths = [8] * 11
    for _ in range(draw.randrange(3)):
        lengths[draw.randrange(11)] = draw.randrange(9)
    if draw.random() < 0.15:
        lengths[draw.randrange(11)] = draw.randrange(9, 256)
    return bytes(lengths[: draw.choice((0, 10))] if draw.random() < 0.1 else lengths)


class Desk(unittest.TestCase):
    maxDiff = 2000

    def test_the_gate_s_cases(self):
        data = CRATES / "desk_cases/data"

        def read(kind, number, missing=b""):
            return missing if number == MISSING else (data / f"{kind}{number:03}").read_bytes()

        # A case is its files' numbers: two dumps, a map, a log, and in the second list a file of block lengths.
        old, with_lengths = (data / "cases").read_bytes(), (data / "lengths_cases").read_bytes()
        cases = [(*old[at : at + 4], MISSING) for at in range(0, len(old), 4)]
        cases += [with_lengths[at : at + 5] for at in range(0, len(with_lengths), 5)]
        written = []
        for number, (field, reference, mapped, log, listed) in enumerate(cases):
            boards, by = (read("d", field), read("d", reference)), read("l", listed, None)
            written.append(f"case {number}\n" + lines(*boards, by, read("m", mapped), read("s", log)))
        self.assertGreaterEqual(len(written), 211)
        self.assertEqual("".join(written), (CRATES / "desk_cases/stdout").read_text())

    def test_folders_of_noise(self):
        seed = int(os.environ.get("SEED", "1"))
        seen = set()
        for k in range(seed, seed + FOLDERS):
            draw = random.Random(k)
            files = noise_dump(draw), noise_dump(draw), noise_lengths(draw), noise_map(draw), noise_log(draw)
            with tempfile.TemporaryDirectory() as room:
                for name, data in zip(("field", "reference", "lengths", "map", "samples"), files):
                    if data is not None:
                        pathlib.Path(room, f"{name}.bin").write_bytes(data)
                desk = subprocess.run([str(ROOT / "skv"), "desk", room], stdout=subprocess.PIPE, stderr=subprocess.PIPE)
            self.assertIn(desk.returncode, (0, 1), desk.stderr)
            ours = lines(*files)
            self.assertEqual(desk.stdout.decode(), ours, f"seed {k}")
            seen.update(line.split()[-1] for line in ours.splitlines() if "refused" in line)
        # The folders are no comparison of refusals alone, nor without them.
        self.assertGreaterEqual(len(seen), 5)
