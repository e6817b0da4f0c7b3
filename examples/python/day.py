#!/usr/bin/env python3
"""day: Suongkivat from Python: the records of two boards, a few counts by each, and a log's samples as the desk program answers them. Run
in a folder with field.bin, reference.bin, map.bin, samples.bin and, where the chip has short blocks, lengths.bin, with bindings/python
on PYTHONPATH; examples/run does both.
"""
import pathlib

import suongkivat

SOURCES = {suongkivat.Source.TWO_POINT: "two points", suongkivat.Source.VREF: "Vref"}
ATTENUATIONS = "0 dB", "2.5 dB", "6 dB", "11 dB"


def load(name, missing=b""):
    """A file's bytes; a missing one counts as empty, or as what is said."""
    path = pathlib.Path(name)
    return path.read_bytes() if path.exists() else missing


def undecoded(refused):
    """Why there is no record, and which record of the map is bad, where it is one; str(refused) has it in words, with what to do."""
    record = "" if refused.record is None else f": map record {refused.record}"
    byte = "" if refused.place is None else f", byte {refused.place}"
    return f"refused {refused.number}{record}{byte}"


def print_record(name, board, unit, attenuation):
    """A board's record for a unit and an attenuation, with where it comes from, and what it makes of a few counts."""
    what = f"record {name}, unit {unit}, attenuation {attenuation}:"
    try:
        record = board.record(unit, attenuation)
    except suongkivat.Refused as refused:
        print(what, undecoded(refused))
        return
    comes_from = f"by {SOURCES[record.source]} at {ATTENUATIONS[record.attenuation]}"
    print(what, f"{comes_from}, a {record.coeff_a}, b {record.coeff_b}, Vref {record.vref}")
    for count in 0, 2880, 2912, 4095, 4096:
        try:
            print(f"count {count}: {record.convert(count)}")
        except suongkivat.Refused as refused:
            print(f"count {count}: refused {refused.number}")


def print_log(session, log):
    try:
        for number, sample, millivolts, refused in session.answers(log):
            board = "FR"[sample.board] if sample.board < 2 else "?"
            print(number, board, sample.raw, millivolts if refused is None else f"refused {refused.number}")
    except suongkivat.Refused as torn:
        print(f"refused {torn.number}")


def main():
    # how many words each block has: without a file eight, as the desk program has it
    lengths = load("lengths.bin", suongkivat.EIGHTS)
    session = suongkivat.Session(load("field.bin"), load("reference.bin"), lengths, load("map.bin"))
    print_record("F", session.field, 0, 3)
    print_record("F", session.field, 1, 0)
    print_record("R", session.reference, 0, 3)
    print_log(session, load("samples.bin"))


main()
