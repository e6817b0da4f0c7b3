"""include/suongkivat.h for ctypes: its structs, and of each call what it gives and what it takes. This is Python's one copy of the header,
and tests/test_header.py holds it to the header, name by name and type by type.
"""
from __future__ import annotations

import ctypes
from ctypes import POINTER, c_char_p, c_int32, c_size_t, c_uint8, c_uint16, c_uint32

VERSION = "4.0"
DUMP_WORDS = 88
BLOCKS = 11
ESP32_MAP_BYTES = 48
S2_MAP_BYTES = 16
C6_MAP_BYTES = 120
SAMPLE_BYTES = 4
COUNTS = 4096
EIGHTS = bytes([8] * BLOCKS)


class SkvRefusal(ctypes.Structure):
    _fields_ = [("number", c_uint8), ("record", c_uint8), ("place", c_uint8)]


class SkvCount(ctypes.Structure):
    _fields_ = [("raw", c_uint16)]


class SkvMillivolt(ctypes.Structure):
    _fields_ = [("mv", c_uint16)]


class SkvOutcome(ctypes.Structure):
    _fields_ = [("refusal", SkvRefusal)]


class SkvVoltage(ctypes.Structure):
    _fields_ = [("refusal", SkvRefusal), ("voltage", SkvMillivolt)]


class SkvCode(ctypes.Structure):
    _fields_ = [("refusal", SkvRefusal), ("code", c_uint16)]


class SkvReading(ctypes.Structure):
    _fields_ = [("refusal", SkvRefusal), ("value", c_int32)]


class SkvField(ctypes.Structure):
    _fields_ = [("block", c_uint8), ("bit_start", c_uint16), ("bit_count", c_uint16)]


class SkvRead(ctypes.Structure):
    _fields_ = [("refusal", SkvRefusal), ("value", c_uint32)]


class SkvView(ctypes.Structure):
    _fields_ = [("refusal", SkvRefusal), ("board", c_uint8), ("first", c_uint32), ("words", c_uint32)]


class SkvLineRecord(ctypes.Structure):
    _fields_ = [
        ("coeff_a", c_uint32),
        ("coeff_b", c_uint32),
        ("vref", c_uint32),
        ("unit", c_uint8),
        ("attenuation", c_uint8),
        ("source", c_uint8),
    ]


class SkvDecoded(ctypes.Structure):
    _fields_ = [("refusal", SkvRefusal), ("record", SkvLineRecord)]


class SkvVersion(ctypes.Structure):
    _fields_ = [("refusal", SkvRefusal), ("version", c_uint8)]


class SkvFlashEncryption(ctypes.Structure):
    _fields_ = [("refusal", SkvRefusal), ("on", c_uint8)]


class SkvSample(ctypes.Structure):
    _fields_ = [("raw", SkvCount), ("board", c_uint8), ("last", c_uint8)]


class SkvNext(ctypes.Structure):
    _fields_ = [("refusal", SkvRefusal), ("whole", c_uint8), ("sample", SkvSample)]


# Lent memory is two parameters. Bytes that a call only reads are Python's own bytes.
DUMP = (POINTER(c_uint32), c_size_t)
BYTES = (c_char_p, c_size_t)
LENGTHS = BYTES
WRITTEN_BYTES = (POINTER(c_uint8), c_size_t)
WRITTEN_MILLIVOLTS = (POINTER(c_uint16), c_size_t)
UNIT_ATTENUATION = (c_uint8, c_uint8)

# What each call gives, then what it takes.
CALLS = {
    "skv_read_field_u8": (SkvRead, *DUMP, *LENGTHS, SkvField),
    "skv_read_field_u16": (SkvRead, *DUMP, *LENGTHS, SkvField),
    "skv_read_field_u32": (SkvRead, *DUMP, *LENGTHS, SkvField),
    "skv_read_field_le": (SkvOutcome, *DUMP, *LENGTHS, SkvField, *WRITTEN_BYTES),
    "skv_view": (SkvView, *DUMP, *DUMP, *LENGTHS, c_uint8, c_uint8),
    "skv_check_map": (SkvOutcome, c_uint8, *LENGTHS, *BYTES),
    "skv_decode": (SkvDecoded, *DUMP, *LENGTHS, *BYTES, *UNIT_ATTENUATION),
    "skv_check_record": (SkvOutcome, SkvLineRecord),
    "skv_convert": (SkvVoltage, SkvLineRecord, SkvCount),
    "skv_fill": (SkvOutcome, SkvLineRecord, SkvCount, *WRITTEN_MILLIVOLTS),
    "skv_s2_version": (SkvVersion, *DUMP, *LENGTHS, *BYTES),
    "skv_s2_reading_vlow": (SkvReading, *DUMP, *LENGTHS, c_uint8, *UNIT_ATTENUATION),
    "skv_s2_reading_vhigh": (SkvReading, *DUMP, *LENGTHS, c_uint8, *UNIT_ATTENUATION),
    "skv_s2_reading_vinit": (SkvReading, *DUMP, *LENGTHS, c_uint8, *UNIT_ATTENUATION),
    "skv_s2_skipped_vlow": (SkvReading, c_uint8, *UNIT_ATTENUATION),
    "skv_s2_skipped_vhigh": (SkvReading, c_uint8, *UNIT_ATTENUATION),
    "skv_s2_skipped_vinit": (SkvReading, c_uint8, *UNIT_ATTENUATION),
    "skv_s2_init_code": (SkvCode, *DUMP, *LENGTHS, *BYTES, *UNIT_ATTENUATION),
    "skv_s2_cal_code": (SkvCode, *DUMP, *LENGTHS, *BYTES, *UNIT_ATTENUATION),
    "skv_s2_cal_mv": (SkvVoltage, *UNIT_ATTENUATION),
    "skv_s2_flash_encryption": (SkvFlashEncryption, *DUMP, *LENGTHS, *BYTES),
    "skv_c6_version": (c_uint8, c_uint8),
    "skv_c6_init_code": (SkvCode, *DUMP, *LENGTHS, *BYTES, c_uint8, *UNIT_ATTENUATION),
    "skv_c6_cal_code": (SkvCode, *DUMP, *LENGTHS, *BYTES, c_uint8, *UNIT_ATTENUATION),
    "skv_c6_get_chan_compens": (SkvReading, *DUMP, *LENGTHS, *BYTES, c_uint8, c_uint8, c_uint8),
    "skv_c6_cal_mv": (SkvVoltage, c_uint8, *UNIT_ATTENUATION),
    "skv_correct": (SkvVoltage, c_uint8, c_uint8, *UNIT_ATTENUATION, SkvMillivolt),
    "skv_next_sample": (SkvNext, *BYTES),
    "skv_sample": (SkvVoltage, SkvSample, *DUMP, *DUMP, *LENGTHS, *BYTES),
}

# The calls that take a map: a refusal of one of its records tells which.
MAPPED = {
    "skv_check_map",
    "skv_decode",
    "skv_s2_version",
    "skv_s2_init_code",
    "skv_s2_cal_code",
    "skv_s2_flash_encryption",
    "skv_c6_init_code",
    "skv_c6_cal_code",
    "skv_c6_get_chan_compens",
    "skv_sample",
}
