"""The package is the header's: every call, struct, constant and word of include/suongkivat.h, and what docs/RULES.md says to do."""
import ctypes
import re
import shutil
import subprocess
import tempfile
import unittest

from suongkivat import refusals, raw, units

from .project import HEADER, ROOT

CODE = re.sub(r"/\*.*?\*/", "", HEADER, flags=re.S)
KINDS = {
    "uint8_t": ctypes.c_uint8,
    "size_t": ctypes.c_size_t,
    "const uint8_t *": ctypes.c_char_p,
    "uint8_t *": ctypes.POINTER(ctypes.c_uint8),
    "uint16_t *": ctypes.POINTER(ctypes.c_uint16),
    "const uint32_t *": ctypes.POINTER(ctypes.c_uint32),
    "uint16_t": ctypes.c_uint16,
    "uint32_t": ctypes.c_uint32,
    "int32_t": ctypes.c_int32,
}


def kind(words):
    """The ctypes type of a declaration's type."""
    return KINDS[words] if words in KINDS else getattr(raw, words)


def parameter(words):
    """The ctypes type of a parameter, whose name is its last word."""
    return kind(re.fullmatch(r"(.*?)\w+", " ".join(words.split()))[1].strip())


def declared():
    calls = re.findall(r"^(\w+) (skv_\w+)\(([^)]*)\);", CODE, flags=re.M)
    return {name: (kind(gives), *map(parameter, takes.split(","))) for gives, name, takes in calls}


def structs():
    found = {}
    for name, body in re.findall(r"typedef struct (\w+) \{(.*?)\}", CODE, flags=re.S):
        found[name] = [(field, kind(words)) for words, field in re.findall(r"(\w+) (\w+);", body)]
    return found


def enum(first):
    """The names and numbers of the enum that begins with a name."""
    body = re.search(r"enum \{\s*" + first + r" .*?\}", CODE, flags=re.S)[0]
    return {name: int(number) for name, number in re.findall(r"SKV_(\w+) = (\d+)", body)}


class Header(unittest.TestCase):
    maxDiff = None

    def test_every_call_has_the_header_s_types(self):
        self.assertGreaterEqual(len(declared()), 29)
        self.assertEqual(sorted(declared()), sorted(set(re.findall(r"\bskv_\w+", CODE))))
        self.assertEqual(raw.CALLS, declared())

    def test_the_calls_that_take_a_map(self):
        self.assertEqual(raw.MAPPED, set(re.findall(r"(skv_\w+)\([^)]*\bconst uint8_t \*map,", CODE)))

    def test_every_call_is_called(self):
        package = ROOT / "bindings/python/suongkivat"
        used = "".join(file.read_text() for file in package.glob("*.py") if file.name != "raw.py")
        self.assertEqual([name for name in declared() if not re.search(rf"\b{name}\b", used)], [])

    def test_every_struct_has_the_header_s_fields(self):
        ours = {name: list(found._fields_) for name, found in vars(raw).items() if name.startswith("Skv")}
        self.assertEqual(ours, structs())

    def test_sizes_and_places_are_the_compiler_s(self):
        compiler = shutil.which("gcc") or shutil.which("cc")
        if not compiler:
            self.skipTest("there is no gcc (Debian: gcc)")
        ours, asked = [], []
        for name, fields in structs().items():
            found = getattr(raw, name)
            ours.append(ctypes.sizeof(found))
            asked.append(f"sizeof({name})")
            for field, _ in fields:
                ours.append(getattr(found, field).offset)
                asked.append(f"offsetof({name}, {field})")
        lines = "".join(f'printf("%zu\\n", {what});' for what in asked)
        with tempfile.TemporaryDirectory() as room:
            source = f'#include <stdio.h>\n#include "suongkivat.h"\nint main(void) {{ {lines} return 0; }}'
            command = [compiler, "-x", "c", f"-I{ROOT / 'include'}", "-o", f"{room}/sizes", "-"]
            subprocess.run(command, input=source.encode(), check=True)
            told = subprocess.run([f"{room}/sizes"], stdout=subprocess.PIPE, check=True).stdout.split()
        self.assertEqual(dict(zip(asked, map(int, told))), dict(zip(asked, ours)))

    def test_lengths_and_version(self):
        for name, number in enum("SKV_DUMP_WORDS").items():
            self.assertEqual(getattr(raw, name), number, name)
        self.assertEqual(raw.VERSION, re.search(r'#define SKV_VERSION "(.*)"', HEADER)[1])
        project = (ROOT / "bindings/python/pyproject.toml").read_text()
        self.assertIn(f'version = "{raw.VERSION}"', project)

    def test_chips(self):
        self.assertEqual({chip.name: chip.value for chip in units.Chip}, enum("SKV_ESP32"))

    def test_sources(self):
        self.assertEqual({source.name: source.value for source in units.Source}, enum("SKV_TWO_POINT"))

    def test_no_other_enum(self):
        """Those of lengths, refusals, chips and sources, which the tests here hold."""
        self.assertEqual(re.findall(r"\benum \{\s*(\w+)", CODE), ["SKV_DUMP_WORDS", "SKV_NONE", "SKV_ESP32", "SKV_TWO_POINT"])

    def test_words_are_the_header_s(self):
        words = {int(number): said for number, said in re.findall(r"SKV_\w+ = (\d+),? +/\* (.*?) \*/", HEADER.split("enum {")[2])}
        self.assertEqual(words.pop(0), "it wasn't")
        self.assertEqual({number: said for number, (said, _) in refusals.WORDS.items()}, words)

    def test_advice_is_that_of_the_rules(self):
        rows = re.findall(r"^\| (\d+) \| `SKV_\w+` \| .* \| (.*?) \|$", (ROOT / "docs/RULES.md").read_text(), flags=re.M)
        # a link to another place of the page is left out
        told = {int(number): re.sub(r" \(\[[^]]*\]\(#[^)]*\)\)", "", advice) for number, advice in rows}
        self.assertEqual({number: advice for number, (_, advice) in refusals.WORDS.items()}, told)
