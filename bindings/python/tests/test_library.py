"""Where the shared library is looked for, and what is told where it isn't there."""
import os
import pathlib
import shutil
import subprocess
import sys
import tempfile
import unittest

from suongkivat import raw
from suongkivat.library import loaded

from .project import ROOT

PACKAGE = ROOT / "bindings/python/suongkivat"
SOUGHT = "SUONGKIVAT_LIBRARY", "PKG_CONFIG_PATH", "LD_LIBRARY_PATH"


class Library(unittest.TestCase):
    """Each test has a copy of the package in a folder that is no project."""

    def setUp(self):
        room = tempfile.TemporaryDirectory()
        self.addCleanup(room.cleanup)
        self.room = pathlib.Path(room.name)
        ignored = shutil.ignore_patterns("*.so*", "__pycache__")
        self.package = shutil.copytree(PACKAGE, self.room / "site/suongkivat", ignore=ignored)

    def told(self, *words, **variables):
        """What `python3 -m suongkivat` ends with, writes and tells."""
        there = {name: value for name, value in os.environ.items() if name not in SOUGHT}
        there.update(variables, PYTHONPATH=str(self.room / "site"), PYTHONDONTWRITEBYTECODE="1")
        command = [sys.executable, "-m", "suongkivat", *words]
        ran = subprocess.run(command, cwd=self.room, env=there, stdout=subprocess.PIPE, stderr=subprocess.PIPE)
        return ran.returncode, ran.stdout.decode(), ran.stderr.decode()

    def finds(self, path, **variables):
        status, written, told = self.told(**variables)
        self.assertEqual((status, told), (0, ""))
        self.assertIn(f"library: {path}\n", written)

    def copied(self, *place):
        path = self.room.joinpath(*place)
        path.parent.mkdir(parents=True, exist_ok=True)
        return shutil.copy(loaded().path, path)

    def test_none(self):
        status, written, told = self.told()
        if status == 0:
            self.skipTest(f"the system has one: {written}")
        self.assertEqual((status, written), (1, ""))
        for word in "tools/shared", "tools/install", "SUONGKIVAT_LIBRARY", str(self.package / "libsuongkivat.so"):
            self.assertIn(word, told)
        self.assertNotIn("Traceback", told)

    def test_import_needs_none(self):
        there = dict(os.environ, PYTHONPATH=str(self.room / "site"), SUONGKIVAT_LIBRARY="/no/such/file")
        subprocess.run([sys.executable, "-c", "import suongkivat"], cwd=self.room, env=there, check=True)

    def test_named(self):
        path = self.copied("else where", "any.so")
        self.finds(path, SUONGKIVAT_LIBRARY=str(path))

    def test_named_and_missing(self):
        self.copied("site/suongkivat/libsuongkivat.so")
        status, _, told = self.told(SUONGKIVAT_LIBRARY="/no/such/file")
        self.assertEqual(status, 1)
        self.assertIn("SUONGKIVAT_LIBRARY names /no/such/file, and there is no such file", told)

    def test_beside_the_package(self):
        self.finds(self.copied("site/suongkivat/libsuongkivat.so"))

    def test_in_the_project(self):
        path = self.copied("target/lib/libsuongkivat.so")
        (self.room / "include").mkdir()
        (self.room / "include/suongkivat.h").touch()
        self.finds(path)

    def test_by_pkg_config(self):
        if not shutil.which("pkg-config"):
            self.skipTest("there is no pkg-config (Debian: pkg-config)")
        path = self.copied("in stalled/lib/libsuongkivat.so")
        lines = f"libdir={path.parent}", "Name: suongkivat", "Description: here", f"Version: {raw.VERSION}", ""
        (self.room / "suongkivat.pc").write_text("\n".join(lines))
        self.finds(path, PKG_CONFIG_PATH=str(self.room))

    def test_no_library_at_all(self):
        path = self.room / "site/suongkivat/libsuongkivat.so"
        path.write_text("not one")
        status, _, told = self.told()
        self.assertEqual(status, 1)
        self.assertIn(f"{path} can't be loaded", told)

    def told_of(self, source):
        """What is told of a library of that source: the status, and the words, on one output or the other."""
        if not shutil.which("gcc"):
            self.skipTest("there is no gcc (Debian: gcc)")
        path = self.room / "site/suongkivat/libsuongkivat.so"
        subprocess.run(["gcc", "-shared", "-fPIC", "-x", "c", "-o", str(path), "-"], input=source.encode(), check=True)
        status, written, told = self.told()
        return status, (written + told).replace(str(path), "IT")

    def told_of_forms(self, refusal, takes, number):
        """The same of a library with every call, whose refusals have those bytes; it checks a map, which it never reads."""
        others = "".join(f"void {name}(void) {{}}\n" for name in raw.CALLS if name != "skv_check_map")
        return self.told_of(
            f"""{others}
            struct outcome {{ unsigned char {refusal}; }};
            struct outcome skv_check_map(unsigned char chip, {takes})
            {{
                struct outcome o = {{0}};
                o.number = {number};
                return o;
            }}"""
        )

    def is_another(self, told):
        why = f"IT answers as another version does, so it isn't the library of this package's version, {raw.VERSION}"
        self.assertEqual((told[0], told[1].splitlines()[0]), (1, f"suongkivat: {why}"))

    def test_another_library(self):
        status, told = self.told_of("int nothing;")
        self.assertEqual(status, 1)
        self.assertIn("IT has no skv_", told)

    def test_a_library_of_these_forms(self):
        """The list of block lengths comes before the map, and is looked at before it."""
        takes = "const char *lengths, unsigned long listed, const char *map, unsigned long mapped"
        told = self.told_of_forms("number, record, place", takes, "listed != 11 ? 20 : mapped != 48 ? 2 : 0")
        self.assertEqual((told[0], told[1].splitlines()[1]), (0, "library: IT"))

    def test_a_library_of_version_1(self):
        """It had the same names. A refusal was its number alone."""
        self.is_another(self.told_of_forms("number", "const char *map, unsigned long mapped", "mapped != 48 ? 2 : 0"))

    def test_a_library_of_version_2_or_3(self):
        """They had the same names, and refusals of this form; no call took a list of block lengths."""
        self.is_another(
            self.told_of_forms("number, record, place", "const char *map, unsigned long mapped", "mapped != 48 ? 2 : 0")
        )

    def test_words(self):
        self.assertEqual(self.told("--help")[0], 0)
        self.assertEqual(self.told("--what")[0], 2)
