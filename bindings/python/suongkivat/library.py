"""Finds and loads the shared library, once, at the first call that needs it.

It is looked for in this order: the file that the environment variable SUONGKIVAT_LIBRARY names, and then nowhere else; beside the
package; in the project's target/lib, where the package stands in the project; where pkg-config says it was installed; where the system
looks for libraries.
"""
from __future__ import annotations

import ctypes
import ctypes.util
import functools
import os
import pathlib
import subprocess
from typing import Any, Iterator, NamedTuple

from . import raw
from .refusals import refused

VARIABLE = "SUONGKIVAT_LIBRARY"
PACKAGE = pathlib.Path(__file__).resolve().parent
NAME = "libsuongkivat.so"
# How an empty list of block lengths is refused.
NO_LENGTHS = 20
# The name that says with which versions it can be exchanged.
SONAME = f"{NAME}.{raw.VERSION.split('.')[0]}"
HOW = f"""Build it in the project's folder, with the Rattle kit and gcc:
  tools/shared            target/lib/{NAME}, which the package finds where it stands in the project
  tools/install PREFIX    puts the library in place, which pkg-config then finds (PREFIX/lib/pkgconfig on PKG_CONFIG_PATH)
or name the file: {VARIABLE}=/some/where/{NAME}"""


class LibraryMissing(OSError):
    """The shared library isn't there, or isn't this package's. The words say where it was looked for and how to build it."""


class Loaded(NamedTuple):
    path: str
    calls: ctypes.CDLL


def _beside() -> Iterator[str]:
    for name in SONAME, NAME:
        yield str(PACKAGE / name)


def _project() -> Iterator[str]:
    for folder in PACKAGE.parents:
        if (folder / "include/suongkivat.h").is_file():
            yield str(folder / "target/lib" / NAME)


def _installed() -> Iterator[str]:
    try:
        command = ["pkg-config", "--variable=libdir", "suongkivat"]
        asked = subprocess.run(command, stdout=subprocess.PIPE, stderr=subprocess.DEVNULL, check=True)
    except (OSError, subprocess.CalledProcessError):
        return
    folder = pathlib.Path(os.fsdecode(asked.stdout).rstrip("\n"))
    for name in SONAME, NAME:
        yield str(folder / name)


def _system() -> Iterator[str]:
    if found := ctypes.util.find_library("suongkivat"):
        yield found


def _declared(path: str) -> ctypes.CDLL:
    """The library of that file, with what each call gives and takes."""
    try:
        calls = ctypes.CDLL(path)
    except OSError as wrong:
        raise LibraryMissing(f"{path} can't be loaded: {wrong}\n{HOW}") from None
    for name, (gives, *takes) in raw.CALLS.items():
        call = getattr(calls, name, None)
        if call is None:
            raise _another(path, f"has no {name}")
        call.restype = gives
        call.argtypes = takes
    # A library of another first version number can have the same names and take and give other things, which would be put to wrong places
    # and taken from there, in silence. So one answer that is known is looked at: an empty list of block lengths is refused with 20. The
    # versions before take that list for the map, and as it is empty they read nothing of it; none of them has a refusal 20.
    known = calls.skv_check_map(0, b"", 0, b"", 0)
    if bytes(known.refusal) != bytes((NO_LENGTHS, 0, 0)):
        raise _another(path, "answers as another version does")
    return calls


def _another(path: str, why: str) -> LibraryMissing:
    return LibraryMissing(f"{path} {why}, so it isn't the library of this package's version, {raw.VERSION}\n{HOW}")


@functools.lru_cache(maxsize=None)
def loaded() -> Loaded:
    """The library and the file that it was loaded from."""
    if named := os.environ.get(VARIABLE):
        if not pathlib.Path(named).is_file():
            raise LibraryMissing(f"{VARIABLE} names {named}, and there is no such file\n{HOW}")
        return Loaded(named, _declared(named))
    looked = []
    for places in _beside, _project, _installed:
        for path in places():
            if pathlib.Path(path).is_file():
                return Loaded(path, _declared(path))
            looked.append(path)
    for name in _system():
        return Loaded(name, _declared(name))
    here = "".join(f"\n  {path}" for path in looked)
    raise LibraryMissing(f"there is no {NAME}. It was looked for by pkg-config, where the system has libraries, and here:{here}\n{HOW}")


def ask(name: str, *arguments: Any) -> Any:
    """A call's answer; raises Refused where it is turned down."""
    answer = getattr(loaded().calls, name)(*arguments)
    if answer.refusal.number:
        raise refused(answer.refusal, name in raw.MAPPED)
    return answer
