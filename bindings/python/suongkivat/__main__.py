"""python3 -m suongkivat: which library the package uses, and whether numpy is there. Status: 0; 1 where there is no library, told on
standard error with how to build it; 2 for a word that it doesn't know.
"""
import sys

from . import __version__, arrays
from .library import LibraryMissing, loaded


def main() -> int:
    if sys.argv[1:] in (["--help"], ["-h"]):
        print(__doc__.strip())
        return 0
    if sys.argv[1:]:
        print("suongkivat: it takes no words but --help", file=sys.stderr)
        return 2
    try:
        path = loaded().path
    except LibraryMissing as missing:
        print(f"suongkivat: {missing}", file=sys.stderr)
        return 1
    print(f"suongkivat {__version__}\nlibrary: {path}\nmany numbers at once: {arrays.kind()}")
    return 0


sys.exit(main())
