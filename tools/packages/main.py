"""The command lines of bin/package and bin/verify."""
from __future__ import annotations

import argparse
import subprocess
import sys
from collections.abc import Callable, Sequence
from pathlib import Path

from tools import TOP
from tools.builds import Unbuilt
from tools.packages.calling import Failed
from tools.packages.making import KINDS, SUMS, Wish, make
from tools.packages.processors import FIRST, PROCESSORS
from tools.packages.verifying import Unknown, verify

OUT = TOP / "out" / "packages"
MAKES = """Makes packages of this commit from its proved builds, and a list of their sums: the sources; for Debian the program and the
note; for Python and Node the library. The same commit gives the same bytes."""
TRIES = """try the packages: made twice, installed in fresh roots and folders, and used; the last line is 'N passed, M failed'. This
needs root, Debian, and its mirror"""
SHORT = """with --test: only what takes a few processor minutes, needs no root and no network, and is installed here"""
STANDS_IN = """take site_cli and libvialshoal_c.a from FOLDER, as cargo leaves them in rust/target/release, and not proved ones; the
packages' names and versions say so"""
VERIFIES = """Proves these sources where that wasn't done here, makes the package of this name again, and says whether FILE has the same
bytes. Ends with 1 where it hasn't."""


def package(words: Sequence[str]) -> int:
    parser = argparse.ArgumentParser("bin/package", description=MAKES)
    parser.add_argument("kinds", metavar="KIND", nargs="*", help=f"{', '.join(KINDS)}; without one all")
    parser.add_argument("--to", metavar="FOLDER", type=Path, default=OUT, help="where to, instead of out/packages")
    parser.add_argument("--processor", choices=PROCESSORS, action="append", help=f"without it {FIRST.machine}")
    parser.add_argument("--unproved", metavar="FOLDER", type=Path, help=STANDS_IN)
    parser.add_argument("--test", action="store_true", help=TRIES)
    parser.add_argument("--short", action="store_true", help=SHORT)
    given = parser.parse_args(words)
    if unknown := [kind for kind in given.kinds if kind not in KINDS]:
        parser.error(f"there are no packages of kind {unknown[0]}")
    wish = Wish(given.kinds or KINDS, [PROCESSORS[name] for name in given.processor or [FIRST.machine]], given.unproved)
    if given.test:
        from tools.packages import trying

        return trying.main(wish, given.short)
    return _done("package", lambda: _made(wish, given.to))


def _made(wish: Wish, to: Path) -> int:
    make(wish, to)
    print((to / SUMS).read_text(), end="")
    return 0


def check(words: Sequence[str]) -> int:
    parser = argparse.ArgumentParser("bin/verify", description=VERIFIES)
    parser.add_argument("file", metavar="FILE", type=Path)
    parser.add_argument("--unproved", metavar="FOLDER", type=Path, help="the package is one of bin/package --unproved FOLDER")
    given = parser.parse_args(words)
    return _done("verify", lambda: 0 if verify(given.file, given.unproved) else 1)


def _done(name: str, does: Callable[[], int]) -> int:
    try:
        return does()
    except (Unknown, Unbuilt, Failed, OSError, subprocess.CalledProcessError) as why:
        print(f"{name}: {why}", file=sys.stderr)
        return 2
