"""Plays rows through the program that bin/built runs."""
from __future__ import annotations

import os
import sys
import tempfile
from collections.abc import Sequence
from pathlib import Path

from tools import TOP, rows
from tools.builds import PROGRAM, PROVED_FOLDER, kept
from tools.running import SECONDS, lay, run


NOTHING_BUILT = "nothing is built here; bin/site_cli builds the program, bin/prove proves it"
NOTHING_PROVED = "nothing is proved here; bin/prove proves the program"


def named() -> str | None:
    """The executable that VIALSHOAL_PROGRAM names."""
    path = os.environ.get("VIALSHOAL_PROGRAM")
    return os.path.abspath(path) if path else None


def program(itself: bool = False) -> str | None:
    """What runs the program, or the program itself, if it is built. VIALSHOAL_PROGRAM may name another executable."""
    built = kept()
    return named() or (str(built if itself else TOP / "bin" / "built") if os.access(built, os.X_OK) else None)


def proved_program() -> str | None:
    """The program that is proved, if it is built. VIALSHOAL_PROGRAM may name another executable."""
    built = PROVED_FOLDER / PROGRAM
    return named() or (str(built) if os.access(built, os.X_OK) else None)


def play(row: rows.Row, command: str, seconds: float = SECONDS) -> list[str]:
    """What isn't as the row has it."""
    with tempfile.TemporaryDirectory() as room:
        folder = Path(room) / "folder"
        lay(row.files, folder)
        ended = run([command, *row.words], row.script, folder, output=row.output, errors=row.errors, seconds=seconds)
    return rows.faults(row, ended)


def main(wanted: Sequence[str]) -> int:
    command = program()
    if command is None:
        print(f"rows: {NOTHING_BUILT}", file=sys.stderr)
        return 2
    known = rows.names()
    unknown = [name for name in wanted if name not in known]
    if unknown:
        print(f"rows: no row {unknown[0]}", file=sys.stderr)
        return 2
    failed = 0
    for name in wanted or known:
        found = play(rows.load(name), command)
        if found:
            print(f"{name}: {'; '.join(found)}")
        failed += bool(found)
    print(f"{len(wanted or known) - failed} passed, {failed} failed")
    return 1 if failed else 0
