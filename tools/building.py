"""Proves and builds the program where that is needed, the crates that it is made of side by side, and reports how far it is.

A record beside the program says what it was proved from; while that is still so, nothing is done."""
from __future__ import annotations

import os
import re
import shutil
import subprocess
import sys
import tempfile
from collections.abc import Iterator, Sequence
from contextlib import contextmanager
from functools import cache
from pathlib import Path

from tools import TOP
from tools.builds import PROGRAM, PROVED_FOLDER, VARIABLE, Build, Progress, Unbuilt, end_by_signals, first_line, say_why_not, sum_of_files

CRATE = TOP / "crates" / PROGRAM
PROVED_PARTS = ("src", "specs", "proofs")
# A crate that the tool is through with, as rt run and as its gate report it; the gate prints the other line, too.
IS_DONE_IN_A_RUN = re.compile(r"^logic=proved", re.MULTILINE)
IS_DONE_IN_THE_GATE = re.compile(r"^rt: \w+ (?:proved$|is kept)", re.MULTILINE)


def crate_lines() -> dict[str, str]:
    """All crates, each with its line of crates.txt."""
    lines = (line for line in (TOP / "crates.txt").read_text().splitlines() if ":" in line and not line.startswith("#"))
    return {line.split(":")[0].split()[0]: line for line in lines}


def uses(line: str) -> list[str]:
    """What a crate uses, by its line."""
    return line.partition(":")[2].split()


def needed_crates(top: str = PROGRAM) -> dict[str, str]:
    """The crates that a program or a library is made of, itself among them, each with its line of crates.txt."""
    lines = crate_lines()
    found: dict[str, str] = {}
    left = [top]
    while left:
        name = left.pop()
        if name in lines and name not in found:
            found[name] = lines[name]
            left += uses(lines[name])
    return found


@cache
def kit() -> str:
    """The toolchain's line."""
    return first_line(["rt", "version"])


def toolchain_folder() -> Path:
    return Path(first_line(["rt", "doc"])).parent


def proved_files(crates: Sequence[str]) -> Iterator[Path]:
    for name in sorted(crates):
        for part in PROVED_PARTS:
            yield from sorted(it for it in (TOP / "crates" / name / part).rglob("*") if it.is_file())


def sum_of_sources(top: str = PROGRAM) -> str:
    """The sum of all that a program or a library is proved from: its crates' files and lines, and HANDLES."""
    crates = needed_crates(top)
    return sum_of_files(proved_files(list(crates)), sorted(crates.items()), (TOP / "HANDLES").read_bytes())


PROVED = Build("proved", PROVED_FOLDER, "proved", "rt", kit, sum_of_sources)
BUILT = PROVED.file


def copy_crates(crates: dict[str, str], to: Path) -> None:
    """Makes a repository of these crates alone, without wrong bodies and without what was built."""
    (to / "crates.txt").write_text("".join(f"{line}\n" for line in reversed(crates.values())))
    shutil.copy(TOP / "HANDLES", to)
    leave = shutil.ignore_patterns("out", "must-fail", "mutants")
    for name in crates:
        shutil.copytree(TOP / "crates" / name, to / "crates" / name, ignore=leave)


@contextmanager
def proved_copy(crates: dict[str, str], build: Build) -> Iterator[Path]:
    """A copy of these crates alone that the tool's gate has proved, with what it left there. It proves from nothing, with each processor,
    what no gate on this machine has proved before; what it proves is kept for the next gate."""
    with tempfile.TemporaryDirectory(prefix=f"{build.crate}-") as room:
        copy_crates(crates, Path(room))
        build.call(["rt", "ci"], Path(room))
        yield Path(room)


def progress(build: Build, crates: dict[str, str], is_done: re.Pattern[str] = IS_DONE_IN_THE_GATE) -> Progress:
    """Reports how many crates are proved."""
    return Progress(build, lambda said: f"{len(is_done.findall(said))} of {len(crates)} crates proved")


def is_worked_on(crates: Sequence[str]) -> bool:
    """Whether checks of all the crates were run here, from which the tool can go on."""
    return all((TOP / "crates" / name / "out" / "incremental").is_dir() for name in crates)


def build() -> None:
    """Proves and builds the program, unless the one that is kept was proved from the files as they are."""
    with PROVED.alone():
        if PROVED.is_current():
            return
        crates, sources = needed_crates(), PROVED.sum_of_sources()
        PROVED.log.write_bytes(b"")
        by_itself = is_worked_on([name for name in crates if name != PROGRAM])
        with progress(PROVED, crates, IS_DONE_IN_A_RUN if by_itself else IS_DONE_IN_THE_GATE):
            if by_itself:
                PROVED.call(["rt", "run"], CRATE)
                PROVED.note(sources)
                return
            with proved_copy(crates, PROVED) as room:
                PROVED.keep(room / "crates" / PROGRAM / "out" / PROGRAM, sources)


def main(words: list[str]) -> int:
    if words:
        print(f"usage: bin/prove\n\n{__doc__}", file=sys.stdout if words[0] in ("-h", "--help") else sys.stderr)
        return 0 if words[0] in ("-h", "--help") else 2
    end_by_signals()
    try:
        if not PROVED.can_be_made():
            raise Unbuilt("the toolchain isn't here: there is no command rt")
        build()
        PROVED.take()
    except KeyboardInterrupt:
        return 2
    except (Unbuilt, OSError, subprocess.CalledProcessError) as why:
        say_why_not(why)
        return 2
    return subprocess.run([TOP / "bin" / "built", "--version"], env={**os.environ, VARIABLE: PROVED.name}).returncode
