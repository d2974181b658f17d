"""Runs of two sites through the library: what they are given, and what they take."""
from __future__ import annotations

import itertools
import os
import pathlib
import random
import shutil
import subprocess
import sys
from collections.abc import Sequence

from traces import TRACES

BENCH = pathlib.Path(__file__).resolve().parent
TOP = BENCH.parent
OUT = TOP / "library" / "out"
NODE = ["node", "--expose-gc", str(BENCH / "library_sites.mjs")]
NODE_PATH = os.environ.get("NODE_PATH", "/usr/share/nodejs")
ENVIRONMENT = {
    **os.environ,
    "NODE_PATH": NODE_PATH,
    "VIALSHOAL_LIBRARY": str(OUT / "libvialshoal.so"),
    "PYTHONPATH": str(TOP / "library" / "python"),
}


def edits_of(name: str, count: int, seed: str) -> tuple[str, str]:
    """The lines of a trace's edits, and the text that they leave: a position, and a character or 0 for a deletion."""
    rng = random.Random(f"{name} {seed}")
    lines: list[str] = []
    text: list[str] = []
    for _, pos, letter in itertools.islice(TRACES[name](rng, 0), count):
        text[pos : pos + (not letter)] = letter
        lines.append(f"{pos} {ord(letter) if letter else 0}\n")
    return "".join(lines), "".join(text)


def without_addon(room: str) -> str:
    """The package of Node as it is where no addon loads."""
    made = pathlib.Path(room) / "node"
    shutil.copytree(OUT / "node", made, ignore=shutil.ignore_patterns("*.node"))
    return f"VIALSHOAL_PACKAGE={made}"


def has_yjs() -> bool:
    return subprocess.run(["node", "-e", "require('yjs')"], env=ENVIRONMENT, capture_output=True, check=False).returncode == 0


def measured(command: Sequence[str | pathlib.Path], mode: str, edits: str, text: str, busy: bool,
             limit: float | None = None) -> tuple[float, int]:
    """The seconds, of the clock or the processors, and the bytes by which the most memory grew. A run that takes longer than a limit
    is ended."""
    ran = subprocess.run([*command, mode], input=edits, env=ENVIRONMENT, capture_output=True, text=True, check=False, timeout=limit)
    figures, _, shown = ran.stdout.partition("\n")
    if ran.returncode or shown != f"{text}\n":
        sys.exit(f"{command}, {mode}: {ran.stderr or 'another text is shown'}")
    clock, processors, grown = figures.split()
    return float(processors if busy else clock), int(grown)
