"""Packages for a processor that isn't here are tried by an emulator of it."""
from __future__ import annotations

import os
import shlex
import subprocess
from concurrent.futures import ThreadPoolExecutor
from typing import TYPE_CHECKING

from tools import TOP, rows
from tools.packages import making
from tools.packages.calling import Words, call
from tools.packages.examples import MEETS, example
from tools.packages.release import NAME
from tools.packages.roots import foreign_root
from tools.play_rows import play

if TYPE_CHECKING:
    from tools.packages.trying import Trial

# An emulator takes many times as long as a processor.
SECONDS = 1800
# What the objects of ordinary Rust need beside the C library.
MORE = "-lgcc_s"


def all_rows(trial: Trial) -> None:
    """Plays the rows by the Debian package's program."""
    folder, processor = trial.folder("emulated"), trial.wish.processors[0]
    call(["dpkg-deb", "--extract", trial.of(".deb"), folder])
    runs, program = folder / "runs", folder / "usr/lib" / NAME / "crates/site_cli/out/site_cli"
    runs.write_text(f'#!/bin/sh\nexec {shlex.join([*processor.runs, str(program)])} "$@"\n')
    runs.chmod(0o755)
    with ThreadPoolExecutor(os.cpu_count()) as threads:
        found = threads.map(lambda name: (name, play(rows.load(name), str(runs), SECONDS)), rows.names())
    faults = [f"{name}: {'; '.join(told)}" for name, told in found if told]
    assert not faults, "\n".join(faults)
    print(f"{len(rows.names())} rows passed")


def calls(trial: Trial) -> None:
    """Runs the test of the library's calls, in which each allocation is refused in turn."""
    folder, wish = trial.folder("border"), trial.wish
    built = making.builds(wish, wish.processors[0], folder)
    border, library = folder / "border", TOP / "library"
    words: Words = [built.processor.compiler, "-std=c11", "-O2", "-Wl,--wrap=malloc,--wrap=realloc", "-I", library, "-o", border]
    call([*words, library / "test" / "border.c", built.archive(), MORE])
    call([*built.processor.runs, border], folder)


def in_python(trial: Trial) -> None:
    """Runs the page's lines over the wheel, by Python for that processor."""
    folder, processor = trial.folder("python"), trial.wish.processors[0]
    root = foreign_root(folder / "root", processor.debian, "python3")
    call(["unzip", "-q", trial.of(".whl"), "-d", folder / "site"])
    python = min((root / "usr" / "bin").glob("python3.*[0-9]"))
    environment = {**os.environ, "PYTHONPATH": str(folder / "site")}
    meets = example("LIBRARY.md", "In Python", folder, "meet.py")
    said = call([processor.emulator, "-L", root, python, "-B", meets], folder, environment)
    subprocess.run(["rm", "-rf", "--one-file-system", root], check=True)
    assert said == f"b'{MEETS}'\n", said
