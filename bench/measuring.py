"""Runs a command that answers scripts: what it answers, how long it takes, in how much memory, and in how many instructions."""
from __future__ import annotations

import ctypes
import dataclasses
import functools
import os
import pathlib
import re
import shutil
import signal
import subprocess
import sys
import tempfile
import time
from collections.abc import Sequence
from typing import TextIO

TOP = pathlib.Path(__file__).resolve().parent.parent
PR_SET_CHILD_SUBREAPER = 36
PR_SET_THP_DISABLE = 41
COUNTED = re.compile(rb"Collected : (\d+)")
STARTED = """
    folder=$1; shift
    exec 3<&0
    { read -r go <&3 && exec "$@" <"$folder/script" >"$folder/answers" 3<&-; } & echo $!
"""


@dataclasses.dataclass
class Run:
    """The answer lines, the seconds, and the bytes that were resident at the peak."""

    answers: list[str]
    seconds: float
    peak: int


def started(command: Sequence[str], folder: str) -> tuple[int, TextIO]:
    """The number of a process that is to answer the folder's script, and the pipe on whose first line it begins.

    A process takes over the peak of the one that starts it. So a small one starts it here, a shell, and leaves it to us."""
    ctypes.CDLL(None).prctl(PR_SET_CHILD_SUBREAPER, 1, 0, 0, 0)
    words = ["sh", "-c", STARTED, "sh", folder, *command]
    reading, writing = os.pipe()
    with subprocess.Popen(words, stdin=reading, stdout=subprocess.PIPE) as shell:
        assert shell.stdout
        number = int(shell.stdout.readline())
    os.close(reading)
    return number, os.fdopen(writing, "w")


def run(command: Sequence[str], script: bytes, busy: bool = False) -> Run:
    """The run of a command over a script of bytes. On a busy machine its seconds are those of processors, and not the clock's."""
    with tempfile.TemporaryDirectory() as folder:
        (pathlib.Path(folder) / "script").write_bytes(script)
        number, pipe = started(command, folder)
        begin = time.perf_counter()
        print("go", file=pipe, flush=True)
        try:
            _, status, used = os.wait4(number, 0)
        except KeyboardInterrupt:
            os.kill(number, signal.SIGKILL)
            raise
        seconds = used.ru_utime + used.ru_stime if busy else time.perf_counter() - begin
        pipe.close()
        if code := os.waitstatus_to_exitcode(status):
            sys.exit(f"{' '.join(command)} ended with {code}")
        answers = (pathlib.Path(folder) / "answers").read_text().splitlines()
    return Run(answers, seconds, used.ru_maxrss * 1024)


def without_large_pages() -> None:
    """Has the system give all that is started from now on memory in small pages alone, so that it counts as it is used."""
    ctypes.CDLL(None).prctl(PR_SET_THP_DISABLE, 1, 0, 0, 0)


def instructions(command: Sequence[str], script: bytes) -> int:
    """How many the command takes for a script, by valgrind."""
    words = ["valgrind", "--tool=callgrind", "--callgrind-out-file=/dev/null", *command]
    ended = subprocess.run(words, input=script, stdout=subprocess.DEVNULL, stderr=subprocess.PIPE, check=True)
    if not (found := COUNTED.search(ended.stderr)):
        sys.exit("valgrind counted nothing")
    return int(found[1])


def ordinary() -> list[str] | None:
    """The program as ordinary Rust, which is built where that is needed; none without cargo, which is said."""
    if shutil.which("cargo") is None:
        print("there is no cargo, so nothing is counted\n0 passed, 0 failed")
        return None
    environment = {**os.environ, "VIALSHOAL_BUILD": "rust"}
    subprocess.run([TOP / "bin" / "site_cli"], stdin=subprocess.DEVNULL, env=environment, check=True)
    return [str(TOP / "out" / "rust" / "site_cli")]


@functools.cache
def by_library(module: str) -> list[str]:
    """Return the command that plays a script through the library by a module of this folder. Cargo builds the library as ordinary Rust."""
    workspace = TOP / "rust"
    subprocess.run(["cargo", "build", "--quiet", "--release", "--offline", "--locked", "-p", "vialshoal_c"], cwd=workspace, check=True)
    library = workspace / "target" / "release" / "libvialshoal_c.so"
    return [sys.executable, "-B", str(TOP / "bench" / f"{module}.py"), str(library)]
