"""Running a step of tests: its output is passed on, its counts are read from its last line, and a failed step is run once more."""
from __future__ import annotations

import os
import re
import resource
import subprocess
import sys
import time
from collections.abc import Iterator, Mapping, Sequence
from dataclasses import dataclass, field
from typing import NamedTuple

from tools import TOP

COUNTED = re.compile(r"(\d+) passed, (\d+) failed(?: \(.*\))?")
# The words with which a step names an unsteady test (it failed, then passed) and a failed one.
UNSTEADY, FAIL = "UNSTEADY", "FAIL"
# The variable with the seed of random tests, and its value if it isn't set.
SEED_VARIABLE, SEED = "VIALSHOAL_SEED", "1"


class Step(NamedTuple):
    """A command of tests. `again` is false if the command itself runs failed tests again; `apart` has its counts printed apart, too;
    `needed` ends the whole run if it fails; `may_be_empty` allows that it tests nothing."""

    words: Sequence[str]
    environment: Mapping[str, str] = {}
    again: bool = True
    apart: bool = False
    needed: bool = False
    may_be_empty: bool = False

    def name(self) -> str:
        """Return the command as one would type it."""
        return " ".join([*(f"{name}={value}" for name, value in self.environment.items()), *self.words])


@dataclass(frozen=True)
class Ran:
    """The result of running a step: its status, its counts, and the lines in which it named failed and unsteady tests."""

    status: int
    passed: int
    failed: int
    named: Sequence[str] = field(default=())

    def is_good(self) -> bool:
        """Say whether it ended well and nothing failed."""
        return not self.status and not self.failed


def load() -> str:
    """Return the load of the machine: processes that ran or waited to run, as a mean of the last minute."""
    return f"{os.getloadavg()[0]:.1f}"


def seed() -> str:
    """Return the seed with which tests draw at random."""
    return os.environ.get(SEED_VARIABLE, SEED)


def unsteady(name: str) -> str:
    """Return the line for a test that failed at first and then passed, alone and with its seed."""
    return f"{UNSTEADY} {name} seed {seed()} load {load()}"


def processor_seconds() -> float:
    """Return the processor seconds of all commands that this process has waited for."""
    used = resource.getrusage(resource.RUSAGE_CHILDREN)
    return used.ru_utime + used.ru_stime


def lines_of(step: Step, ended: list[int]) -> Iterator[str]:
    """Run a step and yield its lines; add its status to `ended`."""
    with subprocess.Popen([*step.words], cwd=TOP, env={**os.environ, **step.environment}, stdin=subprocess.DEVNULL,
                          stdout=subprocess.PIPE, stderr=subprocess.STDOUT, encoding="utf-8", errors="backslashreplace") as process:
        assert process.stdout is not None
        yield from process.stdout
    ended.append(process.returncode)


def once(step: Step) -> Ran:
    """Run a step once. Print its output, then its time, its processor seconds and the load."""
    began, used, ended = time.monotonic(), processor_seconds(), list[int]()
    last, named = "", list[str]()
    try:
        for line in lines_of(step, ended):
            sys.stdout.write(line)
            sys.stdout.flush()
            last = line.strip() or last
            if line.startswith((f"{UNSTEADY} ", f"{FAIL}: ")):
                named.append(line.rstrip())
    except OSError as why:
        print(f"test: {step.name()} can't be run: {why}")
        ended.append(2)
    print(f"test: {step.name()} took {time.monotonic() - began:.0f} seconds, {processor_seconds() - used:.0f} of processors, load {load()}",
          flush=True)
    counted = COUNTED.fullmatch(last)
    passed, failed = (int(counted[1]), int(counted[2])) if counted else (0, 1)
    if not passed + failed and not step.may_be_empty:
        print(f"test: {step.name()} tested nothing", flush=True)
        failed = 1
    return Ran(ended[0], passed, failed or int(ended[0] != 0), tuple(dict.fromkeys(named)))


def run(step: Step) -> Ran:
    """Run a step, and once more if it failed, unless it itself runs failed tests again. A step that passes the second time is unsteady."""
    ran = once(step)
    if ran.is_good() or not step.again:
        return ran
    print(f"test: {step.name()} is run once more, alone", flush=True)
    second = once(step)
    return Ran(0, second.passed, 0, [*second.named, unsteady(step.name())]) if second.is_good() else second
