"""Tells a process that stands still from one that works, or would if others left it a processor."""
import contextlib
import os
import pathlib
from collections.abc import Iterator
from typing import NamedTuple

# The seconds between two looks at a process that is waited for, and the number of looks in a row that find it still before it is
# given up. One that hasn't answered anything yet is given more: it may wait for its own file, which on a disk of FUSE, or of
# another machine, isn't seen from here.
BETWEEN_LOOKS_SECONDS = 0.5
MOST_STILL, MOST_STILL_AT_START = 4, 20
# The seconds of a processor after which one that works is given up.
MOST_WORKING_SECONDS = 30
# It runs or wants to, or waits for the disk.
WORKING = ("R", "D")
TICKS = os.sysconf("SC_CLK_TCK")


class Seen(NamedTuple):
    """What is seen of a process and of those that it started: whether one works, and their seconds of a processor."""

    works: bool
    seconds: float


class Patience:
    """With a process that has something to do, and says nothing."""

    def __init__(self, process: int, has_answered: bool = True):
        self._process, self._still = process, 0
        self._most_still = MOST_STILL if has_answered else MOST_STILL_AT_START
        # Its seconds of a processor, at the first look and at the last one.
        self._first: float | None = None
        self._last: float | None = None

    def is_over(self) -> bool:
        """Whether the process is to be given up, as far as one look more shows. What counts are looks and not the clock, so
        that a machine that stood still itself costs nothing."""
        works, seconds = seen(self._process)
        if self._first is None or self._last is None:
            self._first = self._last = seconds
        self._still = 0 if works or seconds > self._last else self._still + 1
        self._last = seconds
        return self._still >= self._most_still or seconds >= self._first + MOST_WORKING_SECONDS

    def is_still(self) -> bool:
        """Whether the last look found that the process does nothing."""
        return self._still > 0


def seen(process: int) -> Seen:
    """What is seen of a process; nothing works where it has ended."""
    found = [*_stats_of(process)]
    return Seen(any(words[0] in WORKING for words in found), sum(int(words[11]) + int(words[12]) for words in found) / TICKS)


def _stats_of(process: int) -> Iterator[list[str]]:
    """What the system says of a process, and of those that it started, after their names."""
    folder = pathlib.Path(f"/proc/{process}")
    with contextlib.suppress(OSError):
        yield (folder / "stat").read_text(encoding="utf-8", errors="replace").rpartition(")")[2].split()
        # Not every system says which these are.
        for thread in (folder / "task").glob("*/children"):
            for child in thread.read_text(encoding="ascii").split():
                yield from _stats_of(int(child))
