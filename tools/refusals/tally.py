"""What the runs of a script came to."""
from __future__ import annotations

from collections.abc import Iterator, Sequence
from enum import Enum


class Difference(Exception):
    """An answer that isn't the one that it has to be."""


class Outcome(Enum):
    """What came of one refused allocation, where all is as it has to be."""

    EVENT_REFUSED = "events refused"
    PARTIAL = "partial"
    STOPPED = "stopped"
    NOT_WRITTEN = "not written"
    QUERY_REFUSED = "queries refused"
    OPTIONS_NOT_READ = "options not read"
    RUN_REFUSED = "parts of the run refused"
    NO_EFFECT = "without effect"


def ranges(numbers: Sequence[int]) -> list[str]:
    """The stretches of numbers that are among these."""
    found: list[list[int]] = []
    for number in sorted(set(numbers)):
        if found and found[-1][-1] == number - 1:
            found[-1].append(number)
        else:
            found.append([number])
    return [str(it[0]) if len(it) == 1 else f"{it[0]} to {it[-1]}" for it in found]


class Tally:
    """How many runs came to what, and what was different."""

    def __init__(self) -> None:
        self.counts = dict.fromkeys(Outcome, 0)
        self.allocations = 0
        self.differences: list[str] = []
        # By the verb of an event and how many messages or operations it has in all: how many were done where memory was refused.
        self._parts: dict[tuple[str, int], list[int]] = {}

    def add_part(self, verb: str, done: int, total: int) -> None:
        self._parts.setdefault((verb, total), []).append(done)

    def parts(self) -> Iterator[str]:
        for (verb, total), done in sorted(self._parts.items()):
            yield f"{verb}: {', '.join(ranges(done))} of {total} done"

    def add(self, other: Tally) -> None:
        self.allocations += other.allocations
        for outcome, count in other.counts.items():
            self.counts[outcome] += count

    def __str__(self) -> str:
        counts = ", ".join(f"{count} {outcome.value}" for outcome, count in self.counts.items() if count)
        return f"{self.allocations} allocations: {counts or 'none refused'}"
