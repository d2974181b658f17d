"""Runs the toolchain's gate, `rt ci`, and reports its costs: the processor seconds of each crate by kind, and the longest chain of crates
that wait for one another. After a gate that passed, the proved program is the one that bin/built runs."""
from __future__ import annotations

import os
import re
import subprocess
import sys
import threading
from collections.abc import Iterable, Iterator, Mapping
from enum import Enum
from pathlib import Path
from typing import NamedTuple

from tools.building import PROVED, crate_lines, uses

CRATE = re.compile(r"\brattle (?:build|check) .*?--crate-name (\S+)")
# The folders in which the toolchain tries edits, and the folders of the proofs with which edits begin.
OF_EDITS = re.compile(r"/rt-edits?-\d+-")
# How often processes are looked at. One that ends sooner isn't seen.
SECONDS = 0.2
TICK = os.sysconf("SC_CLK_TCK")


class Kind(Enum):
    """The kinds of work that the toolchain does with a crate."""

    PROOF = "proof and build"
    EDITS = "edits"


class Process(NamedTuple):
    """One process of the toolchain: a unique name, its crate, its kind of work, and its processor seconds up to now."""

    name: str
    crate: str
    kind: Kind
    seconds: float


Costs = Mapping[tuple[str, Kind], float]


def kind_of(words: str, folder: str) -> Kind:
    """Return the kind of work of a process, by its command line and its folder."""
    return Kind.EDITS if OF_EDITS.search(words) or OF_EDITS.search(folder) else Kind.PROOF


def processes() -> Iterator[Process]:
    """Yield the processes of this session in which the toolchain proves a crate."""
    session = str(os.getsid(0))
    for folder in Path("/proc").glob("[0-9]*"):
        try:
            words = (folder / "cmdline").read_bytes().replace(b"\0", b" ").decode("utf-8", "replace")
            fields = (folder / "stat").read_text().rpartition(")")[2].split()
            if (found := CRATE.search(words)) and fields[3] == session:
                kind = kind_of(words, os.readlink(folder / "cwd"))
                yield Process(f"{folder.name} {fields[19]}", found[1], kind, (int(fields[11]) + int(fields[12])) / TICK)
        except OSError:
            continue


class Watch(threading.Thread):
    """Looks at the processes of the toolchain until it is stopped."""

    def __init__(self) -> None:
        super().__init__(daemon=True)
        self.stopped = threading.Event()
        self.seen: dict[str, Process] = {}

    def run(self) -> None:
        while not self.stopped.wait(SECONDS):
            self.seen |= {one.name: one for one in processes()}

    def stop(self) -> Costs:
        """Stop, and return the processor seconds by crate and kind."""
        self.stopped.set()
        self.join()
        sums: dict[tuple[str, Kind], float] = {}
        for one in self.seen.values():
            sums[one.crate, one.kind] = sums.get((one.crate, one.kind), 0) + one.seconds
        return sums


def longest(costs: Costs, lines: Mapping[str, str]) -> list[str]:
    """Return the chain of crates whose proofs take longest, from the bottom."""
    ways: dict[str, list[str]] = {}

    def length(way: list[str]) -> float:
        return sum(costs.get((crate, Kind.PROOF), 0) for crate in way)

    def way_to(crate: str) -> list[str]:
        if crate not in ways:
            below = [way_to(one) for one in uses(lines[crate]) if one in lines]
            ways[crate] = [*max(below, key=length, default=[]), crate]
        return ways[crate]

    return max(map(way_to, lines), key=length, default=[])


def table(costs: Costs) -> Iterator[str]:
    """Yield a line for each crate that was proved, the dearest first."""
    crates = {crate for crate, _ in costs}
    total = {crate: sum(costs.get((crate, kind), 0) for kind in Kind) for crate in crates}
    if crates:
        yield f"proofs: {'crate':28}{''.join(f'{kind.value:>18}' for kind in Kind)}   (processor seconds)"
    for crate in sorted(crates, key=lambda one: (-total[one], one)):
        yield f"proofs: {crate:28}{''.join(f'{costs.get((crate, kind), 0):18.0f}' for kind in Kind)}"


def summary(costs: Costs, lines: Mapping[str, str]) -> str:
    """Return the sums in a line, with the longest chain."""
    way = longest(costs, lines)
    chain = sum(costs.get((crate, Kind.PROOF), 0) for crate in way)
    kinds = ", ".join(f"{kind.value} {_sum(costs, [kind]):.0f}" for kind in Kind)
    return f"proofs: {_sum(costs, Kind):.0f} processor seconds ({kinds}); the longest chain of proofs {chain:.0f}: {' '.join(way)}"


def _sum(costs: Costs, kinds: Iterable[Kind]) -> float:
    wanted = {*kinds}
    return sum(seconds for (_, kind), seconds in costs.items() if kind in wanted)


def run(command: list[str]) -> int:
    """Run a command, and print its costs before its last line. Return its status."""
    watch, out, last = Watch(), sys.stdout, ""
    watch.start()
    with subprocess.Popen(command, stdout=subprocess.PIPE, stderr=subprocess.STDOUT, encoding="utf-8",
                          errors="backslashreplace") as running:
        assert running.stdout is not None
        for line in running.stdout:
            out.write(last)
            out.flush()
            last = line
    costs = watch.stop()
    print(*table(costs), summary(costs, crate_lines()), last, sep="\n", end="", flush=True)
    return running.returncode


def main() -> int:
    """Prove everything, and keep the program that was proved."""
    sources = PROVED.sum_of_sources()
    if status := run(["rt", "ci"]):
        return status
    PROVED.note(sources)
    PROVED.take()
    return 0


if __name__ == "__main__":
    sys.exit(main())
