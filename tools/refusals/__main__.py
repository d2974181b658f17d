"""Refuses each allocation of a script alone, the first, the second and so on up to the last, and compares what is answered.

`bin/refusals` plays all scripts, `bin/refusals NAME..` some. The program is built once, by the toolchain's `rt try --fail-alloc`:
unproved, and with checks of each access to memory. `--keep FILE` keeps it for the next time. All else lies in a folder that is
removed. The gate doesn't run this; the whole takes some twenty minutes on two processors. tools/README.md says how it works.

Ends with 0 where nothing differs."""
from __future__ import annotations

import argparse
import sys
import tempfile
from collections.abc import Sequence
from pathlib import Path

from tools.refusals.building import Unbuilt, build
from tools.refusals.playing import Play, Player
from tools.refusals.program import Programs
from tools.refusals.scripts import Script, scripts
from tools.refusals.tally import Difference, Tally
from tools.running import read

# What one line more may cost.
MOST_PER_EVENT = 40
COUNT = "count"


def count_in_lines(programs: Programs, folder: Path) -> bool:
    """How many allocations one line more costs, where a hundred come before it."""
    counts = []
    for lines in (100, 101):
        script = Script(COUNT, ["1 type 1 0 a"] * lines, ("--count", "1"))
        counts.append(Player(script, programs, folder).count_allocations(script.lines) + 1)
    is_good = counts[1] - counts[0] <= MOST_PER_EVENT
    print(f"count: A(100) is {counts[0]}, A(101) is {counts[1]}{'' if is_good else f', which is more than {MOST_PER_EVENT} more'}")
    return is_good


def play(script: Script, programs: Programs, folder: Path, jobs: int) -> Tally:
    try:
        tally = Play(script, programs, folder).try_all(jobs)
    except Difference as why:
        tally = Tally()
        tally.differences.append(str(why))
    print(f"{script.name}: {tally}", flush=True)
    for line in [*tally.parts(), *tally.differences]:
        print(f"    {line}", flush=True)
    return tally


def play_scripts(names: Sequence[str], program: bytes, room: Path, jobs: int) -> bool:
    programs, folder = Programs(program, room, jobs), room / "folders"
    folder.mkdir()
    played, failed, in_all = 0, 0, Tally()
    for script in scripts():
        if names and script.name not in names:
            continue
        tally = play(script, programs, folder, jobs)
        failed += bool(tally.differences)
        played += 1
        in_all.add(tally)
    if not names or COUNT in names:
        failed += not count_in_lines(programs, folder)
        played += 1
    print(f"in all: {in_all}")
    print(f"{played - failed} passed, {failed} failed")
    return failed == 0


def kept_or_built(keep: Path | None, room: Path) -> bytes:
    program = read(keep) if keep else b""
    if not program:
        program = build("site_cli", room)
        if keep:
            keep.write_bytes(program)
    return program


def parser() -> argparse.ArgumentParser:
    words = argparse.ArgumentParser(prog="refusals", description=__doc__, formatter_class=argparse.RawDescriptionHelpFormatter)
    words.add_argument("--keep", metavar="FILE", type=Path, help="take the built program from this file, or keep it there")
    words.add_argument("--jobs", type=int, default=2, help="how many runs go side by side (2)")
    words.add_argument("names", nargs="*", help="scripts")
    return words


def main(words: Sequence[str]) -> int:
    given = parser().parse_args(words)
    jobs = max(1, given.jobs)
    try:
        known = [script.name for script in scripts()] + [COUNT]
        unknown = [name for name in given.names if name not in known]
        if unknown:
            print(f"refusals: no script {unknown[0]}; there are {', '.join(known)}", file=sys.stderr)
            return 2
        with tempfile.TemporaryDirectory(prefix="refusals-") as room:
            program = kept_or_built(given.keep, Path(room))
            return 0 if play_scripts(given.names, program, Path(room), jobs) else 1
    except Unbuilt as why:
        print(f"refusals: {why}", file=sys.stderr)
        return 2


if __name__ == "__main__":
    sys.exit(main(sys.argv[1:]))
