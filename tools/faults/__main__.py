"""Makes each system call of scripts fail alone, and compares what follows with what the pages say.

`bin/faults` plays everything, `bin/faults NAME..` some of it, `bin/faults --few` a choice that takes seconds. A call of a file
or of standard input or output fails with EIO, ENOSPC, EINTR or ENOMEM, or is made with fewer bytes, or the program is killed
there. It takes the program that was built last; VIALSHOAL_PROGRAM may name another. Its files are in a folder that is removed. The
whole takes a minute or two, and isn't part of bin/test; tools/README.md says how it works.

The last line is 'N passed, M failed'. Ends with 0 where nothing differs."""
from __future__ import annotations

import argparse
import os
import signal
import sys
import time
from collections.abc import Callable, Sequence
from pathlib import Path

from tools.faults.cases import CASES
from tools.faults.playing import Player
from tools.faults.scripts import four_mib, scripts
from tools.faults.together import PAIRS, Pair
from tools.faults.tracing import Untraceable
from tools.faults.trying import Tally, Trial
from tools.play_rows import NOTHING_BUILT, program
from tools.refusals.scripts import Script
from tools.refusals.tally import Difference
from tools.running import folder_in_memory

FEW = [
    "among-leftovers", "leftovers", "pipe", "link", "mode-600", "mode-640", "mode-of-a-new-file", "two-sites", "past-4-mib", "too-long",
    "writer-and-reader",
]  # fmt: skip
MOST_SHOWN = 20

# What is tried, by its name.
Tries = dict[str, Callable[[Player], Tally]]


def tried_script(script: Script) -> Callable[[Player], Tally]:
    return lambda player: Trial(script, player).try_all()


def tried_case(holds: Callable[[Player], None]) -> Callable[[Player], Tally]:
    def tries(player: Player) -> Tally:
        tally = Tally()
        try:
            holds(player)
        except Difference as why:
            tally.differences.append(str(why))
        return tally

    return tries


def tried_pair(first: Script, second: Script, step: int) -> Callable[[Player], Tally]:
    return lambda player: Tally(differences=Pair(player, first, second).hold_everywhere(step))


def all_tries(few: bool) -> Tries:
    pairs = {f"{one.name}-and-{other.name}": tried_pair(one, other, 7 if few else 1) for one, other in PAIRS}
    return {
        **{script.name: tried_script(script) for script in [*scripts(), four_mib()]},
        **{name: tried_case(holds) for name, holds in CASES.items()},
        **pairs,
    }


def play(tries: Tries, player: Player) -> bool:
    began, failed, in_all = time.monotonic(), 0, Tally()
    for name, one in tries.items():
        runs = player.runs
        tally = one(player)
        print(f"{name}: {player.runs - runs} runs{tally}", flush=True)
        for line in tally.differences[:MOST_SHOWN]:
            print(f"    {line}", flush=True)
        failed += bool(tally.differences)
        in_all.add(tally)
        player.forget()
    print(f"in all: {player.runs} runs in {time.monotonic() - began:.0f} seconds{in_all}")
    print(f"{len(tries) - failed} passed, {failed} failed")
    return failed == 0


def untried(why: str, few: bool) -> int:
    """Where no process may be held, the tests go on without these."""
    print(f"faults: nothing is tried: {why}", file=sys.stderr)
    if few:
        print("0 passed, 0 failed")
    return 0 if few else 2


def parser() -> argparse.ArgumentParser:
    words = argparse.ArgumentParser(prog="faults", description=__doc__, formatter_class=argparse.RawDescriptionHelpFormatter)
    words.add_argument("--few", action="store_true", help="a choice that takes seconds")
    words.add_argument("--list", action="store_true", help="print the names")
    words.add_argument("names", nargs="*", help="what is played")
    return words


def main(words: Sequence[str]) -> int:
    given, command = parser().parse_args(words), program(itself=True)
    tries = all_tries(given.few)
    names = given.names or (FEW if given.few else list(tries))
    unknown = [name for name in names if name not in tries]
    if given.list:
        print(*tries, sep="\n")
        return 0
    if unknown or command is None or not os.access(command, os.X_OK):
        print(f"faults: {f'there is no {unknown[0]}' if unknown else NOTHING_BUILT}", file=sys.stderr)
        return 2
    # So that the folder is removed.
    signal.signal(signal.SIGTERM, lambda *_: sys.exit(2))
    try:
        with folder_in_memory("faults-") as made:
            return 0 if play({name: tries[name] for name in names}, Player(command, Path(made))) else 1
    except KeyboardInterrupt:
        return 2
    except Untraceable as why:
        return untried(str(why), given.few)


if __name__ == "__main__":
    sys.exit(main(sys.argv[1:]))
