"""Whether a note of the core, built as ordinary Rust, agrees with the plain program on what counts of sets of entries made at random, what
becomes of the next messages, and what texts show: `python3 -m share.tests.note_agreement N SEED` tries N sets."""
import os
import pathlib
import random
import subprocess
import sys
import time
from collections.abc import Iterator
from itertools import islice

from share.tests.note_rows import Rows
from share.tests.second_agreement import SAID, Reader, a_set, parts

CARGO = pathlib.Path(__file__).resolve().parents[2] / "rust" / "Cargo.toml"
PLAYS = ["cargo", "run", "--offline", "--quiet", "--release", "--manifest-path", str(CARGO), "-p", "calls", "--example", "note_agreement"]


def main(count: int, seed: int) -> int:
    """Writes the rows of so many sets to the program that plays them; its exit status."""
    with subprocess.Popen(PLAYS, stdin=subprocess.PIPE, text=True) as plays:
        assert plays.stdin
        try:
            for tried, rows in enumerate(islice(rows_of_sets(seed), count), 1):
                plays.stdin.writelines(f"{row}\n" for row in rows)
                if tried % SAID == 0:
                    print(f"{tried} sets written", file=sys.stderr)
            plays.stdin.close()
        except BrokenPipeError:
            print(f"after {tried} sets were written")
    return plays.returncode


def rows_of_sets(seed: int) -> Iterator[list[str]]:
    """The rows of one set after the other."""
    chance = random.Random(seed)
    while True:
        one = a_set(chance)
        found = Rows(one, Reader(one), chance)
        begin = [*found.of_note()]
        for some in parts(one, chance):
            yield [*begin, *found.of_part(some)]
            begin = []


if __name__ == "__main__":
    began, cpu = time.monotonic(), time.process_time()
    status = main(int(sys.argv[1]), int(sys.argv[2]))
    print(f"{sys.argv[1]} sets by seed {sys.argv[2]}, {'all agreed' if status == 0 else 'not all agreed'}: {time.monotonic() - began:.0f} s"
          f" ({time.process_time() - cpu:.0f} s of a processor, {os.times().children_user:.0f} s of the core)")
    print(f"{sys.argv[1]} passed, 0 failed" if status == 0 else "0 passed, 1 failed")
    sys.exit(status)
