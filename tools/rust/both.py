"""A program that is two: it hands what it reads to both, each in a folder of its own, and writes what both write.

`python3 -B -m tools.rust.both ROOM ONE OTHER WORD..` ends with 99 where they differ, and says so on standard error. What lies in
the folder where it is called is copied into the folder ROOM, which the caller removes, since it may be killed itself."""
from __future__ import annotations

import os
import shutil
import subprocess
import sys
import tempfile
import threading
from collections.abc import Sequence
from pathlib import Path

from tools.running import files_below

DIFFERENT = 99
BLOCK = 1 << 16


class Output:
    """What two programs wrote so far, and how much of it both did."""

    def __init__(self) -> None:
        self.wrote = (bytearray(), bytearray())
        self.done, self.same = 0, True
        self.lock = threading.Lock()

    def add(self, which: int, data: bytes) -> None:
        """Puts out what both have written by now."""
        with self.lock:
            self.wrote[which].extend(data)
            count = min(map(len, self.wrote))
            one, other = (it[self.done : count] for it in self.wrote)
            self.same = self.same and one == other
            if one and self.same:
                sys.stdout.buffer.write(one)
                sys.stdout.buffer.flush()
            self.done = count

    def ends_alike(self) -> bool:
        return self.same and len(self.wrote[0]) == len(self.wrote[1])


def pump(process: subprocess.Popen[bytes], which: int, output: Output) -> None:
    assert process.stdout
    while data := os.read(process.stdout.fileno(), BLOCK):
        output.add(which, data)


def hand(processes: Sequence[subprocess.Popen[bytes]]) -> None:
    """Hands all that comes to both, as it comes."""
    while data := os.read(sys.stdin.fileno(), BLOCK):
        for process in processes:
            assert process.stdin
            try:
                process.stdin.write(data)
                process.stdin.flush()
            except BrokenPipeError:
                pass
    for process in processes:
        assert process.stdin
        try:
            process.stdin.close()
        except BrokenPipeError:
            pass


def play(commands: Sequence[str], words: Sequence[str], other: Path) -> int:
    here, output = Path.cwd(), Output()
    shutil.copytree(here, other)
    processes = [
        subprocess.Popen([command, *words], cwd=folder, stdin=subprocess.PIPE, stdout=subprocess.PIPE)
        for command, folder in zip(commands, (here, other))
    ]
    pumps = [threading.Thread(target=pump, args=(process, which, output)) for which, process in enumerate(processes)]
    for each in pumps:
        each.start()
    hand(processes)
    for each in pumps:
        each.join()
    statuses = [process.wait() for process in processes]
    if not output.ends_alike() or statuses[0] != statuses[1] or files_below(here) != files_below(other):
        print(f"both: they differ, after {output.done} bytes that both wrote", file=sys.stderr)
        return DIFFERENT
    return statuses[0]


def main(words: Sequence[str]) -> int:
    other = Path(tempfile.mkdtemp(dir=words[0])) / "folder"
    ended = play(words[1:3], words[3:], other)
    shutil.rmtree(other.parent)
    return ended


if __name__ == "__main__":
    sys.exit(main(sys.argv[1:]))
