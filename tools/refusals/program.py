"""A program in whose machine code the allocation that is refused can be named."""
from __future__ import annotations

import queue
import re
import shutil
import tempfile
import threading
from collections.abc import Iterator, Sequence
from contextlib import contextmanager
from dataclasses import dataclass
from pathlib import Path

from tools.refusals.building import MARK, Unbuilt
from tools.running import Ended, Files, lay, run

# The code that counts allocations compares the count with MARK, jumps over what follows unless they are equal, and refuses:
# `cmp rax, MARK; jne; xor eax, eax; mov edx, 4096`.
COMPARES = b"\x48\x3d"
JUMP_LENGTH = 2
REFUSES = b"\x31\xc0\xba\x00\x10\x00\x00"
# `ud2`, at which the program ends by a signal. It is as long as `xor eax, eax`, whose place it takes.
STOPS = b"\x0f\x0b"
# A program can't be started while a process that is being started has it open to be written.
STARTING = threading.Lock()


@dataclass(frozen=True)
class Place:
    """A place in the program that counts: where the number is, and where the refusing begins."""

    number: int
    refusing: int


def places_in(program: bytes) -> list[Place]:
    found = []
    for spelled in re.finditer(re.escape(COMPARES + MARK.to_bytes(4, "little")), program):
        refusing = spelled.end() + JUMP_LENGTH
        if not program.startswith(REFUSES, refusing):
            raise Unbuilt("this toolchain refuses an allocation in another way than is known here")
        found.append(Place(spelled.start() + len(COMPARES), refusing))
    if not found:
        raise Unbuilt("this toolchain counts allocations in another way than is known here")
    return found


class Program:
    """A copy of the program, in a file of its own."""

    def __init__(self, program: bytes, path: Path) -> None:
        self.path, self.places = path, places_in(program)
        path.write_bytes(program)
        path.chmod(0o700)

    def set(self, count: int, stops: bool = False) -> None:
        """From now on the allocation of this number is refused; or the program stops at it by a signal."""
        with STARTING, open(self.path, "r+b") as file:
            for place in self.places:
                file.seek(place.number)
                file.write(count.to_bytes(4, "little"))
                file.seek(place.refusing)
                file.write(STOPS if stops else REFUSES[: len(STOPS)])

    def run(self, words: Sequence[str], script: bytes, files: Files, room: Path) -> Ended:
        """Runs it over a script, in a new folder with these files."""
        folder = Path(tempfile.mkdtemp(dir=room))
        try:
            lay(files, folder)
            return run([str(self.path), *words], script, folder, env={}, starting=STARTING)
        finally:
            shutil.rmtree(folder)


class Programs:
    """As many copies of the program as there are jobs, since each has its refused allocation in its bytes."""

    def __init__(self, program: bytes, room: Path, jobs: int) -> None:
        self._free: queue.SimpleQueue[Program] = queue.SimpleQueue()
        for i in range(jobs):
            self._free.put(Program(program, room / f"program-{i}"))

    @contextmanager
    def one(self) -> Iterator[Program]:
        """Lends a copy that nobody else has meanwhile."""
        program = self._free.get()
        try:
            yield program
        finally:
            self._free.put(program)
