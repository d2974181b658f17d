"""A search for a claim of the second form, in a process of its own, so that nobody who types waits for it: it takes seconds.

`python -m share.program.claim_search NOTE AUTHOR ZERO_BITS PARENT` reads which numbers are taken, a bit each, prints the counter of a
claim, and ends; or ends without one where its parent, by number, has ended.
"""
import contextlib
import os
import secrets
import subprocess
import sys
from collections.abc import Collection, Container, Iterator
from itertools import chain, count, takewhile

from share.format.entry import GREATEST_SITE
from share.format.second.claim import ZERO_BITS, Found, found_among, number_of_rank, rank_of
from share.log.polling import can_read
from share.program.process import TOP
from share.text.errors import Trouble

# The counters that are tried between two looks at whether the parent is there, which take some hundredths of a second.
AT_ONE_LOOK = 1 << 15
# The search begins anywhere, so that two of one author seldom try the same.
BEGIN_BITS = 63
BITS_BYTES = GREATEST_SITE // 8 + 1
# It gives way to whoever types.
NICENESS = 10


class Taken(Container[int]):
    """Numbers, a bit each."""

    def __init__(self, bits: bytes):
        self._bits = bits

    @classmethod
    def of(cls, numbers: Collection[int]) -> bytes:
        """The bits of some numbers."""
        bits = bytearray(BITS_BYTES)
        for number in numbers:
            bits[number >> 3] |= 1 << (number & 7)
        return bytes(bits)

    def __contains__(self, number: object) -> bool:
        return isinstance(number, int) and bool(self._bits[number >> 3] >> (number & 7) & 1)


class ClaimSearch:
    """A search that goes on in a process of its own. Who polls its descriptor is woken when it has ended."""

    def __init__(self, note: bytes, author: bytes, taken: Collection[int] = (), zero_bits: int = ZERO_BITS):
        """It searches past numbers that are taken: held by others, or of the base."""
        self._note, self._author, self._zero_bits = note, author, zero_bits
        words = [sys.executable, "-B", "-m", "share.program.claim_search", note.hex(), author.hex(), str(zero_bits), str(os.getpid())]
        try:
            self._process = subprocess.Popen(words, stdin=subprocess.PIPE, stdout=subprocess.PIPE, stderr=subprocess.DEVNULL, bufsize=0,
                                             start_new_session=True, cwd=TOP)
        except OSError as why:
            raise Trouble(f"No number can be searched for: {why.strerror}.") from why
        assert self._process.stdin and self._process.stdout
        self._out, self._found = self._process.stdout, b""
        # So few bytes a pipe takes at once, whether they are read or not.
        with contextlib.suppress(BrokenPipeError), self._process.stdin as pipe:
            pipe.write(Taken.of(taken))

    def fileno(self) -> int:
        """What can be read once it has ended."""
        return self._out.fileno()

    def found(self) -> Found | None:
        """What it found, None while it searches; Trouble where it ended with nothing."""
        if not self._found and not can_read(self, 0):
            return None
        self._found = self._found or self._out.read(BITS_BYTES) or b""
        counter = int(self._found) if self._found.strip().isdigit() else 0
        number = number_of_rank(rank_of(self._note, self._author, counter), self._zero_bits)
        if not self._found or number is None:
            raise Trouble("The search for a number ended, and found none.")
        return Found(counter, number)

    def close(self) -> None:
        """Ends the search."""
        self._process.kill()
        self._process.wait()
        self._out.close()


def searched(note: bytes, author: bytes, taken: Container[int], zero_bits: int, parent: int) -> Iterator[Found]:
    """What is found as long as a parent lives."""
    begins = count(secrets.randbits(BEGIN_BITS), AT_ONE_LOOK)
    batches = takewhile(lambda _: os.getppid() == parent, begins)
    return chain.from_iterable(found_among(range(begin, begin + AT_ONE_LOOK), note, author, taken, zero_bits) for begin in batches)


def print_claim(words: list[str]) -> int:
    """Searches, and prints the counter of a claim."""
    note, author, zero_bits, parent = words
    os.nice(NICENESS)
    taken = Taken(sys.stdin.buffer.read(BITS_BYTES).ljust(BITS_BYTES, b"\0"))
    found = next(searched(bytes.fromhex(note), bytes.fromhex(author), taken, int(zero_bits), int(parent)), None)
    if found:
        print(found.counter, flush=True)
    return 0 if found else 1


if __name__ == "__main__":
    sys.exit(print_claim(sys.argv[1:]))
