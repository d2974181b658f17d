"""How much is read of a log at once: little at first, so that something is seen soon where the line is slow."""
import time
from collections.abc import Iterable, Iterator
from contextlib import contextmanager

# The least and the most bytes of a reading. Each next one may have twice as much where it took less than the one time, and half where it
# took more than the other.
LEAST_ROOM, MOST_ROOM = 2**14, 2**20
QUICK_READING_SECONDS, SLOW_READING_SECONDS = 0.3, 1.0


class PageSize:
    """The bytes of the next reading, which go by how long those before it took."""

    def __init__(self) -> None:
        self.room = LEAST_ROOM

    @contextmanager
    def timed(self) -> Iterator[None]:
        """What is done meanwhile is a reading."""
        begin = time.monotonic()
        yield
        seconds = time.monotonic() - begin
        if seconds < QUICK_READING_SECONDS:
            self.room = min(2 * self.room, MOST_ROOM)
        elif seconds > SLOW_READING_SECONDS:
            self.room = max(self.room // 2, LEAST_ROOM)


def batches(raws: Iterable[bytes], most: int, overhead: int) -> Iterator[list[bytes]]:
    """Entries in parts that are appended at once, each of no more bytes than this with what an entry costs besides, unless it is one
    entry."""
    part: list[bytes] = []
    size = 0
    for raw in raws:
        if part and size + len(raw) + overhead > most:
            yield part
            part, size = [], 0
        part.append(raw)
        size += len(raw) + overhead
    if part:
        yield part
