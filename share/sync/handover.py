"""Rows on their way from the fetcher to the editor's thread, so that this one needn't read back what was just written to the file."""
import threading
from collections import deque
from collections.abc import Sequence

from share.admission.ledger import Row
from share.log.folder import Inode

# The most bytes of entries on their way. What is more is read from the file.
MOST_HANDED = 2**21


class Handover:
    """Rows of a file that are in it for good, by their places. Whoever takes them looks in the file for all that isn't here, so what
    is here says only what needn't be read there. Any thread may call it."""

    def __init__(self) -> None:
        self._lock = threading.Lock()
        # The file; rows that follow one another in it, each time with the place after which they do; and the bytes of all.
        self._file: Inode | None = None
        self._pages: deque[tuple[int, deque[Row]]] = deque()
        self._bytes = 0

    def put(self, file: Inode | None, after: int, rows: Sequence[Row]) -> None:
        """Hands over rows that directly follow a place of a file, unless there are too many on their way."""
        size = sum(len(row.entry.raw) for row in rows)
        with self._lock:
            if file != self._file:
                self._file, self._bytes = file, 0
                self._pages.clear()
            if rows and self._bytes + size <= MOST_HANDED:
                self._pages.append((after, deque(rows)))
                self._bytes += size

    def take(self, file: Inode | None, after: int, most: float) -> tuple[list[Row], int]:
        """The rows that directly follow a place of a file, until they have this many bytes or there are no more here; their bytes."""
        found, size = list[Row](), 0
        with self._lock:
            while file == self._file and self._pages and self._pages[0][0] <= after and size < most:
                _, rows = self._pages.popleft()
                while rows and size < most:
                    row = rows.popleft()
                    self._bytes -= len(row.entry.raw)
                    # What comes before was read in the file.
                    if row.place > after:
                        found.append(row)
                        after, size = row.place, size + len(row.entry.raw)
                if rows:
                    self._pages.appendleft((after, rows))
        return found, size
