"""A line of JSON: what an engine and its editors say to each other, and what scripts print; and how lines are made of the pieces in
which bytes come."""
from typing import Any

Line = dict[str, Any]
# The most bytes that a line of an editor's may have, without its end.
MOST_LINE = 1 << 25
# The most bytes that are read or written in one go.
PIECE = 1 << 18


class Assembler:
    """Makes lines of bytes that come in pieces. A line that is longer than the bound, where there is one, is passed over and not
    kept. Each assembler is used by one thread."""

    def __init__(self, most: int | None = MOST_LINE):
        self._most = most
        # What came of a line that hasn't ended, and whether that is too long already.
        self._begun = bytearray()
        self._skips = False

    def lines(self, data: bytes) -> list[bytes | None]:
        """The lines that end in a piece, without their ends; None is one that was too long."""
        *ended, rest = data.split(b"\n")
        found = [self._line(end) for end in ended]
        self._add(rest)
        return found

    def _line(self, end: bytes) -> bytes | None:
        self._add(end)
        line = None if self._skips else bytes(self._begun)
        self._begun.clear()
        self._skips = False
        return line

    def _add(self, data: bytes) -> None:
        self._skips = self._skips or self._most is not None and len(self._begun) + len(data) > self._most
        if self._skips:
            self._begun.clear()
        else:
            self._begun += data
