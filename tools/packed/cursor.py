"""Bytes that are read from the first to the last."""
from __future__ import annotations


class Refused(ValueError):
    """The bytes aren't what they are to be."""


def need(holds: bool, what: str) -> None:
    if not holds:
        raise Refused(what)


class Cursor:
    """A place in bytes. What isn't there whole is refused, and nothing of it is taken."""

    def __init__(self, data: bytes) -> None:
        self.data = data
        self.at = 0

    @property
    def left(self) -> int:
        return len(self.data) - self.at

    def take(self, count: int) -> bytes:
        if self.left < count:
            raise Refused(f"{count} bytes are read where {self.left} are left")
        self.at += count
        return self.data[self.at - count : self.at]

    def byte(self) -> int:
        return self.take(1)[0]

    def big(self, count: int) -> int:
        """An unsigned big-endian number of `count` bytes."""
        return int.from_bytes(self.take(count), "big")

    def passes(self, byte: int) -> bool:
        """Whether this byte is next; then it is taken."""
        found = self.left > 0 and self.data[self.at] == byte
        self.at += found
        return found
