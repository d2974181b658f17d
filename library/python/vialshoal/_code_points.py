"""Where the code points of a text are: its bytes in blocks beside it, which follow its changes.

A code point is a whole sequence of UTF-8, or a byte that is of none: what PEP 383 ("surrogateescape") decodes to one each.
"""
from __future__ import annotations

from array import array
from bisect import bisect_right
from collections.abc import Callable, Iterator
from itertools import accumulate

from ._composing import DELETE, INSERT, REPLACE, Step, Triple, composed, growth

# A block is cut up when it is longer than two of these.
_BLOCK = 2048


def encoded(shown: str) -> bytes:
    return shown.encode("utf-8", "surrogateescape")


def decoded(data: bytes) -> str:
    return data.decode("utf-8", "surrogateescape")


def begins(data: bytes) -> Iterator[int]:
    """Where each code point begins."""
    at = 0
    for point in decoded(data):
        yield at
        at += len(encoded(point))


def _is_whole(data: bytes) -> bool:
    try:
        data.decode()
    except UnicodeDecodeError:
        return False
    return True


def _around(data: bytes, at: int) -> tuple[int, int]:
    """The code point that this position lies within, or the position twice."""
    if at < len(data) and data[at] & 0xC0 == 0x80:
        for lead in range(at - 1, max(at - 4, -1), -1):
            if data[lead] & 0xC0 != 0x80:
                end = lead + 2 + (data[lead] >= 0xE0) + (data[lead] >= 0xF0)
                return (lead, end) if at < end and _is_whole(data[lead:end]) else (at, at)
    return at, at


def _cut_up(data: bytes) -> Iterator[bytes]:
    beg = 0
    while len(data) - beg > 2 * _BLOCK:
        end = _around(data, beg + _BLOCK)[1]
        yield data[beg:end]
        beg = end
    if beg < len(data):
        yield data[beg:]


class CodePoints:
    """The bytes of a text as it was when its changes were followed last."""

    def __init__(self) -> None:
        self._blocks: list[bytes] = []
        self._counts: list[int] = []
        # How many bytes, and how many code points, stand before each block and after the last one.
        self._bytes = [0]
        self._points = [0]
        # Changes that weren't asked for yet: the kind of each, and its range in code points. Before they are asked for the first time
        # none are noted.
        self._told: array[int] | None = None

    def __len__(self) -> int:
        return self._points[-1]

    def _block(self, before: list[int], at: int) -> int:
        return max(min(bisect_right(before, at), len(self._blocks)) - 1, 0)

    def byte(self, point: int) -> int:
        """How many bytes this many code points have."""
        if not self._blocks:
            return 0
        at = self._block(self._points, point)
        block, point = self._blocks[at], point - self._points[at]
        if self._counts[at] != len(block):
            point = len(encoded(decoded(block)[:point]))
        return self._bytes[at] + point

    def point(self, byte: int) -> int:
        """How many code points begin within this many bytes."""
        if not self._blocks:
            return 0
        at = self._block(self._bytes, byte)
        block, byte = self._blocks[at], byte - self._bytes[at]
        if self._counts[at] != len(block):
            byte = len(decoded(block[:_around(block, byte)[1]]))
        return self._points[at] + byte

    def _replace(self, first: int, last: int, data: bytes) -> None:
        blocks = [*_cut_up(data)]
        self._blocks[first:last] = blocks
        self._counts[first:last] = [len(decoded(block)) for block in blocks]
        self._bytes[first:] = accumulate(map(len, self._blocks[first:]), initial=self._bytes[first])
        self._points[first:] = accumulate(self._counts[first:], initial=self._points[first])

    def _splice(self, beg: int, end: int, data: bytes) -> None:
        """Puts bytes in place of a range."""
        # No code point passes the borders of the blocks of what is 3 bytes away, before or after.
        first, last = self._block(self._bytes, max(beg - 3, 0)), self._block(self._bytes, end + 3) + 1
        start, points = self._bytes[first], self._points[first]
        old = b"".join(self._blocks[first:last])
        beg, end = beg - start, end - start
        new, grown = old[:beg] + data + old[end:], len(data) - (end - beg)
        self._replace(first, last, new)
        if self._told is None:
            return
        beg = min(_around(old, beg)[0], _around(new, beg)[0])
        end = max(_around(old, end)[1], _around(new, end + grown)[1] - grown)
        at = points + len(decoded(old[:beg]))
        self._tell(DELETE, at, len(decoded(old[beg:end])))
        self._tell(INSERT, at, len(decoded(new[beg:end + grown])))

    def _tell(self, kind: int, beg: int, length: int) -> None:
        if length and self._told is not None:
            self._told.extend((kind, beg, beg + length))

    def follow(self, changes: list[Triple], read: Callable[[int, int], bytes]) -> None:
        """Does what was changed since, where `read` reads a range of the text as it is after it."""
        # (most often it is one key)
        if len(changes) == 1 and changes[0][0] != REPLACE:
            kind, beg, end = changes[0]
            if kind == INSERT:
                self._splice(beg, beg, read(beg, end))
            else:
                self._splice(beg, end, b"")
        else:
            self._follow_all(changes, read)

    def _follow_all(self, changes: list[Triple], read: Callable[[int, int], bytes]) -> None:
        at = cut = put = 0
        # (of an empty text nothing can have stayed)
        steps = composed(changes) if self._blocks else [(Step.PUT, growth(changes))]
        for step, length in [*steps, (Step.KEEP, 0)]:
            if step is Step.CUT:
                cut += length
            elif step is Step.PUT:
                put += length
            else:
                if cut or put:
                    self._splice(at, at + cut, read(at, at + put))
                    at, cut, put = at + put, 0, 0
                if step is Step.DRESS:
                    point = self.point(at)
                    self._tell(REPLACE, point, self.point(at + length) - point)
                at += length

    def tell(self) -> list[Triple]:
        """The changes that were followed since they were told last; at first one insertion of all, which does what they did."""
        told, self._told = self._told, array("Q")
        if told is None:
            return [(INSERT, 0, len(self))] if len(self) else []
        numbers = iter(told)
        return [*zip(numbers, numbers, numbers)]
