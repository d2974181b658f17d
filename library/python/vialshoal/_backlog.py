"""Messages and chunks that come in any order."""
from __future__ import annotations

import heapq
from dataclasses import dataclass
from typing import Any

from . import _library as c
from ._answers import FrontsDiffer, Refused
from ._given import Buffer, data
from ._merging import parts_of
from ._text import Text

_CHUNK = b"OTC1"


@dataclass(frozen=True)
class Received:
    """How many operations were taken in, how many chunks and messages are kept then, and how what was kept before was refused."""

    taken: int
    kept: int
    refused: tuple[Refused, ...]


def _first_of(given: bytes) -> tuple[int, int]:
    """The site of the first operation of a message or a chunk, and its number there."""
    if not given.startswith(_CHUNK):
        return int.from_bytes(given[6:8], "big"), int.from_bytes(given[8:12], "big")
    # (behind the tag, the text and the byte 0f both are varints)
    numbers, shift = [0], 0
    for byte in given[7:]:
        numbers[-1] |= (byte & 0x7F) << shift
        shift += 7
        if byte < 0x80:
            if len(numbers) == 2:
                break
            numbers.append(0)
            shift = 0
    return numbers[0], numbers[-1]


class Backlog:
    """Takes messages and chunks in for a text, in whatever order they come. A text lets 64 operations wait for what they build on; what
    comes even earlier is kept here, up to so many bytes, until it is ready."""

    def __init__(self, text: Text[Any], most: int = 1 << 26) -> None:
        self._text, self._most = text, most
        # By site, those with the lowest number first; and all of them.
        self._of: dict[int, list[tuple[int, bytes]]] = {}
        self._kept: set[bytes] = set()
        self._size = 0

    def __len__(self) -> int:
        """How many messages and chunks are kept; a chunk of some sites may be one of each."""
        return len(self._kept)

    def take(self, given: Buffer) -> Received:
        """Takes a message or a chunk in, and then what is kept and has become ready. Refused as `Text.take` and `Text.unpack` are, and with
        number 6 where it has to be kept and there is no room."""
        got, refused, taken = data(given), list[Refused](), 0
        with self._text.batch():
            before = sum(self._text.fronts().values())
            self._hand(got)
            now = sum(self._text.fronts().values())
            while now > before + taken:
                taken = now - before
                self._retry(refused)
                now = sum(self._text.fronts().values())
            return Received(taken, len(self), tuple(refused))

    def _hand(self, given: bytes) -> None:
        """Has the text take what is ready, of each site by itself where more than 64 aren't, and keeps the rest."""
        if self._is_taken(given):
            return
        parts = parts_of(given) if given.startswith(_CHUNK) else [given]
        for part in parts:
            if part == given or not self._is_taken(part):
                self._keep(part)

    def _is_taken(self, given: bytes) -> bool:
        try:
            if given.startswith(_CHUNK):
                self._text.unpack(given)
            else:
                self._text.take(given)
        except Refused as why:
            if why.number != c.ROOM_FULL:
                raise
            return False
        return True

    def _keep(self, given: bytes) -> None:
        if given in self._kept:
            return
        if self._size + len(given) > self._most:
            raise Refused(c.ROOM_FULL)
        site, seq = _first_of(given)
        heapq.heappush(self._of.setdefault(site, []), (seq, given))
        self._kept.add(given)
        self._size += len(given)

    def _retry(self, refused: list[Refused]) -> None:
        """Has the text take what may have become ready."""
        early = []
        for site, kept in self._of.items():
            while kept and kept[0][0] <= self._text.front(site) + 1:
                _, given = heapq.heappop(kept)
                self._kept.remove(given)
                self._size -= len(given)
                try:
                    if not self._is_taken(given):
                        early.append(given)
                except FrontsDiffer:
                    raise
                except Refused as why:
                    refused.append(why)
        for given in early:
            self._keep(given)
