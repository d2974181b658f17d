"""Chunks that become fewer, of which nothing is in two, without a text: see docs/FORMATS.md, "Packed histories". Node has the same."""
from __future__ import annotations

import heapq
from collections.abc import Iterable, Iterator, Mapping
from dataclasses import dataclass
from typing import NamedTuple, NoReturn, Optional

from . import _library as c
from ._answers import Refused
from ._given import Buffer, data

_TAG, _MOST = b"OTC1", 16_000
_HEAD = len(_TAG) + 2
_PLAIN = b"\x10Oberon10.Scn.Fnt\x01\x00"
# What isn't as expected, and what an operation does.
_OTHER_SITE, _LATER, _LOOKS, _NEAR, _FAR = 1, 2, 3, 4, 5
_LONG, _DELETE_SET, _DELETE_ONE, _CHANGE, _RESTORE, _ESCAPE, _NEW_SITE = 6, 7, 8, 0x0B, 0x0C, 0x0E, 0x0F
_FONT, _COLOUR, _OFFSET = 1, 2, 4

# A site and an offset; nothing is the root.
Place = Optional[tuple[int, int]]


class _Operation(NamedTuple):
    """An operation, the length of its site's file before it, and where it moves the site's caret, if it does."""

    site: int
    seq: int
    stamp: int
    at: int
    # Of an insertion.
    looks: Optional[bytes]
    length: int
    # Of an insertion, or a deletion of one character.
    is_placed: bool
    place: Place
    moves: bool
    caret: Place
    # What is spelled behind that, and the last name of each stretch of which it speaks.
    body: bytes
    names: tuple[tuple[int, int], ...]


@dataclass
class _Expected:
    """What the next operation of a site is expected to have."""

    seq: int
    stamp: int
    at: int
    looks: bytes = _PLAIN
    caret: Place = None

    def after(self, it: _Operation) -> None:
        self.seq, self.stamp, self.at = it.seq + 1, it.stamp + 1, it.at + it.length
        self.looks = self.looks if it.looks is None else it.looks
        self.caret = it.caret if it.moves else self.caret


def _varint(number: int) -> bytes:
    found = bytearray()
    while number > 0x7F:
        found.append(number & 0x7F | 0x80)
        number >>= 7
    return bytes([*found, number])


def _malformed() -> NoReturn:
    raise Refused(c.MALFORMED)


class _Reader:
    """Reads a chunk. What it says isn't judged: the text does that which gets it."""

    def __init__(self, chunk: bytes) -> None:
        if not chunk.startswith(_TAG) or not _HEAD <= len(chunk) <= _MOST:
            _malformed()
        self.text = int.from_bytes(chunk[len(_TAG):_HEAD], "big")
        self._chunk, self._at = chunk, _HEAD
        self._known: dict[int, _Expected] = {}

    def _take(self, length: int) -> bytes:
        beg, self._at = self._at, self._at + length
        if self._at > len(self._chunk):
            _malformed()
        return self._chunk[beg:self._at]

    def _byte(self) -> int:
        return self._take(1)[0]

    def _number(self) -> int:
        number = 0
        for shift in range(0, 49, 7):
            byte = self._byte()
            number |= (byte & 0x7F) << shift
            if byte < 0x80:
                return number
        _malformed()

    def _set(self) -> list[tuple[int, int, int]]:
        """The site, the first offset and the length of each range."""
        found, site, end = [], 0, -1
        for _ in range(self._number() + 1):
            more, offset, length = self._number(), self._number(), self._number() + 1
            offset += 0 if more else end + 1
            site, end = site + more, offset + length
            found.append((site, offset, length))
        return found

    def operations(self) -> Iterator[_Operation]:
        site = 0
        while self._at < len(self._chunk):
            code = self._byte()
            if code == _NEW_SITE:
                site, seq, stamp, at = (self._number() for _ in range(4))
                self._known[site] = _Expected(seq, stamp, at)
            elif code == _OTHER_SITE:
                site = self._number()
            if code in (_OTHER_SITE, _LATER):
                self._expected(site).stamp += self._number()
            it = self._operation(site, self._byte() if code in (_NEW_SITE, _OTHER_SITE, _LATER) else code)
            self._expected(site).after(it)
            yield it

    def _expected(self, site: int) -> _Expected:
        return self._known.get(site) or _malformed()

    def _operation(self, site: int, code: int) -> _Operation:
        it = self._expected(site)
        looks, place = it.looks, it.caret
        if code == _LOOKS:
            beg, size = self._at, self._byte()
            self._take(size + 2)
            looks, code = self._chunk[beg:self._at], self._byte()
        if code == _NEAR:
            number = self._number()
            if place is None:
                _malformed()
            place, code = (place[0], place[1] + (-(number + 1) // 2 if number % 2 else number // 2)), self._byte()
        elif code == _FAR:
            far = self._number()
            place, code = (far, self._number()) if far else None, self._byte()
        beg = self._at - 1
        numbers = site, it.seq, it.stamp, it.at
        names = () if place is None else (place,)
        if code == _DELETE_ONE and place is not None:
            return _Operation(*numbers, None, 0, True, place, True, _before(place), self._chunk[beg:self._at], names)
        if code in (_DELETE_SET, _CHANGE, _RESTORE):
            return self._of_names(code, beg, numbers)
        length = self._inserted(code)
        return _Operation(*numbers, looks, length, True, place, True, (site, it.at + length - 1), self._chunk[beg:self._at], names)

    def _of_names(self, code: int, beg: int, numbers: tuple[int, int, int, int]) -> _Operation:
        if code == _CHANGE:
            selected = self._byte()
            self._take((self._byte() if selected & _FONT else 0) + bool(selected & _COLOUR) + bool(selected & _OFFSET))
        ranges = self._set()
        names = tuple((site, offset + length - 1) for site, offset, length in ranges)
        moves = code == _DELETE_SET
        caret = _before(ranges[0][:2]) if moves else None
        return _Operation(*numbers, None, 0, False, None, moves, caret, self._chunk[beg:self._at], names)

    def _inserted(self, code: int) -> int:
        if code == _LONG:
            return len(self._take(self._number() + 2))
        if code == _ESCAPE:
            self._byte()
        return 1


def _before(place: tuple[int, int]) -> Place:
    return (place[0], place[1] - 1) if place[1] else None


class _Writer:
    """Writes operations of a text as chunks."""

    def __init__(self, text: int) -> None:
        self._head = _TAG + text.to_bytes(2, "big")
        self.chunks: list[bytes] = []
        self._begin()

    def _begin(self) -> None:
        self._written = bytearray(self._head)
        self._known: dict[int, _Expected] = {}
        self._last = 0

    def end(self) -> None:
        if len(self._written) > _HEAD:
            self.chunks.append(bytes(self._written))
        self._begin()

    def add(self, it: _Operation) -> None:
        # (within a chunk a site's operations follow one another)
        if it.site in self._known and self._known[it.site].seq != it.seq:
            self.end()
        spelled = self._spelled(it)
        if len(self._written) + len(spelled) > _MOST:
            self.end()
            spelled = self._spelled(it)
        self._written += spelled
        self._known[it.site].after(it)
        self._last = it.site

    def _spelled(self, it: _Operation) -> bytes:
        spelled = b""
        known = self._known.get(it.site)
        if known is None:
            known = self._known[it.site] = _Expected(it.seq, it.stamp, it.at)
            spelled = bytes([_NEW_SITE]) + b"".join(map(_varint, (it.site, it.seq, it.stamp, it.at)))
        elif known.at != it.at or known.stamp > it.stamp:
            raise Refused(c.BAD_OFFSET)
        elif it.site != self._last:
            spelled = bytes([_OTHER_SITE]) + _varint(it.site) + _varint(it.stamp - known.stamp)
        elif it.stamp > known.stamp:
            spelled = bytes([_LATER]) + _varint(it.stamp - known.stamp)
        if it.looks is not None and it.looks != known.looks:
            spelled += bytes([_LOOKS]) + it.looks
        return spelled + (_place(it.place, known.caret) if it.is_placed else b"") + it.body


def _place(place: Place, caret: Place) -> bytes:
    if place == caret:
        return b""
    if place is None:
        return bytes([_FAR, 0])
    if caret is None or caret[0] != place[0]:
        return bytes([_FAR]) + _varint(place[0]) + _varint(place[1])
    far = place[1] - caret[1]
    return bytes([_NEAR]) + _varint(2 * far if far >= 0 else -2 * far - 1)


def _in_order(left: dict[int, list[_Operation]]) -> Iterator[_Operation]:
    """The operations of sites, the last of each first, each after those on which it builds, and those of a site together."""
    heads = [(of[-1].stamp, site) for site, of in left.items()]
    heapq.heapify(heads)
    while heads:
        # (the one with the least stamp, at the least site, builds on nothing that is left)
        _, site = heapq.heappop(heads)
        of = left[site]
        yield of.pop()
        while of and not any(other != site and left.get(other) and left[other][-1].at <= offset for other, offset in of[-1].names):
            yield of.pop()
        if of:
            heapq.heappush(heads, (of[-1].stamp, site))


def parts_of(chunk: bytes) -> list[bytes]:
    """Chunks that each have what one site made of it."""
    reader = _Reader(chunk)
    writers: dict[int, _Writer] = {}
    for it in reader.operations():
        writers.setdefault(it.site, _Writer(reader.text)).add(it)
    for writer in writers.values():
        writer.end()
    return [part for writer in writers.values() for part in writer.chunks]


def merge_chunks(chunks: Iterable[Buffer], past: Mapping[int, int] = {}) -> list[bytes]:
    """Chunks that have all operations of these, each once, in an order in which a text takes them: for a store or a server that has no
    text. Of each site only what is past a front. Refused where bytes are no chunk (1), chunks are of two texts (2), or one identity has two
    operations (3)."""
    found: dict[int, dict[int, _Operation]] = {}
    text = 0
    for chunk in chunks:
        reader = _Reader(data(chunk))
        if text not in (0, reader.text):
            raise Refused(c.WRONG_TEXT)
        text = reader.text
        for it in reader.operations():
            if it.seq > past.get(it.site, 0) and found.setdefault(it.site, {}).setdefault(it.seq, it) != it:
                raise Refused(c.CONFLICT)
    writer = _Writer(text)
    for it in _in_order({site: [of[seq] for seq in sorted(of, reverse=True)] for site, of in found.items()}):
        writer.add(it)
    writer.end()
    return writer.chunks
