"""Messages and chunks of one site, of any text, as docs/FORMATS.md has them: plainly, slowly, and with no code of share/format."""
from collections.abc import Sequence
from dataclasses import dataclass
from typing import NamedTuple

INSERT, DELETE, CHANGE_LOOKS, RESTORE = 1, 2, 3, 4
PLAIN_LOOKS = b"\x10Oberon10.Scn.Fnt\x01\x00"
CODES = (1, 2, 3, 4, 5, 6, 7, 8, 0x0B, 0x0C, 0x0E, 0x0F)
LETTERS = b"ABCDEFGHIJKLMNOPQRSTUVWXYZabcdefghijklmnopqrstuvwxyz"
MOST_CHUNK, MOST_OF_A_SITE = 16_000, 2**24

# The site, the first offset and the length.
Range = tuple[int, int, int]
Caret = tuple[int, int] | None


class NoChunk(ValueError):
    """Bytes that are no chunk of one site."""


class Message(NamedTuple):
    """What a message says. The cause of an insertion is a range of one; without it there is none."""

    kind: int
    text: int
    site: int
    seq: int
    stamp: int
    ranges: tuple[Range, ...] = ()
    at: int = 0
    data: bytes = b""
    # An insertion's looks, or a selection and its values.
    looks: bytes = b""


def inserting(text: int, site: int, seq: int, stamp: int, cause: Caret, at: int, data: bytes) -> Message:
    """An Insert in the default looks."""
    return Message(INSERT, text, site, seq, stamp, ((*cause, 1),) if cause else (), at, data, PLAIN_LOOKS)


def spelled(one: Message) -> bytes:
    """A message's bytes."""
    begin = b"OT" + bytes([2 if one.kind == RESTORE else 1, one.kind]) + b"".join(
        number.to_bytes(size, "big") for number, size in ((one.text, 2), (one.site, 2), (one.seq, 4), (one.stamp, 8)))
    if one.kind == INSERT:
        site, offset, _ = one.ranges[0] if one.ranges else (0, 0, 1)
        return b"".join([begin, site.to_bytes(2, "big"), offset.to_bytes(4, "big"), one.at.to_bytes(4, "big"), one.looks,
                         len(one.data).to_bytes(2, "big"), one.data])
    ranges = [site.to_bytes(2, "big") + at.to_bytes(4, "big") + length.to_bytes(4, "big") for site, at, length in one.ranges]
    return b"".join([begin, one.looks, len(ranges).to_bytes(2, "big"), *ranges])


def is_message(one: Message) -> bool:
    """Whether this can be a message."""
    if not (1 <= one.text < 2**16 and 1 <= one.site < 2**16 and 1 <= one.seq < 2**32 and 1 <= one.stamp < 2**48):
        return False
    if one.kind != INSERT:
        return 1 <= len(one.ranges) <= 1024 and _are_ranges(one.ranges) and (one.kind == CHANGE_LOOKS) == bool(one.looks)
    for site, offset, _ in one.ranges:
        if not (1 <= site < 2**16 and 0 <= offset < (one.at if site == one.site else MOST_OF_A_SITE)):
            return False
    return 1 <= len(one.data) <= 4096 and one.at + len(one.data) <= MOST_OF_A_SITE


def _are_ranges(ranges: Sequence[Range]) -> bool:
    ends = [(0, -1)] + [(site, at + length) for site, at, length in ranges]
    return all(site >= 1 and at >= 0 and length >= 1 and at + length <= MOST_OF_A_SITE and site < 2**16
               and (before < site or before == site and end < at) for (site, at, length), (before, end) in zip(ranges, ends))


def varint(number: int) -> bytes:
    """A number, seven bits a byte, the lowest first."""
    found = bytearray()
    while number > 0x7F:
        found.append(number & 0x7F | 0x80)
        number >>= 7
    return bytes([*found, number])


@dataclass
class Expected:
    """What the next operation is expected to have."""

    text: int
    site: int
    seq: int
    stamp: int
    at: int
    looks: bytes = PLAIN_LOOKS
    caret: Caret = None

    def after(self, one: Message) -> None:
        """Expects what comes after a message."""
        self.seq, self.stamp = one.seq + 1, one.stamp + 1
        if one.kind == INSERT:
            self.at, self.looks, self.caret = one.at + len(one.data), one.looks, (one.site, one.at + len(one.data) - 1)
        elif one.kind == DELETE:
            site, at, _ = one.ranges[0]
            self.caret = (site, at - 1) if at else None


def chunk_of(messages: Sequence[Message], length: int = 0) -> bytes:
    """The chunk of messages of one site, whose file had this length before them, where none of them is an insertion."""
    first = messages[0]
    at = next((one.at for one in messages if one.kind == INSERT), length)
    expected = Expected(first.text, first.site, first.seq, first.stamp, at)
    data = b"OTC1" + first.text.to_bytes(2, "big") + b"\x0f" + b"".join(map(varint, (first.site, first.seq, first.stamp, at)))
    for one in messages:
        if one.stamp > expected.stamp:
            data += b"\2" + varint(one.stamp - expected.stamp)
        data += _operation(one, expected)
        expected.after(one)
    return data


def _operation(one: Message, expected: Expected) -> bytes:
    """What a message does, as a chunk spells it."""
    if one.kind == INSERT:
        looks = b"" if one.looks == expected.looks else b"\3" + one.looks
        return looks + _place(one.ranges[0][:2] if one.ranges else None, expected.caret) + _inserted(one.data)
    if one.kind == CHANGE_LOOKS:
        return b"\x0b" + one.looks + _set(one.ranges)
    if one.kind == RESTORE:
        return b"\x0c" + _set(one.ranges)
    if len(one.ranges) == 1 and one.ranges[0][2] == 1:
        return _place(one.ranges[0][:2], expected.caret) + b"\x08"
    return b"\7" + _set(one.ranges)


def _place(place: Caret, caret: Caret) -> bytes:
    if place == caret:
        return b""
    if place is None:
        return b"\5\0"
    if caret is None or caret[0] != place[0]:
        return b"\5" + varint(place[0]) + varint(place[1])
    far = place[1] - caret[1]
    return b"\4" + varint(2 * far if far >= 0 else -2 * far - 1)


def _inserted(data: bytes) -> bytes:
    if len(data) > 1:
        return b"\6" + varint(len(data) - 2) + data
    return b"\x0e" + data if data[0] in CODES else data


def _set(ranges: Sequence[Range]) -> bytes:
    found, before = varint(len(ranges) - 1), (0, 0, 0)
    for site, at, length in ranges:
        least = 1 + before[1] + before[2] if site == before[0] else 0
        found += varint(site - before[0]) + varint(at - least) + varint(length - 1)
        before = site, at, length
    return found


def messages_of(chunk: bytes) -> tuple[Message, ...]:
    """The messages of a chunk of one site; raises NoChunk where it is none, as where it spells them in another way."""
    if len(chunk) > MOST_CHUNK or chunk[:4] != b"OTC1":
        raise NoChunk
    reader = _Reader(chunk)
    found = reader.messages()
    if not found or not all(map(is_message, found)) or chunk_of(found, reader.length) != chunk:
        raise NoChunk
    return tuple(found)


def is_chunk(messages: Sequence[Message]) -> bool:
    """Whether a chunk has these messages: none has wrong ones but as its first."""
    try:
        return [*messages_of(chunk_of(messages))] == [*messages]
    except NoChunk:
        return False


class _Reader:
    """Reads a chunk from the front, whatever it says."""

    def __init__(self, chunk: bytes):
        self.data, self.at, self.length = chunk, 4, 0

    def messages(self) -> list[Message]:
        text = int.from_bytes(self.take(2), "big")
        if self.take(1) != b"\x0f":
            raise NoChunk
        self.expected = Expected(text, self.number(), self.number(), self.number(), self.number())
        self.length = self.expected.at
        if self.length > MOST_OF_A_SITE:
            raise NoChunk
        found = []
        while self.at < len(self.data):
            if self.data[self.at] == 2:
                self.at += 1
                self.expected.stamp += self.number()
            found.append(self.operation())
            self.expected.after(found[-1])
        return found

    def operation(self) -> Message:
        one, code = self.expected, self.take(1)[0]
        looks, place = one.looks, one.caret
        if code == 3:
            looks, code = self.values(7), self.take(1)[0]
        if code == 4:
            place, code = self.near(), self.take(1)[0]
        elif code == 5:
            site = self.number()
            place, code = (site, self.number()) if site else None, self.take(1)[0]
        begin = one.text, one.site, one.seq, one.stamp
        if code == 8:
            if place is None:
                raise NoChunk
            return Message(DELETE, *begin, ((*place, 1),))
        if code in (7, 0x0C):
            return Message(DELETE if code == 7 else RESTORE, *begin, self.ranges())
        if code == 0x0B:
            selected = self.take(1)
            return Message(CHANGE_LOOKS, *begin, looks=selected + self.values(selected[0]), ranges=self.ranges())
        if code in (1, 2, 3, 4, 5, 0x0F):
            raise NoChunk
        data = self.take(self.number() + 2) if code == 6 else self.take(1) if code == 0x0E else bytes([code])
        return Message(INSERT, *begin, ((*place, 1),) if place else (), one.at, data, looks)

    def near(self) -> Caret:
        number, caret = self.number(), self.expected.caret
        if caret is None:
            raise NoChunk
        place = caret[1] + (-(number // 2) - 1 if number % 2 else number // 2)
        return caret[0], place

    def ranges(self) -> tuple[Range, ...]:
        found, before = list[Range](), (0, 0, 0)
        for _ in range(self.number() + 1):
            more = self.number()
            at = self.number() + (0 if more else 1 + before[1] + before[2])
            before = before[0] + more, at, self.number() + 1
            found.append(before)
        return tuple(found)

    def values(self, selected: int) -> bytes:
        """Those of a font, a colour and an offset that are selected."""
        if not 1 <= selected <= 7:
            raise NoChunk
        begin = self.at
        if selected & 1:
            font = self.take(self.take(1)[0])
            if not (1 <= len(font) <= 31 and font[0] in LETTERS and all(one in LETTERS + b"0123456789." for one in font)):
                raise NoChunk
        if selected & 2 and self.take(1)[0] > 15:
            raise NoChunk
        if selected & 4:
            self.take(1)
        return self.data[begin:self.at]

    def number(self) -> int:
        found, shift = 0, 0
        while True:
            byte = self.take(1)[0]
            found |= (byte & 0x7F) << shift
            shift += 7
            if byte < 0x80:
                return found
            if shift > 49:
                raise NoChunk

    def take(self, count: int) -> bytes:
        self.at += count
        if self.at > len(self.data):
            raise NoChunk
        return self.data[self.at - count:self.at]
