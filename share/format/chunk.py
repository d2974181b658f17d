"""Chunks: operations of a site that follow one another, in few bytes. A letter that is typed where the one before it was is
that byte alone.

docs/FORMATS.md has them byte by byte. A list of operations has one spelling as a chunk, and what is spelled otherwise is none.
"""
import re
from collections.abc import Iterable, Iterator, Sequence
from functools import lru_cache
from typing import NamedTuple

from share.format.latest import Latest
from share.format.operation import (CHANGE_LOOKS, DELETE, GREATEST_STAMP, INSERT, MOST_INSERTED, MOST_OF_A_SITE, MOST_RANGES,
                                    PLAIN_LOOKS, RESTORE, TEXT, Operation, is_font, length_after)
from share.text.looks import MOST_COLOUR
from share.text.names import Names

# What a chunk begins with, before its text.
CHUNK_TAG = b"OTC1"
MOST_CHUNK = 16_000
GREATEST_SEQ, GREATEST_SITE_FIELD = 2**32 - 1, 2**16 - 1
# What isn't as expected.
OTHER_SITE, LATER_STAMP, NEW_LOOKS, NEAR_CARET, FAR_FROM_CARET = 1, 2, 3, 4, 5
# What a message does.
LONG, SET, ONE, CHANGED, RESTORED, ESCAPE, NEW_SITE = 6, 7, 8, 0x0B, 0x0C, 0x0E, 0x0F
CODES = frozenset([*range(OTHER_SITE, ONE + 1), CHANGED, RESTORED, ESCAPE, NEW_SITE])
PLAIN_LETTERS, CODED = re.compile(rb"[^\x01-\x08\x0b\x0c\x0e\x0f]+"), re.compile(rb"[\x01-\x08\x0b\x0c\x0e\x0f]")
# No field has a varint of more bytes.
LONGEST_VARINT = 7
LEAST_RANGE = 3
# The most chunks that are kept one by one, each of up to 16,000 operations; and the most bytes of chunks whose operations are
# kept, each of which may take a few hundred times as many.
UNFOLDED, MOST_KEPT = 16, 2**17
# What may be the code of an operation on a set of names.
OF_NAMES = re.compile(rb"[\x07\x0b\x0c]")
# A varint (LEB128) in its one spelling; and a chunk of nothing but letters that were typed one after the other, in plain looks.
VARINT = rb"([\x00-\x7f]|[\x80-\xff]{1,6}[\x01-\x7f])"
VARINTS = re.compile(VARINT + b"*")
TYPED = re.compile(CHUNK_TAG + b"(?s:..)" + bytes([NEW_SITE]) + 4 * VARINT + b"(?:" + bytes([FAR_FROM_CARET]) + 2 * VARINT + b")?("
                   + PLAIN_LETTERS.pattern + rb")\Z")

# A character, or the root where it is None.
Cause = tuple[int, int] | None


class NoChunk(ValueError):
    """Bytes that are no chunk of a note's one site."""


class Packed(NamedTuple):
    """Operations of a site that follow one another, letters typed one after the other in one, and their chunk."""

    operations: tuple[Operation, ...]
    chunk: bytes

    @property
    def size(self) -> int:
        """The number of operations."""
        return sum(one.size for one in self.operations)


# The operations of the chunks that were packed or unpacked last.
_latest = Latest[tuple[Operation, ...]](MOST_KEPT)


def chunk_begin(text: int) -> bytes:
    """What a chunk of a text begins with."""
    return CHUNK_TAG + text.to_bytes(2, "big")


def text_of_chunk(chunk: bytes) -> int:
    """The text of what was found to be a chunk."""
    return int.from_bytes(chunk[len(CHUNK_TAG):len(CHUNK_TAG) + 2], "big")


def unpacked(chunk: bytes, text: int = TEXT) -> tuple[Operation, ...]:
    """The operations of a chunk of one site, letters typed one after the other in one; raises NoChunk where it is none of this text."""
    if not chunk.startswith(chunk_begin(text)):
        raise NoChunk
    found = _latest.get(chunk)
    if found is None:
        found = _keystrokes_in(chunk, text) or tuple(_ChunkReader(chunk, text).operations())
        _latest.put(chunk, found)
    return found


def packed(operations: Iterable[Operation], length: int = 0) -> Packed | None:
    """Operations of one site with their chunk, where the site had inserted this many characters before them; None where no chunk
    has them."""
    writer, found = Writer(), [*operations]
    return Packed(_in_rows(found), bytes(writer.data)) if all(writer.add(one, length) for one in found) else None


def packed_in_parts(operations: Iterable[Operation], length: int = 0) -> list[Packed]:
    """The same in as many chunks as they take. These needn't be unpacked soon."""
    parts: list[tuple[list[Operation], Writer]] = []
    for one in operations:
        if not parts or not parts[-1][1].add(one, length):
            parts.append(([], Writer()))
            parts[-1][1].add(one, length)
        parts[-1][0].append(one)
        length = length_after([one], length)
    found = [Packed(_in_rows(some), bytes(writer.data)) for some, writer in parts]
    for part in found:
        _latest.put(part.chunk, part.operations)
    return found


def inserted_before(chunk: bytes) -> int:
    """How many characters the site of a chunk had inserted before it."""
    return _ChunkReader(chunk, text_of_chunk(chunk))._one.at


def of_names_at_most(chunk: bytes) -> int:
    """How many operations of a chunk are on sets of names at most, by its bytes alone."""
    return len(OF_NAMES.findall(chunk))


def _in_rows(operations: Sequence[Operation]) -> tuple[Operation, ...]:
    """Operations that one chunk has, as it is unpacked: letters typed one after the other in one."""
    if len(operations) == 1:
        return tuple(operations)
    rows: list[list[Operation]] = []
    for one in operations:
        if rows and _types_on(one, rows[-1][-1]):
            rows[-1].append(one)
        else:
            rows.append([one])
    return tuple(row[0] if len(row) == 1 else row[0]._replace(size=sum(one.size for one in row), data=b"".join(one.data for one in row))
                 for row in rows)


def _types_on(one: Operation, last: Operation) -> bool:
    """Whether letters go on where those before them in a chunk ended."""
    return (one.kind == last.kind == INSERT and len(one.data) == one.size and len(last.data) == last.size
            and one.looks == last.looks and one.stamp == last.stamp + last.size and [*one.mentions] == [Names(one.site, one.at - 1, 1)])


def _keystrokes_in(chunk: bytes, text: int) -> tuple[Operation] | None:
    """The operations of a chunk that has letters alone, typed one after the other in the looks of the default: what a keystroke
    is. None where it has something else, or isn't right."""
    found = TYPED.match(chunk)
    if found is None or len(chunk) > MOST_CHUNK:
        return None
    *numbers, data = found.groups(b"\0")
    site, seq, stamp, at, of, cause = [one[0] if len(one) == 1 else _number_in(one) for one in numbers]
    size = len(data)
    if not (1 <= site <= GREATEST_SITE_FIELD and 1 <= seq and seq + size - 1 <= GREATEST_SEQ and 1 <= stamp
            and stamp + size - 1 <= GREATEST_STAMP and at + size <= MOST_OF_A_SITE):
        return None
    if not of:
        return None if found[5] else (Operation(INSERT, site, seq, stamp, size, (), at, data, PLAIN_LOOKS, text),)
    place = Names(of, cause, 1)
    if not (1 <= place.site <= GREATEST_SITE_FIELD and place.at < (at if place.site == site else MOST_OF_A_SITE)):
        return None
    return (Operation(INSERT, site, seq, stamp, size, (place,), at, data, PLAIN_LOOKS, text),)


def _number_in(spelled: bytes) -> int:
    """The number that a varint spells."""
    number = 0
    for byte in reversed(spelled):
        number = number << 7 | byte & 0x7F
    return number


@lru_cache(UNFOLDED)
def unpacked_one_by_one(chunk: bytes, text: int = TEXT) -> tuple[Operation, ...]:
    """The operations of a chunk one by one."""
    rows = unpacked(chunk, text)
    # A key is one row of one.
    return rows if len(rows) == rows[0].size == 1 else tuple(one for row in rows for one in row.each())


class _Expected:
    """What the next operation of a site is expected to have."""

    def __init__(self, site: int, seq: int, stamp: int, at: int):
        self.site, self.seq, self.stamp, self.at = site, seq, stamp, at
        self.looks: bytes = PLAIN_LOOKS
        self.caret: Cause = None

    def inserted(self, count: int, size: int) -> None:
        """Operations were insertions, of characters whose number is given in all."""
        self.seq, self.stamp, self.at = self.seq + count, self.stamp + count, self.at + size
        self.caret = self.site, self.at - 1

    def did(self, kind: int, first: Names) -> None:
        """An operation did something else, to these names first."""
        self.seq, self.stamp = self.seq + 1, self.stamp + 1
        if kind == DELETE:
            self.caret = (first.site, first.at - 1) if first.at else None


class Writer:
    """A chunk that is being written, also of several sites: of the text of its first operation."""

    def __init__(self) -> None:
        self.data = bytearray()
        self._text = 0
        self._sites: dict[int, _Expected] = {}
        self._last = 0

    def add(self, operation: Operation, length: int = 0) -> bool:
        """Adds operations of a site, which had inserted this many characters before the chunk; False where they have no place here."""
        if not self.data:
            self.data, self._text = bytearray(chunk_begin(operation.text)), operation.text
        if operation.text != self._text:
            return False
        one, lead = self._sites.get(operation.site), b""
        if one is not None and operation.site == self._last and self._types_on(operation, one):
            return True
        if one is None:
            at = operation.at if operation.kind == INSERT else length
            one = _Expected(operation.site, operation.seq, operation.stamp, at)
            lead = b"".join([bytes([NEW_SITE]), *map(varint, (operation.site, operation.seq, operation.stamp, at))])
        more = operation.stamp - one.stamp
        if operation.seq != one.seq or more < 0 or operation.kind == INSERT and operation.at != one.at:
            return False
        if not lead and operation.site != self._last:
            lead = bytes([OTHER_SITE]) + varint(operation.site) + varint(more)
        elif more:
            lead = bytes([LATER_STAMP]) + varint(more)
        spelled = lead + _spelled_operation(operation, one)
        if len(self.data) + len(spelled) > MOST_CHUNK:
            return False
        self.data += spelled
        self._sites[operation.site], self._last = one, operation.site
        one.stamp = operation.stamp
        if operation.kind == INSERT:
            one.looks = operation.looks
            one.inserted(operation.size, len(operation.data))
        else:
            one.did(operation.kind, operation.mentions[0])
        return True

    def _types_on(self, operation: Operation, one: _Expected) -> bool:
        """Adds letters that were typed where this site typed last, which are spelled as they are; whether they are that."""
        if (operation.kind != INSERT or (operation.seq, operation.stamp, operation.at) != (one.seq, one.stamp, one.at)
                or operation.looks != one.looks or len(operation.data) != operation.size
                or not operation.mentions or operation.mentions[0][:2] != one.caret):
            return False
        spelled = _bytes(operation)
        if len(self.data) + len(spelled) > MOST_CHUNK:
            return False
        self.data += spelled
        one.inserted(operation.size, operation.size)
        return True


def varint(number: int) -> bytes:
    """A number as an LEB128: seven bits a byte, the lowest first."""
    if number < 0x80:
        return bytes((number,))
    if number < 0x4000:
        return bytes((number & 0x7F | 0x80, number >> 7))
    if number < 0x20_0000:
        return bytes((number & 0x7F | 0x80, number >> 7 & 0x7F | 0x80, number >> 14))
    sevens = bytearray()
    while number > 0x7F:
        sevens.append(number & 0x7F | 0x80)
        number >>= 7
    return bytes([*sevens, number])


def varints_in(data: bytes) -> list[int]:
    """The numbers that varints spell; ValueError where bytes are none."""
    if not VARINTS.fullmatch(data):
        raise ValueError("no varints")
    return [_number_in(one[0]) for one in re.finditer(VARINT, data)]


def _zigzag(number: int) -> int:
    """A number of either sign as one that isn't below 0: those near 0 are small."""
    return 2 * number if number >= 0 else -2 * number - 1


def _from_zigzag(number: int) -> int:
    return number // 2 if number % 2 == 0 else -(number // 2) - 1


def _spelled_operation(operation: Operation, one: _Expected) -> bytes:
    """What an operation of its site does, where this is expected."""
    if operation.kind == INSERT:
        looks = b"" if operation.looks == one.looks else bytes([NEW_LOOKS]) + operation.looks
        return looks + _spelled_cause(operation.mentions[0][:2] if operation.mentions else None, one.caret) + _bytes(operation)
    if operation.kind == CHANGE_LOOKS:
        return bytes([CHANGED]) + operation.looks + _set(operation.mentions)
    if operation.kind == RESTORE:
        return bytes([RESTORED]) + _set(operation.mentions)
    if len(operation.mentions) == 1 and operation.mentions[0].length == 1:
        return _spelled_cause(operation.mentions[0][:2], one.caret) + bytes([ONE])
    return bytes([SET]) + _set(operation.mentions)


def _spelled_cause(place: Cause, caret: Cause) -> bytes:
    if place == caret:
        return b""
    if place is None:
        return bytes([FAR_FROM_CARET, 0])
    if caret is None or caret[0] != place[0]:
        return bytes([FAR_FROM_CARET]) + varint(place[0]) + varint(place[1])
    return bytes([NEAR_CARET]) + varint(_zigzag(place[1] - caret[1]))


def _bytes(operation: Operation) -> bytes:
    if len(operation.data) > operation.size:
        return bytes([LONG]) + varint(len(operation.data) - 2) + operation.data
    return CODED.sub(b"\x0e\\g<0>", operation.data)


def _set(ranges: Sequence[Names]) -> bytes:
    spelled, before = bytearray(varint(len(ranges) - 1)), Names(0, 0, 0)
    for one in ranges:
        spelled += varint(one.site - before.site)
        spelled += varint(one.at - (1 + before.at + before.length if one.site == before.site else 0))
        spelled += varint(one.length - 1)
        before = one
    return bytes(spelled)


class _ChunkReader:
    """Reads a chunk of one site, whose text was read, from the front."""

    def __init__(self, chunk: bytes, text: int):
        self._data, self._at, self._text = chunk, len(chunk_begin(text)), text
        if len(chunk) > MOST_CHUNK or not self._passes(NEW_SITE):
            raise NoChunk
        self._one = _Expected(self._number(), self._number(), self._number(), self._number())
        if not self._one.site:
            raise NoChunk

    def operations(self) -> Iterator[Operation]:
        """The operations, letters typed one after the other in one."""
        is_first = True
        while is_first or self._at < len(self._data):
            if self._passes(LATER_STAMP):
                more = self._number()
                if is_first or not more:
                    raise NoChunk
                self._one.stamp += more
            is_first = False
            operation = self._operation()
            one = self._one
            # It has its last numbers now, one below those of the next.
            if not (1 <= operation.seq and one.seq - 1 <= GREATEST_SEQ and 1 <= operation.stamp and one.stamp - 1 <= GREATEST_STAMP
                    and one.site <= GREATEST_SITE_FIELD and one.at <= MOST_OF_A_SITE):
                raise NoChunk
            yield operation

    def _operation(self) -> Operation:
        one, code, is_expected = self._one, self._byte(), True
        looks, place = one.looks, one.caret
        if code <= FAR_FROM_CARET:
            is_expected = False
            if code == NEW_LOOKS:
                looks, code = self._values(7), self._byte()
                if looks == one.looks:
                    raise NoChunk
            if code in (NEAR_CARET, FAR_FROM_CARET):
                place, code = self._near() if code == NEAR_CARET else self._far(), self._byte()
        if code in (CHANGED, RESTORED, SET):
            if not is_expected:
                raise NoChunk
            return self._of_names(code)
        if code == ONE:
            if looks != one.looks or place is None:
                raise NoChunk
            return self._done(DELETE, b"", (Names(*place, 1),))
        return self._insertion(code, place, looks)

    def _insertion(self, code: int, place: Cause, looks: bytes) -> Operation:
        one = self._one
        if place and not (1 <= place[0] <= GREATEST_SITE_FIELD and 0 <= place[1] < MOST_OF_A_SITE
                          and (place[0] != one.site or place[1] < one.at)):
            raise NoChunk
        count, data = 1, self._take(self._number() + 2) if code == LONG else self._letters(code)
        if code == LONG:
            if len(data) > MOST_INSERTED:
                raise NoChunk
        else:
            count = len(data)
        cause = (Names(*place, 1),) if place else ()
        operation = Operation(INSERT, one.site, one.seq, one.stamp, count, cause, one.at, data, looks, self._text)
        one.looks = looks
        one.inserted(count, len(data))
        return operation

    def _letters(self, code: int) -> bytes:
        """A letter, and those that were typed after it."""
        found = bytearray([code] if code not in CODES else self._coded(code))
        while self._at < len(self._data):
            if more := PLAIN_LETTERS.match(self._data, self._at):
                found += more[0]
                self._at = more.end()
            elif self._passes(ESCAPE):
                found += self._coded(ESCAPE)
            else:
                break
        return bytes(found)

    def _coded(self, code: int) -> bytes:
        """A letter that is spelled after a code, since it is one."""
        letter = self._take(1)
        if code != ESCAPE or letter[0] not in CODES:
            raise NoChunk
        return letter

    def _of_names(self, code: int) -> Operation:
        selected = self._take(1) if code == CHANGED else b""
        if code == CHANGED and not 1 <= selected[0] <= 7:
            raise NoChunk
        looks = selected + self._values(selected[0]) if code == CHANGED else b""
        ranges = self._ranges()
        if code == SET and len(ranges) == 1 and ranges[0].length == 1:
            raise NoChunk
        return self._done(CHANGE_LOOKS if code == CHANGED else RESTORE if code == RESTORED else DELETE, looks, ranges)

    def _done(self, kind: int, looks: bytes, ranges: tuple[Names, ...]) -> Operation:
        for one in ranges:
            if not (1 <= one.site <= GREATEST_SITE_FIELD and one.at >= 0 and one.at + one.length <= MOST_OF_A_SITE):
                raise NoChunk
        operation = Operation(kind, self._one.site, self._one.seq, self._one.stamp, 1, ranges, looks=looks, text=self._text)
        self._one.did(kind, ranges[0])
        return operation

    def _ranges(self) -> tuple[Names, ...]:
        count = self._number() + 1
        if count > MOST_RANGES or LEAST_RANGE * count > len(self._data) - self._at:
            raise NoChunk
        ranges, before = [], Names(0, 0, 0)
        for _ in range(count):
            more = self._number()
            at = self._number() + (0 if more else 1 + before.at + before.length)
            before = Names(before.site + more, at, self._number() + 1)
            ranges.append(before)
        return tuple(ranges)

    def _values(self, selected: int) -> bytes:
        """Those values of looks that are selected, as they are spelled."""
        begin = self._at
        if selected & 1:
            length = self._byte()
            if not is_font(self._take(length), length):
                raise NoChunk
        if selected & 2 and self._byte() > MOST_COLOUR:
            raise NoChunk
        if selected & 4:
            self._byte()
        return self._data[begin:self._at]

    def _near(self) -> Cause:
        number, caret = self._number(), self._one.caret
        if caret is None or not number:
            raise NoChunk
        return caret[0], caret[1] + _from_zigzag(number)

    def _far(self) -> Cause:
        site, caret = self._number(), self._one.caret
        if site == (caret[0] if caret else 0):
            raise NoChunk
        return (site, self._number()) if site else None

    def _number(self) -> int:
        number = 0
        for place in range(LONGEST_VARINT):
            byte = self._byte()
            if byte < 0x80 and not place:
                return byte
            number |= (byte & 0x7F) << 7 * place
            if byte < 0x80:
                if not byte:
                    raise NoChunk
                return number
        raise NoChunk

    def _passes(self, code: int) -> bool:
        is_there = self._at < len(self._data) and self._data[self._at] == code
        self._at += is_there
        return is_there

    def _byte(self) -> int:
        if self._at == len(self._data):
            raise NoChunk
        self._at += 1
        return self._data[self._at - 1]

    def _take(self, count: int) -> bytes:
        self._at += count
        if self._at > len(self._data):
            raise NoChunk
        return self._data[self._at - count:self._at]
