"""Messages as operations, and their spelling: the section "A message" of docs/FORMATS.md."""
from __future__ import annotations

import re
from dataclasses import dataclass
from typing import NamedTuple, Union

from tools.packed.cursor import Cursor, Refused, need

MAX_SITE = MAX_TEXT = 2**16 - 1
MAX_SEQ = 2**32 - 1
MAX_STAMP = 2**48 - 1
MAX_FILE = 2**24
MAX_INSERT = 4096
MAX_RANGES = 1024
TAG = b"OT"
FONT = re.compile(rb"[A-Za-z][A-Za-z0-9.]{0,30}")
INSERT, DELETE, CHANGE_LOOKS, RESTORE = 1, 2, 3, 4


class Name(NamedTuple):
    """A character: an offset in a site's file."""

    site: int
    offset: int


# A cause is a character, or the root.
Cause = Union[Name, None]


class Range(NamedTuple):
    """Neighbouring characters of a site: the first one's offset, and how many there are."""

    site: int
    at: int
    length: int

    @property
    def end(self) -> int:
        return self.at + self.length


Ranges = tuple[Range, ...]


@dataclass(frozen=True)
class Insert:
    """The bytes come below the cause. Looks are kept as they are spelled."""

    cause: Cause
    at: int
    looks: bytes
    data: bytes


@dataclass(frozen=True)
class Delete:
    ranges: Ranges


@dataclass(frozen=True)
class Restore:
    ranges: Ranges


@dataclass(frozen=True)
class ChangeLooks:
    """The selection and its values are kept as they are spelled."""

    values: bytes
    ranges: Ranges


Kind = Union[Insert, Delete, Restore, ChangeLooks]


class Operation(NamedTuple):
    text: int
    site: int
    seq: int
    stamp: int
    kind: Kind


def read_values(cursor: Cursor, selection: int) -> bytes:
    """The selected values of looks as they are spelled: bit 0 the font, bit 1 the colour, bit 2 the offset."""
    values = b""
    if selection & 1:
        length = cursor.byte()
        font = cursor.take(length)
        need(FONT.fullmatch(font) is not None, "a font has 1 to 31 letters, digits and full stops, the first a letter")
        values += bytes([length]) + font
    if selection & 2:
        colour = cursor.byte()
        need(colour <= 15, "a colour is at most 15")
        values += bytes([colour])
    return values + cursor.take(1) if selection & 4 else values


def read_looks(cursor: Cursor) -> bytes:
    return read_values(cursor, 7)


def read_change(cursor: Cursor) -> bytes:
    """A selection and its values as they are spelled."""
    selection = cursor.byte()
    need(1 <= selection <= 7, "a selection is 1 to 7")
    return bytes([selection]) + read_values(cursor, selection)


def check_ranges(ranges: Ranges) -> None:
    need(1 <= len(ranges) <= MAX_RANGES, "a set has 1 to 1,024 ranges")
    last = Range(0, 0, 0)
    for each in ranges:
        need(1 <= each.site <= MAX_SITE and each.site >= last.site, "the sites of ranges are 1 to 65535 and rise")
        need(each.at >= 0 and each.length >= 1 and each.end <= MAX_FILE, "a range is of characters below 2^24")
        need(each.site > last.site or each.at > last.end, "ranges of one site rise and don't touch")
        last = each


def check_insert(insert: Insert, site: int) -> None:
    need(1 <= len(insert.data) <= MAX_INSERT, "an Insert is of 1 to 4,096 bytes")
    need(insert.at + len(insert.data) <= MAX_FILE, "an Insert ends within its site's file")
    if insert.cause is not None:
        need(1 <= insert.cause.site <= MAX_SITE and 0 <= insert.cause.offset < MAX_FILE, "a cause is a character that may be")
        need(insert.cause.site != site or insert.cause.offset < insert.at, "a site's own cause is one that it has inserted")


def check(operation: Operation) -> Operation:
    """The operation, where a message may be of it. Looks, selections and values were checked as they were read."""
    need(1 <= operation.text <= MAX_TEXT, "a text is 1 to 65535")
    need(1 <= operation.site <= MAX_SITE, "a site is 1 to 65535")
    need(1 <= operation.seq <= MAX_SEQ, "a seq is 1 to 2^32-1")
    need(1 <= operation.stamp <= MAX_STAMP, "a stamp is 1 to 2^48-1")
    if isinstance(operation.kind, Insert):
        check_insert(operation.kind, operation.site)
    else:
        check_ranges(operation.kind.ranges)
    return operation


def read_insert(cursor: Cursor) -> Insert:
    site, offset, at = cursor.big(2), cursor.big(4), cursor.big(4)
    need(site > 0 or offset == 0, "the root has offset 0")
    looks = read_looks(cursor)
    return Insert(Name(site, offset) if site else None, at, looks, cursor.take(cursor.big(2)))


def read_ranges(cursor: Cursor) -> Ranges:
    count = cursor.big(2)
    need(10 * count <= cursor.left, "a set ends before its last range")
    return tuple(Range(cursor.big(2), cursor.big(4), cursor.big(4)) for _ in range(count))


def read_kind(cursor: Cursor, kind: int) -> Kind:
    if kind == INSERT:
        return read_insert(cursor)
    if kind == DELETE:
        return Delete(read_ranges(cursor))
    if kind == RESTORE:
        return Restore(read_ranges(cursor))
    if kind == CHANGE_LOOKS:
        return ChangeLooks(read_change(cursor), read_ranges(cursor))
    raise Refused(f"there is no kind {kind}")


def version(kind: int) -> int:
    return 2 if kind == RESTORE else 1


def read_message(message: bytes) -> Operation:
    """The operation that a message is of; others are refused."""
    cursor = Cursor(message)
    need(cursor.take(2) == TAG, "a message begins with OT")
    told, kind = cursor.byte(), cursor.byte()
    need(told == version(kind), "a Restore has version 2, the others have 1")
    text, site, seq, stamp = cursor.big(2), cursor.big(2), cursor.big(4), cursor.big(8)
    operation = Operation(text, site, seq, stamp, read_kind(cursor, kind))
    need(cursor.left == 0, "nothing follows a message")
    return check(operation)


def spelled_ranges(ranges: Ranges) -> bytes:
    return len(ranges).to_bytes(2, "big") + b"".join(
        each.site.to_bytes(2, "big") + each.at.to_bytes(4, "big") + each.length.to_bytes(4, "big") for each in ranges
    )


def spelled_kind(kind: Kind) -> tuple[int, bytes]:
    """The number of the kind, and what follows the first 20 bytes."""
    if isinstance(kind, Insert):
        site, offset = kind.cause or (0, 0)
        places = site.to_bytes(2, "big") + offset.to_bytes(4, "big") + kind.at.to_bytes(4, "big")
        return INSERT, places + kind.looks + len(kind.data).to_bytes(2, "big") + kind.data
    if isinstance(kind, Delete):
        return DELETE, spelled_ranges(kind.ranges)
    if isinstance(kind, Restore):
        return RESTORE, spelled_ranges(kind.ranges)
    return CHANGE_LOOKS, kind.values + spelled_ranges(kind.ranges)


def spelled_message(operation: Operation) -> bytes:
    kind, rest = spelled_kind(operation.kind)
    identity = operation.text.to_bytes(2, "big") + operation.site.to_bytes(2, "big") + operation.seq.to_bytes(4, "big")
    return TAG + bytes([version(kind), kind]) + identity + operation.stamp.to_bytes(8, "big") + rest
