"""Packed histories, written apart from the program: the section "Packed histories" of docs/FORMATS.md.

`pack TEXT` reads the messages of this text as lines of hex, and prints the history as one; `unpack TEXT` reads the history, and
prints the messages. What can't be is refused: a line on standard error, and the status 1. It is for tests: each byte may come to a
message of 52, and all are held at once."""
from __future__ import annotations

import argparse
import sys
from collections.abc import Iterator, Sequence
from typing import NamedTuple

from tools.packed.cursor import Cursor, Refused, need
from tools.packed.messages import (
    MAX_RANGES,
    MAX_TEXT,
    Cause,
    ChangeLooks,
    Delete,
    Insert,
    Kind,
    Name,
    Operation,
    Range,
    Ranges,
    Restore,
    check,
    read_change,
    read_looks,
    read_message,
    spelled_message,
)

# What isn't as expected.
OTHER_SITE, LATER, NEW_LOOKS, NEAR, FAR = 1, 2, 3, 4, 5
# What the operation does.
INSERT_LONG, DELETE_SET, DELETE_ONE, CHANGE, RESTORE, INSERT_CODE = 6, 7, 8, 0x0B, 0x0C, 0x0E
CODES = frozenset([*range(0x01, 0x09), CHANGE, RESTORE, INSERT_CODE])
DEFAULT_LOOKS = b"\x10Oberon10.Scn.Fnt\x01\x00"
# A number of more sevens of bits is that of no field.
MOST_SEVENS = 7
LEAST_RANGE = 3


class Expected(NamedTuple):
    """What the next operation of a site is expected to have."""

    seq: int = 1
    stamp: int = 1
    at: int = 0
    looks: bytes = DEFAULT_LOOKS
    caret: Cause = None

    def after(self, operation: Operation) -> Expected:
        kind = operation.kind
        at, looks, caret = self.at, self.looks, self.caret
        if isinstance(kind, Insert):
            at, looks = kind.at + len(kind.data), kind.looks
            caret = Name(operation.site, at - 1)
        elif isinstance(kind, Delete):
            first = kind.ranges[0]
            caret = Name(first.site, first.at - 1) if first.at else None
        return Expected(operation.seq + 1, operation.stamp + 1, at, looks, caret)


FIRST = Expected()


class Known:
    """What the operations before one let expect of it, and which bytes are codes."""

    def __init__(self, codes: frozenset[int] = CODES) -> None:
        self.codes = codes
        self.sites: dict[int, Expected] = {}
        # The site of the operation before; 0 where there is none.
        self.last = 0

    def expected(self, site: int) -> Expected:
        return self.sites.get(site, FIRST)

    def note(self, site: int, expected: Expected) -> None:
        """This is expected of a site, which came last."""
        self.sites[site] = expected
        self.last = site

    def take(self, operation: Operation) -> None:
        self.note(operation.site, self.expected(operation.site).after(operation))


# Writing.


def spelled_number(number: int) -> bytes:
    sevens = bytearray()
    while number > 0x7F:
        sevens.append(number & 0x7F | 0x80)
        number >>= 7
    return bytes([*sevens, number])


def spelled_difference(difference: int) -> bytes:
    return spelled_number(2 * difference if difference >= 0 else -2 * difference - 1)


def spelled_set(ranges: Ranges) -> bytes:
    spelled = bytearray(spelled_number(len(ranges) - 1))
    before = Range(0, 0, 0)
    for each in ranges:
        spelled += spelled_number(each.site - before.site)
        spelled += spelled_number(each.at - (before.end + 1 if each.site == before.site else 0))
        spelled += spelled_number(each.length - 1)
        before = each
    return bytes(spelled)


def spelled_stamp(operation: Operation, known: Known) -> bytes:
    more = operation.stamp - known.expected(operation.site).stamp
    need(more >= 0, "a stamp isn't above its site's last")
    if operation.site != known.last:
        return bytes([OTHER_SITE]) + spelled_number(operation.site) + spelled_number(more)
    return bytes([LATER]) + spelled_number(more) if more else b""


def spelled_place(place: Cause, caret: Cause) -> bytes:
    if place == caret:
        return b""
    if place is None:
        return bytes([FAR, 0])
    if caret is None or caret.site != place.site:
        return bytes([FAR]) + spelled_number(place.site) + spelled_number(place.offset)
    return bytes([NEAR]) + spelled_difference(place.offset - caret.offset)


def spelled_bytes(data: bytes, codes: frozenset[int]) -> bytes:
    if len(data) > 1:
        return bytes([INSERT_LONG]) + spelled_number(len(data) - 2) + data
    return bytes([INSERT_CODE]) + data if data[0] in codes else data


def one_character(ranges: Ranges) -> Cause:
    """The character that a set is of, where it is of one."""
    return Name(ranges[0].site, ranges[0].at) if len(ranges) == 1 and ranges[0].length == 1 else None


def spelled_kind(kind: Kind, expected: Expected, codes: frozenset[int]) -> bytes:
    if isinstance(kind, Insert):
        need(kind.at == expected.at, "an Insert begins elsewhere than its site's file ends")
        looks = b"" if kind.looks == expected.looks else bytes([NEW_LOOKS]) + kind.looks
        return looks + spelled_place(kind.cause, expected.caret) + spelled_bytes(kind.data, codes)
    if isinstance(kind, ChangeLooks):
        return bytes([CHANGE]) + kind.values + spelled_set(kind.ranges)
    if isinstance(kind, Restore):
        return bytes([RESTORE]) + spelled_set(kind.ranges)
    if one := one_character(kind.ranges):
        return spelled_place(one, expected.caret) + bytes([DELETE_ONE])
    return bytes([DELETE_SET]) + spelled_set(kind.ranges)


def spelled_operation(operation: Operation, known: Known) -> bytes:
    """What the next operation of its site adds."""
    expected = known.expected(operation.site)
    need(operation.seq == expected.seq, "a message isn't the next of its site")
    return spelled_stamp(operation, known) + spelled_kind(operation.kind, expected, known.codes)


def parts(messages: Sequence[bytes]) -> Iterator[bytes]:
    """What each message adds to the history of messages of one text, each the next of its site; others are refused."""
    known, text = Known(), 0
    for message in messages:
        operation = read_message(message)
        need(text in (0, operation.text), "the messages are of several texts")
        text = operation.text
        yield spelled_operation(operation, known)
        known.take(operation)


def pack(messages: Sequence[bytes]) -> bytes:
    """The history of messages."""
    return b"".join(parts(messages))


# Reading.


def read_number(cursor: Cursor) -> int:
    number = 0
    for sevens in range(MOST_SEVENS):
        byte = cursor.byte()
        number |= (byte & 0x7F) << 7 * sevens
        if byte < 0x80:
            need(byte > 0 or sevens == 0, "a number is spelled longer than need be")
            return number
    raise Refused("a number is greater than any field")


def read_difference(cursor: Cursor) -> int:
    number = read_number(cursor)
    return -((number + 1) // 2) if number % 2 else number // 2


def read_set(cursor: Cursor) -> Ranges:
    count = read_number(cursor) + 1
    need(count <= MAX_RANGES, "a set has 1 to 1,024 ranges")
    need(LEAST_RANGE * count <= cursor.left, "a set has more ranges than follow")
    ranges: list[Range] = []
    before = Range(0, 0, 0)
    for _ in range(count):
        more = read_number(cursor)
        at = read_number(cursor) + (0 if more else before.end + 1)
        before = Range(before.site + more, at, read_number(cursor) + 1)
        ranges.append(before)
    return tuple(ranges)


def read_site_and_more(cursor: Cursor, last: int) -> tuple[int, int]:
    """The site of the next operation, and how much its stamp is above the expected."""
    if cursor.passes(OTHER_SITE):
        site = read_number(cursor)
        need(site != last, "the site of the operation before is named again")
        return site, read_number(cursor)
    need(last > 0, "the first operation has no site")
    if not cursor.passes(LATER):
        return last, 0
    more = read_number(cursor)
    need(more > 0, "the expected stamp is spelled")
    return last, more


def read_far(cursor: Cursor, caret: Cause) -> Cause:
    """The root, or a character of another site than the caret's."""
    site = read_number(cursor)
    need(site != (0 if caret is None else caret.site), "a place is spelled by more than its difference from the caret")
    return Name(site, read_number(cursor)) if site else None


def read_near(cursor: Cursor, caret: Cause) -> Cause:
    """Another character of the caret's site."""
    difference = read_difference(cursor)
    if caret is None or difference == 0:
        raise Refused("the root has no neighbours, and the expected place isn't spelled")
    return Name(caret.site, caret.offset + difference)


def read_bytes(cursor: Cursor, code: int, codes: frozenset[int]) -> bytes:
    if code == INSERT_LONG:
        return cursor.take(read_number(cursor) + 2)
    data = cursor.take(1) if code == INSERT_CODE else bytes([code])
    need((data[0] in codes) == (code == INSERT_CODE), "a byte is spelled as another is, or a code stands where none may")
    return data


def read_delete_set(cursor: Cursor) -> Delete:
    ranges = read_set(cursor)
    need(one_character(ranges) is None, "one character is spelled as a set")
    return Delete(ranges)


def read_without_place(cursor: Cursor, code: int) -> Kind:
    """An operation that has neither looks of its own nor a place."""
    if code == CHANGE:
        return ChangeLooks(read_change(cursor), read_set(cursor))
    return Restore(read_set(cursor)) if code == RESTORE else read_delete_set(cursor)


def read_kind(cursor: Cursor, expected: Expected, codes: frozenset[int]) -> Kind:
    begin, looks, place = cursor.at, expected.looks, expected.caret
    if cursor.passes(NEW_LOOKS):
        looks = read_looks(cursor)
        need(looks != expected.looks, "the expected looks are spelled")
    if cursor.passes(NEAR):
        place = read_near(cursor, place)
    elif cursor.passes(FAR):
        place = read_far(cursor, place)
    as_expected, code = cursor.at == begin, cursor.byte()
    if code in (CHANGE, RESTORE, DELETE_SET):
        need(as_expected, "looks or a place come before an operation that has none")
        return read_without_place(cursor, code)
    if code == DELETE_ONE:
        need(looks == expected.looks, "looks come before a Delete")
        if place is None:
            raise Refused("the root is no character")
        return Delete((Range(place.site, place.offset, 1),))
    return Insert(place, expected.at, looks, read_bytes(cursor, code, codes))


def read_operation(cursor: Cursor, text: int, known: Known) -> Operation:
    """The next operation, which is known then."""
    site, more = read_site_and_more(cursor, known.last)
    expected = known.expected(site)
    kind = read_kind(cursor, expected, known.codes)
    operation = check(Operation(text, site, expected.seq, expected.stamp + more, kind))
    known.take(operation)
    return operation


def operations(data: bytes, text: int) -> Iterator[Operation]:
    """The operations of a history, one after the other."""
    need(1 <= text <= MAX_TEXT, "a text is 1 to 65535")
    cursor, known = Cursor(data), Known()
    while cursor.left:
        yield read_operation(cursor, text, known)


def unpack(data: bytes, text: int) -> list[bytes]:
    """The messages of a history of this text; other bytes are refused."""
    return [spelled_message(operation) for operation in operations(data, text)]


# The command.


def packed_lines(lines: Sequence[bytes], text: int) -> list[bytes]:
    need(all(read_message(line).text == text for line in lines), "a message is of another text")
    return [pack(lines)]


def unpacked_lines(lines: Sequence[bytes], text: int) -> list[bytes]:
    need(len(lines) <= 1, "a history is one line")
    return [message for line in lines for message in unpack(line, text)]


def main(words: Sequence[str]) -> int:
    parser = argparse.ArgumentParser(prog="packed", description=__doc__, formatter_class=argparse.RawDescriptionHelpFormatter)
    parser.add_argument("what", choices=["pack", "unpack"])
    parser.add_argument("text", type=int, help="the text's number")
    given = parser.parse_args(words)
    try:
        lines = [bytes.fromhex(line) for line in sys.stdin]
        told = (packed_lines if given.what == "pack" else unpacked_lines)(lines, given.text)
    except ValueError as why:
        print(f"packed: {why}", file=sys.stderr)
        return 1
    for line in told:
        print(line.hex())
    return 0


if __name__ == "__main__":
    sys.exit(main(sys.argv[1:]))
