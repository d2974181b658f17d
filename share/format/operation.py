"""Operations: what sites did to a note's text, as one type that all of sharing uses.

One comes as a message from the program, or in a chunk of an entry (share/format/chunk.py). It is read once,
where it comes in. Nothing here makes a new one: the program alone does. docs/FORMATS.md has messages byte by byte.
"""
import struct
from collections.abc import Iterable, Iterator
from typing import NamedTuple

from share.text.looks import FONT_LETTERS, LONGEST_FONT, MOST_COLOUR
from share.text.names import Names

# The text of a note; a later form of notes has others beside it.
TEXT = 1
INSERT, DELETE, CHANGE_LOOKS, RESTORE = 1, 2, 3, 4
GREATEST_STAMP = 2**48 - 1
LONGEST_MESSAGE = 10_297
# The greatest size of a site's file.
MOST_OF_A_SITE = 2**24
# The most bytes that one message inserts, and the most ranges that it names.
MOST_INSERTED, MOST_RANGES = 4_096, 1_024

HEADER = struct.Struct(">2sBBHHIQ")
# The cause, where it begins, and the length of its font's name.
INSERTION = struct.Struct(">HIIB")
CAUSE_AND_AT = struct.Struct(">HII")
TWO_BYTES = struct.Struct(">H")
RANGE = struct.Struct(">HII")
TAG = b"OT"
FONT_BYTES = frozenset(FONT_LETTERS.encode() + b"0123456789.")
FONT_BEGINS = frozenset(FONT_LETTERS.encode())
# The looks of a plain character, as an insertion has them.
PLAIN_LOOKS = b"\x10Oberon10.Scn.Fnt\x01\x00"


class NoMessage(ValueError):
    """Bytes that are no message of a note's text."""


class Operation(NamedTuple):
    """An operation; or letters that were typed one after the other, each an operation that mentions the letter before it and has
    the next stamp. All that the first one mentions is mentioned first."""

    kind: int
    site: int
    seq: int
    stamp: int
    # The number of operations.
    size: int
    mentions: tuple[Names, ...]
    # What is inserted, and where its characters begin.
    at: int = 0
    data: bytes = b""
    # An insertion's looks, or what a change of looks sets, as a message has them.
    looks: bytes = b""
    text: int = TEXT

    @classmethod
    def read(cls, message: bytes, text: int = TEXT) -> "Operation":
        """The operation of a message; NoMessage where bytes are none of this text, as docs/FORMATS.md has it."""
        if not HEADER.size < len(message) <= LONGEST_MESSAGE:
            raise NoMessage
        tag, version, kind, of, site, seq, stamp = HEADER.unpack_from(message)
        if tag != TAG or version != _version(kind) or of != text or not (site and seq):
            raise NoMessage
        if not 1 <= stamp <= GREATEST_STAMP:
            raise NoMessage
        try:
            if kind == INSERT:
                mentions, at, looks, data = _insertion(message, site)
                return cls(kind, site, seq, stamp, 1, mentions, at, data, looks, text)
            if kind in (DELETE, CHANGE_LOOKS, RESTORE):
                looks = _selected(message) if kind == CHANGE_LOOKS else b""
                return cls(kind, site, seq, stamp, 1, _ranges(message, HEADER.size + len(looks)), looks=looks, text=text)
        except (struct.error, IndexError) as why:
            raise NoMessage from why
        raise NoMessage

    @property
    def new(self) -> Names | None:
        """The names that are inserted, None where none are."""
        return Names(self.site, self.at, len(self.data)) if self.data else None

    @property
    def names(self) -> tuple[Names, ...]:
        """The names that are inserted, deleted or restored; none of a change of looks."""
        if self.data:
            return (Names(self.site, self.at, len(self.data)),)
        return self.mentions if self.kind in (DELETE, RESTORE) else ()

    @property
    def may_dress(self) -> bool:
        """Whether there can be looks after it where there were none: it sets some, or brings characters back."""
        return self.looks != PLAIN_LOOKS if self.kind == INSERT else self.kind in (CHANGE_LOOKS, RESTORE)

    def part(self, begin: int, end: int) -> "Operation":
        """The operations from one place to another, of those that it has."""
        if (begin, end) == (0, self.size):
            return self
        length = len(self.data) // self.size
        at = self.at + begin * length
        return Operation(self.kind, self.site, self.seq + begin, self.stamp + begin, end - begin,
                         (Names(self.site, at - 1, 1),) if begin else self.mentions, at,
                         self.data[begin * length:end * length], self.looks, self.text)

    def each(self) -> Iterator["Operation"]:
        """The operations one by one."""
        return (self.part(number, number + 1) for number in range(self.size))

    def spellings(self) -> Iterator[bytes]:
        """The messages of the operations, one by one."""
        if self.kind != INSERT:
            yield b"".join([HEADER.pack(TAG, _version(self.kind), self.kind, self.text, self.site, self.seq, self.stamp), self.looks,
                            TWO_BYTES.pack(len(self.mentions)), *(RANGE.pack(*one) for one in self.mentions)])
            return
        length, at, cause = len(self.data) // self.size, self.at, self.mentions[0][:2] if self.mentions else (0, 0)
        end = self.looks + TWO_BYTES.pack(length)
        for number in range(self.size):
            yield b"".join((HEADER.pack(TAG, 1, INSERT, self.text, self.site, self.seq + number, self.stamp + number),
                            CAUSE_AND_AT.pack(*cause, at), end, self.data[number * length:(number + 1) * length]))
            cause, at = (self.site, at + length - 1), at + length


def length_after(operations: Iterable[Operation], length: int) -> int:
    """The number of characters that a site has inserted with operations of its own, after those of before them."""
    for one in operations:
        if one.data:
            length = one.at + len(one.data)
    return length


def is_font(font: bytes, length: int) -> bool:
    """Whether bytes are the name of a font of this length."""
    return (len(font) == length and 1 <= length <= LONGEST_FONT and font[0] in FONT_BEGINS
            and FONT_BYTES.issuperset(font))


def _version(kind: int) -> int:
    """The version of the spelling of a kind."""
    return 2 if kind == RESTORE else 1


def _insertion(message: bytes, site: int) -> tuple[tuple[Names, ...], int, bytes, bytes]:
    """What an insertion mentions, where its characters begin, its looks, and they themselves."""
    cause_site, cause, at, font = INSERTION.unpack_from(message, HEADER.size)
    if cause_site == 0 and cause or cause >= MOST_OF_A_SITE or cause_site == site and cause >= at:
        raise NoMessage
    begin = HEADER.size + INSERTION.size
    if not is_font(message[begin:begin + font], font) or message[begin + font] > MOST_COLOUR:
        raise NoMessage
    end = begin + font + 2
    (length,) = TWO_BYTES.unpack_from(message, end)
    data = message[end + TWO_BYTES.size:]
    if not 1 <= length <= MOST_INSERTED or at + length > MOST_OF_A_SITE or len(data) != length:
        raise NoMessage
    return (Names(cause_site, cause, 1),) if cause_site else (), at, message[begin - 1:end], data


def _selected(message: bytes) -> bytes:
    """What a change of looks sets: which of the values, and these."""
    selected, end = message[HEADER.size], HEADER.size + 1
    if not 1 <= selected <= 7:
        raise NoMessage
    if selected & 1:
        begin, end = end + 1, end + 1 + message[end]
        if not is_font(message[begin:end], end - begin):
            raise NoMessage
    if selected & 2:
        if message[end] > MOST_COLOUR:
            raise NoMessage
        end += 1
    return message[HEADER.size:end + bool(selected & 4)]


def _ranges(message: bytes, begin: int) -> tuple[Names, ...]:
    """A set of names, which is the rest of a message."""
    (count,) = TWO_BYTES.unpack_from(message, begin)
    if not 1 <= count <= MOST_RANGES or len(message) != begin + TWO_BYTES.size + count * RANGE.size:
        raise NoMessage
    found = tuple(map(Names._make, RANGE.iter_unpack(message[begin + TWO_BYTES.size:])))
    before, end = 0, -1
    for site, at, length in found:
        if not site or not length or at + length > MOST_OF_A_SITE:
            raise NoMessage
        # Ranges rise, and those of one site don't touch.
        if site < before or site == before and at <= end:
            raise NoMessage
        before, end = site, at + length
    return found
