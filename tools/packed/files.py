"""Packed files, read apart from the program: the head, the history, and whether each operation is ready over those before it."""
from __future__ import annotations

from collections.abc import Sequence
from typing import NamedTuple

from tools.packed.cursor import Cursor, need
from tools.packed.messages import MAX_SITE, MAX_TEXT, Insert, Operation, Range
from tools.packed.packed import operations

TAG = b"OTP1"
MAX_OPERATIONS = 2**22


class PackedFile(NamedTuple):
    """A text, the site whose copy it is, and what that has taken in."""

    text: int
    site: int
    operations: tuple[Operation, ...]


class TakenIn:
    """What each site has in the operations so far: the stamp of each, and of each character that it inserted."""

    def __init__(self) -> None:
        self.stamps: dict[int, list[int]] = {}
        self.characters: dict[int, list[int]] = {}

    def stamp_of(self, names: Range) -> int:
        """The greatest stamp of these characters' Inserts, which all have to be here."""
        there = self.characters.get(names.site, [])
        need(names.end <= len(there), "a character is named that isn't inserted yet")
        return max(there[names.at : names.end])

    def take(self, operation: Operation) -> None:
        """Takes in an operation that is the next of its site, and that comes after its causes; others are refused."""
        stamps, characters = (its.setdefault(operation.site, []) for its in (self.stamps, self.characters))
        kind = operation.kind
        need(operation.seq == len(stamps) + 1, "an operation isn't the next of its site")
        causes = [self.stamp_of(names) for names in mentioned(operation)] + stamps[-1:]
        need(all(cause < operation.stamp for cause in causes), "a stamp isn't above those of the causes")
        if isinstance(kind, Insert):
            need(kind.at == len(characters), "an Insert begins elsewhere than its site's file ends")
            characters += [operation.stamp] * len(kind.data)
        stamps.append(operation.stamp)


def mentioned(operation: Operation) -> Sequence[Range]:
    """The characters that an operation names."""
    kind = operation.kind
    if isinstance(kind, Insert):
        return [] if kind.cause is None else [Range(*kind.cause, 1)]
    return kind.ranges


def read_file(data: bytes) -> PackedFile:
    """What a packed file has; other bytes are refused."""
    cursor = Cursor(data)
    need(cursor.take(len(TAG)) == TAG, "a packed file begins with OTP1")
    text, site = cursor.big(2), cursor.big(2)
    need(1 <= text <= MAX_TEXT and 1 <= site <= MAX_SITE, "a text and a site are 1 to 65535")
    taken, found = TakenIn(), tuple(operations(cursor.take(cursor.left), text))
    need(len(found) <= MAX_OPERATIONS, "a packed file has 2^22 operations at most")
    for operation in found:
        taken.take(operation)
    return PackedFile(text, site, found)


def head(text: int, site: int) -> bytes:
    """What stands before the history."""
    return TAG + text.to_bytes(2, "big") + site.to_bytes(2, "big")
