"""Chunks, written and read apart from the program: the section "Packed histories" of docs/FORMATS.md.

A chunk is read without anything that its reader holds, so each of its sites begins where it says."""
from __future__ import annotations

from collections import Counter
from collections.abc import Iterable, Iterator, Mapping, Sequence
from typing import NamedTuple

from tools.packed.cursor import Cursor, need
from tools.packed.messages import MAX_FILE, MAX_SEQ, MAX_SITE, MAX_STAMP, MAX_TEXT, Insert, Operation
from tools.packed.packed import CODES, Expected, Known, read_number, read_operation, spelled_number, spelled_operation

TAG = b"OTC1"
MAX_CHUNK = 16_000
BEGIN = 0x0F
CHUNK_CODES = CODES | {BEGIN}


class Placed(NamedTuple):
    """An operation, and the length of its site's file before it."""

    operation: Operation
    at: int


class Chunk(NamedTuple):
    """A text, and operations on it."""

    text: int
    placed: tuple[Placed, ...]

    @property
    def operations(self) -> list[Operation]:
        return [each.operation for each in self.placed]


def inserted(operation: Operation) -> int:
    """How many characters it adds to its site's file."""
    return len(operation.kind.data) if isinstance(operation.kind, Insert) else 0


def head(text: int) -> bytes:
    """What stands before the first operation."""
    return TAG + text.to_bytes(2, "big")


# Writing.


def placed(operations: Iterable[Operation], fronts: Mapping[int, int] = {}) -> Iterator[Placed]:
    """The operations beyond these fronts, of all that a text has taken in; a site that has no front here has the front 0."""
    lengths: Counter[int] = Counter()
    for operation in operations:
        if operation.seq > fronts.get(operation.site, 0):
            yield Placed(operation, lengths[operation.site])
        lengths[operation.site] += inserted(operation)


def spelled_begin(each: Placed, known: Known) -> bytes:
    """Where the operation's site begins with it, the numbers of that, which are expected from now on."""
    operation = each.operation
    if operation.site in known.sites:
        return b""
    known.note(operation.site, Expected(operation.seq, operation.stamp, each.at))
    numbers = operation.site, operation.seq, operation.stamp, each.at
    return bytes([BEGIN]) + b"".join(map(spelled_number, numbers))


def added(each: Placed, known: Known) -> bytes:
    """What an operation adds, which is known then."""
    spelled = spelled_begin(each, known) + spelled_operation(each.operation, known)
    known.take(each.operation)
    return spelled


def chunks(text: int, operations: Iterable[Placed]) -> Iterator[bytes]:
    """The chunks of operations, each of which takes them as long as there is room; none where there are none."""
    written, known = head(text), Known(CHUNK_CODES)
    for each in operations:
        spelled = added(each, known)
        if len(written) + len(spelled) > MAX_CHUNK:
            yield written
            written, known = head(text), Known(CHUNK_CODES)
            spelled = added(each, known)
        written += spelled
    if written != head(text):
        yield written


def pack(text: int, operations: Sequence[Operation], fronts: Mapping[int, int] = {}) -> list[bytes]:
    """The chunks of what a text has taken in beyond these fronts."""
    return [*chunks(text, placed(operations, fronts))]


def chunk_of(text: int, operations: Iterable[Placed]) -> bytes:
    """The one chunk that has room for all these operations."""
    found = [*chunks(text, operations)] or [head(text)]
    need(len(found) == 1, "one chunk has no room for these operations")
    return found[0]


# Reading.


def read_begin(cursor: Cursor, known: Known) -> tuple[int, int]:
    """The site that begins, and the stamp of the operation with which it does."""
    site, seq, stamp, at = (read_number(cursor) for _ in range(4))
    need(1 <= site <= MAX_SITE and 1 <= seq <= MAX_SEQ and 1 <= stamp <= MAX_STAMP, "a site begins with no identity")
    need(at <= MAX_FILE, "a site's file has 2^24 bytes at most")
    need(site not in known.sites, "a site begins twice")
    known.note(site, Expected(seq, stamp, at))
    return site, stamp


def read_first(cursor: Cursor, text: int, known: Known) -> Operation:
    """The operation with which a site begins, after the code that says so."""
    began = read_begin(cursor, known)
    operation = read_operation(cursor, text, known)
    need((operation.site, operation.stamp) == began, "a site begins with another operation than is said")
    return operation


def read_later(cursor: Cursor, text: int, known: Known) -> Operation:
    begun = len(known.sites)
    operation = read_operation(cursor, text, known)
    need(len(known.sites) == begun, "an operation's site hasn't begun")
    return operation


def read_placed(cursor: Cursor, text: int) -> Iterator[Placed]:
    known = Known(CHUNK_CODES)
    while cursor.left:
        operation = (read_first if cursor.passes(BEGIN) else read_later)(cursor, text, known)
        yield Placed(operation, known.expected(operation.site).at - inserted(operation))


def read_chunk(data: bytes) -> Chunk:
    """What a chunk has; other bytes are refused."""
    need(len(data) <= MAX_CHUNK, "a chunk has 16,000 bytes at most")
    cursor = Cursor(data)
    need(cursor.take(len(TAG)) == TAG, "a chunk begins with OTC1")
    text = cursor.big(2)
    need(1 <= text <= MAX_TEXT, "a text is 1 to 65535")
    return Chunk(text, tuple(read_placed(cursor, text)))
