"""Entries that type on: letters where those of the entry before ended, one after the other. Nearly all entries of a note that was typed
by hand are such ones.

Their first bytes are told by the entry before, and what follows are the letters. So where an entry has these bytes it is spelled
rightly, and needs no reading; and where all of the entry before it counts, it counts, too: what it mentions is there, its characters
begin where its site's end, and its stamps go on.
"""
from collections.abc import Callable, Iterable, Iterator, Sequence
from itertools import chain, count, islice, repeat
from operator import add

from share.format.chunk import CODES, FAR_FROM_CARET, GREATEST_SEQ, PLAIN_LETTERS, MOST_CHUNK, NEW_SITE, chunk_begin, varint
from share.format.entry import CHUNKS, Entry, Kind, check_entry
from share.format.operation import GREATEST_STAMP, MOST_OF_A_SITE, Operation

# The most entries of which it is known where they end; and that are compared in one go.
MOST_ENDS, KEYS_AT_ONCE = 4_096, 256
# The first bytes of varints that have more than one, and those of one.
LOWEST, SEVEN_BITS = [bytes((low | 0x80,)) for low in range(0x80)], [bytes((low,)) for low in range(0x80)]


class End:
    """Where an entry ends: what the next operation of its site has that types on."""

    __slots__ = ("site", "_lead", "_far", "_seq", "_stamp", "_at", "_cause")

    def __init__(self, last: Operation):
        self.site = last.site
        site = varint(last.site)
        self._lead, self._far = chunk_begin(last.text) + bytes([NEW_SITE]) + site, bytes([FAR_FROM_CARET]) + site
        self._seq, self._stamp, self._at = last.seq + last.size, last.stamp + last.size, last.at + len(last.data)
        self._cause = varint(self._at - 1)

    def types_on(self, entry: Entry) -> bool:
        """Whether an entry, of whose site this is, types on here. It ends after it then."""
        chunk, size, at = entry.spelled, entry.size, varint(self._at)
        begin = b"".join((self._lead, varint(self._seq), varint(self._stamp), at, self._far, self._cause))
        if not (size and entry.first == self._seq and len(chunk) == len(begin) + size <= MOST_CHUNK and chunk.startswith(begin)):
            return False
        if chunk[-1] in CODES or size > 1 and not PLAIN_LETTERS.fullmatch(chunk, len(begin)):
            return False
        self._seq, self._stamp, self._at = self._seq + size, self._stamp + size, self._at + size
        self._cause = at if size == 1 else varint(self._at - 1)
        return self._seq - 1 <= GREATEST_SEQ and self._stamp - 1 <= GREATEST_STAMP and self._at <= MOST_OF_A_SITE

    def letters(self, chunks: Sequence[bytes]) -> int:
        """How many of these chunks type on here, one after the other, each of an entry of one letter that follows the one before it.
        It ends after them then."""
        seq, stamp, at, many = self._seq, self._stamp, self._at, 0
        most = max(0, min(len(chunks), GREATEST_SEQ + 1 - seq, GREATEST_STAMP + 1 - stamp, MOST_OF_A_SITE - at))
        begins = map(b"".join, zip(repeat(self._lead), varints_from(seq), varints_from(stamp), varints_from(at), repeat(self._far),
                                   varints_from(at - 1)))
        for chunk, begin in zip(chunks[:most], begins):
            if chunk[:-1] != begin or chunk[-1] in CODES:
                break
            many += 1
        self._seq, self._stamp, self._at, self._cause = seq + many, stamp + many, at + many, varint(at + many - 1)
        return many


class Keystrokes:
    """Looks at entries one after the other."""

    def __init__(self) -> None:
        # By the hashes of the entries.
        self._ends: dict[bytes, End] = {}

    def type_on(self, entry: Entry) -> bool:
        """Whether an entry types on after the one before it; raises Bad where its messages are spelled wrong, or aren't those of its
        place."""
        end = self._ends.pop(entry.before, None)
        if end and entry.kind is Kind.CHUNK and entry.site == end.site and end.types_on(entry):
            self._ends[entry.hash] = end
            return True
        check_entry(entry)
        if entry.kind in CHUNKS and (last := entry.operations[-1]).data:
            if len(self._ends) >= MOST_ENDS:
                self._ends.clear()
            self._ends[entry.hash] = End(last)
        return False

    def type_on_each(self, hashes: Sequence[bytes], chunks: Sequence[bytes], letters: bytes, entry: Callable[[int], Entry]) -> bytearray:
        """The same of each of some entries of messages of which each follows the one before it. `letters` says of which of them these are
        the chunks of one message; what else is asked of one is asked of the entry itself."""
        # Nobody has seen what the first one follows.
        found, at = bytearray([self.type_on(entry(0))]) + bytes(len(hashes) - 1), 1
        while at < len(hashes):
            before = hashes[at - 1]
            to = letters.find(0, at, at + KEYS_AT_ONCE)
            to = min(at + KEYS_AT_ONCE, len(hashes)) if to < 0 else to
            many = end.letters(chunks[at:to]) if to > at and (end := self._ends.get(before)) else 0
            if many:
                self._ends[hashes[at + many - 1]] = self._ends.pop(before)
                found[at:at + many] = b"\1" * many
                at += many
            else:
                found[at] = self.type_on(entry(at))
                at += 1
        return found


def varints_from(number: int) -> Iterator[bytes]:
    """The varints of a number and of those after it."""
    return islice(chain.from_iterable(map(_varints, count(number >> 7))), number & 0x7F, None)


def _varints(high: int) -> Iterable[bytes]:
    """The varints of the numbers that begin with these bits, but for the last seven."""
    return map(add, LOWEST, repeat(varint(high))) if high else SEVEN_BITS
