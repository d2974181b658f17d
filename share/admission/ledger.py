"""The entries of a note that are in chains, in some 200 bytes each, and the chains themselves.

What can be computed again isn't kept: of an entry's bytes a ledger has the signature and the chunk of its messages alone, where it
knows the note's form, and makes the others anew when they are asked for. So a file that was emptied can be written anew from
memory, and a note in which each keystroke is an entry fits there.
"""
from array import array
from bisect import bisect_left
from collections.abc import Iterable, Iterator, Sequence
from itertools import accumulate
from operator import attrgetter
from typing import NamedTuple, overload

from share.admission.hashes import HASH_BYTES, MARK_MASK, NUMBER_BITS, Hashes
from share.format.chunk import unpacked, unpacked_one_by_one
from share.format.entry import CHUNKS, NO_HASH, Entry, FirstEntry, FirstForm, Form, Kind
from share.format.operation import TEXT, Operation

# A site and an author.
Who = tuple[int, bytes]
# No more letters than these, which are typed one after the other, are one run, so that each chunk has room for it.
MOST_IN_RUN = 1_000


class Row(NamedTuple):
    """An entry of a note's file, and its place there. `made` says that this person made it here, `types_on` that it is known to
    type on after the entry before it."""

    place: int
    entry: Entry
    made: bool
    types_on: bool = False


# What is taken of each row and entry.
HASH_OF, KIND_OF, FIRST_OF, SIZE_OF = map(attrgetter, ("hash", "kind", "first", "size"))
MADE_OF, TYPES_ON_OF, PLACE_OF = map(attrgetter, ("made", "types_on", "place"))
KIND_BY_NUMBER = {int(kind): kind for kind in Kind}


class Chained(Sequence[Row]):
    """Entries of messages of which each follows the one before it, in columns. A row is made where somebody asks for it, since nobody
    asks for nearly all of them. Either all of them were made here, or none."""

    def __init__(self, form: Form, places: Sequence[int], hashes: Sequence[bytes], raws: Sequence[bytes], bodies: Sequence[bytes],
                 kinds: bytes, firsts: Sequence[int], sizes: Sequence[int], made: bool):
        self.form, self.places, self.hashes, self.raws, self.bodies = form, places, hashes, raws, bodies
        self.kinds, self.firsts, self.sizes, self.made = kinds, firsts, sizes, made
        # Whether each is known to type on after the one before it.
        self.types_on: bytes | bytearray = bytes(len(places))

    def __len__(self) -> int:
        return len(self.places)

    @overload
    def __getitem__(self, at: int) -> Row: ...

    @overload
    def __getitem__(self, at: slice) -> list[Row]: ...

    def __getitem__(self, at: int | slice) -> Row | list[Row]:
        if isinstance(at, slice):
            return [self[number] for number in range(*at.indices(len(self)))]
        return Row(self.places[at], self.entry(at), self.made, bool(self.types_on[at]))

    def entry(self, at: int) -> Entry:
        """The entry at a place."""
        return self.form.reopened(self.raws[at], self.bodies[at], self.hashes[at])


def hashes_of(rows: Sequence[Row]) -> Sequence[bytes]:
    """The hashes of entries."""
    return rows.hashes if isinstance(rows, Chained) else [row.entry.hash for row in rows]


class Ledger(Hashes):
    """Entries, each by a number of its own; they are added and never change."""

    def __init__(self, form: Form | None = None):
        super().__init__()
        assert form is None or isinstance(form, FirstForm)
        self._form = form
        # The sites and authors, and which of them each entry is of.
        self._clients: list[Who] = []
        self._client_of: dict[Who, int] = {}
        self._whose = array("I")
        self._kinds, self._made, self._types_on = bytearray(), bytearray(), bytearray()
        self._befores, self._firsts, self._sizes = array("I"), array("I"), array("H")
        self._places, self._ends = array("Q"), array("Q")
        # What can't be computed again of each entry, what it builds on, and its messages.
        self._kept = bytearray()
        # How long the bytes of each entry are, where all of them are kept, since the form isn't known.
        self._whole = array("I")

    def add(self, rows: Sequence[Row], before: int) -> range:
        """Adds entries of one author: the first follows that of a number, which says nothing of a claim, and each other one the one before
        it. Their own numbers."""
        if len(rows) == 1:
            number = self._add_one(rows[0], before)
            return range(number, number + 1)
        if isinstance(rows, Chained) and self._form:
            return self._add_columns(rows, before, self._form)
        entries, first = [row.entry for row in rows], len(self)
        numbers = range(first, first + len(rows))
        hashes = [*map(HASH_OF, entries)]
        self._hashes += b"".join(hashes)
        self._whose.extend([self._client(entries[0])] * len(rows))
        self._kinds += bytes(map(KIND_OF, entries))
        self._made += bytes(map(MADE_OF, rows))
        self._types_on += bytes(map(TYPES_ON_OF, rows))
        self._befores.extend([before, *numbers[:-1]])
        self._firsts.extend(map(FIRST_OF, entries))
        self._sizes.extend(map(SIZE_OF, entries))
        self._places.extend(map(PLACE_OF, rows))
        self._keep(entries)
        self._enter(hashes, first)
        return numbers

    def _add_columns(self, these: Chained, before: int, form: FirstForm) -> range:
        """The same of entries in columns."""
        first, many = len(self), len(these)
        numbers = range(first, first + many)
        self._hashes += b"".join(these.hashes)
        self._whose.extend([self._client(these.entry(0))] * many)
        self._kinds += these.kinds
        self._made += bytes([these.made]) * many
        self._types_on += these.types_on
        self._befores.extend([before, *numbers[:-1]])
        self._firsts.extend(these.firsts)
        self._sizes.extend(these.sizes)
        self._places.extend(these.places)
        kept, tail = these.bodies, form.tail_bytes
        if tail:
            kept = [raw[-tail:] + body for raw, body in zip(these.raws, kept)]
        begin = len(self._kept)
        self._kept += b"".join(kept)
        self._ends.extend([begin + end for end in accumulate(map(len, kept))])
        self._enter(these.hashes, first)
        return numbers

    def _add_one(self, row: Row, before: int) -> int:
        """Adds an entry that follows that of a number, as each key does; its own number."""
        entry, number = row.entry, len(self._kinds)
        self._hashes += entry.hash
        self._whose.append(self._client(entry))
        self._kinds.append(entry.kind)
        self._made.append(row.made)
        self._types_on.append(row.types_on)
        self._befores.append(before)
        self._firsts.append(entry.first)
        self._sizes.append(entry.size)
        self._places.append(row.place)
        self._keep((entry,))
        self._enter((entry.hash,), number)
        return number

    def _client(self, entry: Entry) -> int:
        """The number of an entry's site and author."""
        client = (entry.site, entry.author)
        if (whose := self._client_of.get(client)) is None:
            whose = self._client_of[client] = len(self._clients)
            self._clients.append(client)
        return whose

    def _keep(self, entries: Iterable[Entry]) -> None:
        """Keeps what can't be computed again of entries, what they build on, and their messages."""
        kept, ends, form = self._kept, self._ends, self._form
        for entry in entries:
            if form is None:
                kept += entry.raw
                self._whole.append(len(entry.raw))
            elif form.tail_bytes:
                kept += form.tail(entry.raw)
            kept += entry.on
            kept += entry.spelled
            ends.append(len(kept))

    def unknown(self, rows: Iterable[Row]) -> list[Row]:
        """Those of some entries that aren't here."""
        index, mask, seat = self._index, self._mask, self._seat
        return [row for row in rows if not (index[(mark := hash(row.entry.hash) & MARK_MASK) >> NUMBER_BITS & mask]
                                            and index[seat(row.entry.hash, mark)])]

    def client(self, number: int) -> Who:
        """An entry's site and author."""
        return self._clients[self._whose[number]]

    def last(self, number: int) -> int:
        """The seq of an entry's last message, 0 of a claim."""
        return self._firsts[number] + self._sizes[number] - 1 if self._sizes[number] else 0

    def lasts(self, numbers: range) -> list[int]:
        """The same of entries that were added together."""
        these = slice(numbers.start, numbers.stop)
        return [first + size - 1 if size else 0 for first, size in zip(self._firsts[these], self._sizes[these])]

    def size(self, number: int) -> int:
        """How many messages an entry has."""
        return self._sizes[number]

    def place(self, number: int) -> int:
        """An entry's place in the file."""
        return self._places[number]

    def made(self, number: int) -> bool:
        """Whether this person made an entry here."""
        return bool(self._made[number])

    def types_on(self, number: int) -> bool:
        """Whether an entry is known to type on after the one before it."""
        return bool(self._types_on[number])

    def type_on(self, numbers: range) -> bytearray:
        """The same of each of entries that were added together."""
        return self._types_on[numbers.start:numbers.stop]

    def weight(self, number: int) -> int:
        """How many bytes are kept of an entry beside its columns."""
        return self._ends[number] - self._begin(number)

    def weight_of(self, numbers: Sequence[int]) -> int:
        """The same of some entries, whose numbers rise."""
        if numbers[-1] - numbers[0] >= len(numbers):
            return sum(map(self.weight, numbers))
        return self._ends[numbers[-1]] - self._begin(numbers[0])

    def on(self, number: int) -> bytes:
        """What an entry says that its messages build on; nothing where it doesn't."""
        if self._kinds[number] != Kind.CHUNK_BUILDING:
            return b""
        begin = self._begin(number) + self._tail(number)
        return bytes(self._kept[begin:begin + HASH_BYTES])

    def spelled(self, number: int) -> bytes:
        """An entry's messages, as it has them."""
        # Each key comes here twice.
        begin = (self._ends[number - 1] if number else 0) + (self._form.tail_bytes if self._form else self._whole[number])
        begin += HASH_BYTES if self._kinds[number] == Kind.CHUNK_BUILDING else 0
        return bytes(self._kept[begin:self._ends[number]])

    def chunk(self, number: int) -> bytes:
        """The chunk of an entry's messages, where it has them in one."""
        return self.spelled(number) if self._kinds[number] in CHUNKS else b""

    def runs(self, number: int) -> Sequence[Operation]:
        """An entry's messages, those in one that are letters typed one after the other."""
        return unpacked(self.spelled(number)) if self._kinds[number] in CHUNKS else ()

    def typed(self, numbers: Iterable[int]) -> bytes:
        """The letters of entries that type on."""
        kept, ends, sizes = self._kept, self._ends, self._sizes
        return b"".join([kept[(end := ends[number]) - sizes[number]:end] for number in numbers])

    def messages(self, number: int) -> Sequence[Operation]:
        """An entry's messages."""
        return unpacked_one_by_one(self.spelled(number)) if self._kinds[number] in CHUNKS else ()

    def entry(self, number: int) -> Entry:
        """An entry as it was."""
        site, author = self.client(number)
        kind, of = KIND_BY_NUMBER[self._kinds[number]], self.hash(number)
        before = NO_HASH if kind is Kind.CLAIM else self.hash(self._befores[number])
        on, spelled = self.on(number), self.spelled(number)
        begin = self._begin(number)
        tail = bytes(self._kept[begin:begin + self._tail(number)])
        entry = FirstEntry(kind, site, self._firsts[number], self._sizes[number], before, author, on, spelled, tail, of)
        return entry if self._form is None else entry._replace(raw=self._form.whole(entry, tail))

    def row(self, number: int) -> Row:
        """An entry with its place."""
        return Row(self.place(number), self.entry(number), self.made(number), self.types_on(number))

    def _begin(self, number: int) -> int:
        return self._ends[number - 1] if number else 0

    def _tail(self, number: int) -> int:
        """How many bytes are kept of an entry that can't be computed again."""
        return self._form.tail_bytes if self._form else self._whole[number]


class Branch:
    """Entries of a site that follow one another, the first of which is its claim. More are added, and none is taken away:
    where others take their place that is another branch."""

    __slots__ = ("ledger", "site", "numbers", "lasts", "types_on")
    # A note of the first form has one text.
    text = TEXT

    def __init__(self, ledger: Ledger, site: int):
        self.ledger, self.site = ledger, site
        # The entries' numbers, which rise, and the seqs of their last messages.
        self.numbers, self.lasts = array("I"), array("I")
        # Whether each types on after the one before it.
        self.types_on = bytearray()

    def __len__(self) -> int:
        return len(self.numbers)

    def add(self, numbers: range) -> None:
        """Adds entries."""
        self.numbers.extend(numbers)
        self.lasts.extend(self.ledger.lasts(numbers))
        self.types_on += self.ledger.type_on(numbers)

    def shorten(self, at: int) -> None:
        """Takes away what nobody has looked at: the entries from a place on."""
        del self.numbers[at:], self.lasts[at:], self.types_on[at:]

    def until(self, at: int) -> "Branch":
        """The first entries as a line of its own."""
        branch = Branch(self.ledger, self.site)
        branch.numbers, branch.lasts, branch.types_on = self.numbers[:at], self.lasts[:at], self.types_on[:at]
        return branch

    def shared(self, other: "Branch") -> int:
        """How many of the first messages are the same as those of another one."""
        # Each entry has the hash of the one before it, so that what is the same is so up to one place.
        low, high = 0, min(len(self), len(other))
        while low < high:
            middle = (low + high + 1) // 2
            if self.ledger.hash(self.numbers[middle - 1]) == other.ledger.hash(other.numbers[middle - 1]):
                low = middle
            else:
                high = middle - 1
        return self.lasts[low - 1] if low else 0

    def at(self, number: int) -> int | None:
        """Where the entry of a number is; None where it isn't here."""
        at = bisect_left(self.numbers, number)
        return at if at < len(self.numbers) and self.numbers[at] == number else None

    def at_seq(self, seq: int) -> int:
        """Where the entry is that has a message."""
        return bisect_left(self.lasts, seq)

    def named(self, seq: int) -> bytes:
        """What names a message: the hash of its entry."""
        return self.ledger.hash(self.numbers[self.at_seq(seq)])

    def first(self, at: int) -> int:
        """The seq of an entry's first message."""
        return self.lasts[at - 1] + 1

    def message(self, seq: int) -> Operation:
        """A message."""
        at = self.at_seq(seq)
        return self.ledger.messages(self.numbers[at])[seq - self.first(at)]

    def between(self, begin: int, end: int) -> Iterator[Operation]:
        """The messages from one place to another; the first one has place 0."""
        for at, begins, ends in self._within(begin, end):
            yield from self.ledger.messages(self.numbers[at])[begins:ends]

    def parts(self, begin: int, end: int) -> Iterator[tuple[bytes, Sequence[Operation], int]]:
        """The same in parts: a chunk, or the runs where there is none of just these messages; and how many they are."""
        while begin < end:
            at = self.at_seq(begin + 1)
            if found := self._typed(at, begin, end):
                chunk, size = found
                yield chunk, (), size
                begin += size
                continue
            first, number = self.first(at) - 1, self.numbers[at]
            size = min(self.lasts[at], end) - begin
            if size == self.ledger.size(number):
                chunk = self.ledger.chunk(number)
                yield chunk, () if chunk else self.ledger.runs(number), size
            else:
                yield b"", [*_runs_between(self.ledger.runs(number), begin - first, begin - first + size)], size
            begin += size

    def typed_until(self, at: int) -> int:
        """The end of the entries from one on that type on one after the other."""
        end = self.types_on.find(0, at)
        return len(self) if end < 0 else end

    def _typed(self, at: int, begin: int, end: int) -> tuple[bytes, int] | None:
        """The chunk of the operations from one place on, to another at most, that are those of entries which type on one after the
        other, of which the first is whole; and their number. None where they are those of fewer than two."""
        if not self.types_on[at] or begin >= self.first(at):
            return None
        last = min(self.typed_until(at), self.at_seq(min(end, begin + MOST_IN_RUN) + 1))
        if last < at + 2:
            return None
        # What types on is spelled by its letters alone.
        letters = self.ledger.typed(self.numbers[at + 1:last])
        return self.ledger.spelled(self.numbers[at]) + letters, self.ledger.size(self.numbers[at]) + len(letters)

    def _within(self, begin: int, end: int) -> Iterator[tuple[int, int, int]]:
        """The entries that have messages from one place to another, and from where to where in each of them."""
        at = self.at_seq(begin + 1)
        while begin < end:
            first = self.first(at) - 1
            ends = min(self.lasts[at], end)
            yield at, begin - first, ends - first
            begin, at = ends, at + 1


def _runs_between(runs: Sequence[Operation], begin: int, end: int) -> Iterator[Operation]:
    """The messages of runs from one place to another."""
    at = 0
    for run in runs:
        if at < end and begin < at + run.size:
            yield run.part(max(begin - at, 0), min(end - at, run.size))
        at += run.size
