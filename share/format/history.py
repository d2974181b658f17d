"""Operations in a row, kept as they came: as stretches of what has them, of which one may have a million. They are unpacked
one entry after the other where somebody looks at them."""
from array import array
from bisect import bisect_right
from collections.abc import Iterable, Iterator, Sequence
from itertools import chain, islice
from typing import NamedTuple, Protocol, overload

from share.format.chunk import Writer, of_names_at_most, text_of_chunk, unpacked
from share.format.operation import INSERT, Operation

# A chunk of fewer operations is handed in with others where there are many, since a run of the program reads no more than 2^20 lines.
FEW = 16
# The program notes each stretch that operations change, in 24 bytes, until it has taken in their chunk. So a chunk names no more
# characters than this; and one isn't read for that where its operations can't change more stretches than there may be.
MOST_NOTED, MOST_UNSEEN = 2**22, 2**25


class Holder(Protocol):
    """What has operations of a text, each by its place."""

    @property
    def text(self) -> int:
        """Of which text they are."""

    def between(self, begin: int, end: int) -> Iterator[Operation]:
        """The operations from one place to another, one by one."""

    def parts(self, begin: int, end: int) -> Iterator[tuple[bytes, Sequence[Operation], int]]:
        """The same in parts: a chunk, or the operations where there is none of just these; and their number."""


class Loose:
    """Operations that are in no entry yet."""

    def __init__(self, operations: Sequence[Operation]):
        self._operations = operations

    @property
    def text(self) -> int:
        """Of which text they are."""
        return self._operations[0].text

    def between(self, begin: int, end: int) -> Iterator[Operation]:
        """The operations from one place to another."""
        return islice(self._operations, begin, end)

    def parts(self, begin: int, end: int) -> Iterator[tuple[bytes, Sequence[Operation], int]]:
        """The same in one part."""
        yield b"", self._operations[begin:end], end - begin


class Part(NamedTuple):
    """The operations of a holder from one place to another."""

    holder: Holder
    begin: int
    end: int


class Messages(Sequence[Operation]):
    """Operations in a row."""

    def __init__(self, operations: Iterable[Operation] = (), parts: Iterable[Part] = ()):
        # Who has the operations of each part, where they begin there, and the number of all up to its end.
        self._holders: list[Holder] = []
        self._begins, self._ends = array("I"), array("I")
        for part in parts:
            self.add(part)
        if loose := tuple(operations):
            self.add(Part(Loose(loose), 0, len(loose)))

    def add(self, part: Part) -> None:
        """Adds operations at the end."""
        holder, begin, end = part
        if begin == end:
            return
        ends, holders = self._ends, self._holders
        before = ends[-1] if ends else 0
        if holders and holders[-1] is holder and self._begins[-1] + before - (ends[-2] if len(ends) > 1 else 0) == begin:
            ends[-1] = before + end - begin
            return
        holders.append(holder)
        self._begins.append(begin)
        ends.append(before + end - begin)

    def parts(self) -> Iterator[Part]:
        """The operations by what has them."""
        before = 0
        for holder, begin, end in zip(self._holders, self._begins, self._ends):
            yield Part(holder, begin, begin + end - before)
            before = end

    def of_text(self, text: int) -> "Messages":
        """Those of a text."""
        return self if all(one.text == text for one in self._holders) else Messages(parts=(
            part for part in self.parts() if part.holder.text == text))

    def runs(self) -> Iterator[Operation]:
        """The operations, letters typed one after the other in one."""
        for part in self.parts():
            for chunk, known, _ in part.holder.parts(part.begin, part.end):
                yield from known or unpacked(chunk, text_of_chunk(chunk))

    def chunks(self, few: int | None = None, begun: int = 0) -> Iterator[tuple[bytes, int]]:
        """Chunks of all of them, and the number that each has: those that came, but for such of few, and for such as may change
        much where so many operations were begun with; and new ones of the others."""
        writer, count, named, few = Writer(), 0, 0, few or FEW
        for chunk, known, size in chain.from_iterable(one.holder.parts(one.begin, one.end) for one in self.parts()):
            begun += size
            if chunk and size >= few and of_names_at_most(chunk) * begun <= MOST_UNSEEN:
                if count:
                    yield bytes(writer.data), count
                    writer, count, named = Writer(), 0, 0
                yield chunk, size
                continue
            for one in known or unpacked(chunk, text_of_chunk(chunk)):
                more = 0 if one.kind == INSERT else sum(names.length for names in one.mentions)
                if count and named + more > MOST_NOTED or not writer.add(one):
                    yield bytes(writer.data), count
                    writer, count, named = Writer(), 0, 0
                    writer.add(one)
                count, named = count + one.size, named + more
        if count:
            yield bytes(writer.data), count

    def cut(self, length: int) -> None:
        """Goes on with the first of them alone, up to a length."""
        while self._ends and self._end_before(-1) >= length:
            del self._holders[-1], self._begins[-1], self._ends[-1]
        if self._ends:
            self._ends[-1] = min(self._ends[-1], length)

    def last(self, many: int) -> list[Operation]:
        """The last of them, this many."""
        if self._ends and self._ends[-1] - self._end_before(-1) == many:
            return [*self._holders[-1].between(self._begins[-1], self._begins[-1] + many)]
        return [*self._between(len(self) - many, len(self), 1)]

    def _end_before(self, number: int) -> int:
        """The number of operations before a part."""
        number %= len(self._ends)
        return self._ends[number - 1] if number else 0

    def __len__(self) -> int:
        return self._ends[-1] if self._ends else 0

    def __iter__(self) -> Iterator[Operation]:
        for part in self.parts():
            yield from part.holder.between(part.begin, part.end)

    @overload
    def __getitem__(self, place: int) -> Operation: ...

    @overload
    def __getitem__(self, place: slice) -> "Messages": ...

    def __getitem__(self, place: int | slice) -> "Operation | Messages":
        if isinstance(place, slice):
            return self._between(*place.indices(len(self)))
        place += len(self) if place < 0 else 0
        if not 0 <= place < len(self):
            raise IndexError
        return next(iter(self._between(place, place + 1, 1)))

    def _between(self, begin: int, end: int, _: int) -> "Messages":
        found, number = Messages(), bisect_right(self._ends, begin)
        while number < len(self._ends) and begin < end:
            last, moved = self._ends[number], self._begins[number] - self._end_before(number)
            found.add(Part(self._holders[number], begin + moved, min(end, last) + moved))
            begin, number = last, number + 1
        return found

    def __add__(self, others: "Messages") -> "Messages":
        found = self[:]
        found += others
        return found

    def __iadd__(self, others: Iterable[Operation]) -> "Messages":
        if isinstance(others, Messages):
            for part in others.parts():
                self.add(part)
        elif loose := tuple(others):
            self.add(Part(Loose(loose), 0, len(loose)))
        return self

    def __eq__(self, other: object) -> bool:
        if isinstance(other, Messages) and self._is_made_as(other):
            return True
        return isinstance(other, Sequence) and len(self) == len(other) and all(one == two for one, two in zip(self, other))

    def _is_made_as(self, other: "Messages") -> bool:
        """Whether both have the same stretches of the same holders, so that nobody has to look at the operations."""
        return (self._begins == other._begins and self._ends == other._ends
                and all(one is two for one, two in zip(self._holders, other._holders)))

    __hash__ = None  # type: ignore[assignment]
