"""Folding: entries of a chain that follow one another become one, a fold, which has their messages with the same hashes. Which entries an
author folds hangs on counts alone, never on a clock: docs/NOTES.md has it under "Folding". All of it goes step by step, so that who waits
for a key waits for a few steps alone.
"""
from collections.abc import Generator, Iterable, Sequence
from typing import NamedTuple, Protocol, TypeVar

from share.format.chunk import MOST_CHUNK, Writer
from share.format.entry import Author
from share.format.operation import Operation
from share.format.second.form import RecordForm
from share.format.second.record import MANY_ONS, ON_FIELD, Record, message_hashes

# The fewest entries that become a fold which has room for more, and how many after them stay as they are.
LEAST_FOLDED, LEFT_AFTER = 200, 200
# The most bytes of what a fold says; what has more than half of that isn't folded again.
MOST_FOLDED = MOST_CHUNK
# The most messages that are written in one step, and how many more each step counts for.
MOST_IN_A_STEP, OF_EACH_STEP = 16, 2

ComesTo = TypeVar("ComesTo")
# What is done in steps, each of which says at how many entries or messages it looked.
Steps = Generator[int, None, ComesTo]


class EntrySpan(NamedTuple):
    """An entry of a chain: its hash, the length of what it says, and from which place of the chain to which its messages are."""

    hash: bytes
    size_said: int
    begin: int
    end: int

    @property
    def size(self) -> int:
        """How many messages it has."""
        return self.end - self.begin

    @property
    def is_large(self) -> bool:
        """Whether it says too much to be folded."""
        return self.size_said > MOST_FOLDED // 2


class ChainPart(NamedTuple):
    """Messages of a chain that follow one another: operations, their hashes, and what each of them builds on."""

    operations: Sequence[Operation]
    hashes: Sequence[bytes]
    ons: Sequence[bytes]


class Foldable(Protocol):
    """A chain, as far as folding asks for it."""

    def extents(self) -> Iterable[EntrySpan | None]:
        """Its entries in their order; None where something else was looked at."""

    def part(self, begin: int, end: int) -> ChainPart:
        """Its messages from one place to another."""

    def before(self, place: int) -> tuple[bytes, int]:
        """The hash of the message before a place, and how many characters were inserted by then."""


class ToFold:
    """Messages of an author, as they become a fold: they follow one that has a hash, by which so many characters had been inserted."""

    def __init__(self, form: RecordForm, author: Author, before: bytes, length: int):
        self._form, self._author, self._before, self._length = form, author, before, length
        self._writer, self._hashes, self._ons = Writer(), list[bytes](), dict[int, bytes]()
        self._first: Operation | None = None
        # How much of it is whole entries, in bytes and messages.
        self._kept = 0, 0

    def add(self, part: ChainPart) -> bool:
        """Adds what is next; whether there is room for it, and it has these hashes there."""
        many = len(self._hashes)
        ons = {index: on for index, on in enumerate(part.ons) if on}
        self._first = self._first or part.operations[0]
        fits = all(self._writer.add(each, self._length) for each in part.operations)
        if not fits or MANY_ONS.size + ON_FIELD.size * (len(self._ons) + len(ons)) + len(self._writer.data) > MOST_FOLDED:
            return False
        last = self._hashes[-1] if many else self._before
        if message_hashes(self._form.keys, self._author.name, last, part.operations, ons) != tuple(part.hashes):
            return False
        self._hashes += part.hashes
        self._ons |= {many + index: on for index, on in ons.items()}
        return True

    def keep(self) -> None:
        """Notes that what was added ends with an entry."""
        self._kept = len(self._writer.data), len(self._hashes)

    def folded(self) -> Record:
        """The fold of the entries that were added whole."""
        size, many = self._kept
        assert self._first
        ons = {index: on for index, on in self._ons.items() if index < many}
        return self._form.fold(bytes(self._writer.data[:size]), self._first, self._hashes[:many], self._before, self._author, ons)


def due(extents: Iterable[EntrySpan | None]) -> Steps[list[EntrySpan]]:
    """The first entries of a chain that become a fold, or more of them than it has room for; none where none do."""
    some = list[EntrySpan]()
    for one in extents:
        yield 1
        if one is None:
            continue
        if one.is_large or some and some[-1].end != one.begin:
            if found := _worth_folding(some):
                return found
            some = []
        if not one.is_large:
            some.append(one)
        if some and one.end - some[0].begin >= MOST_FOLDED and (found := _worth_folding(some)):
            # It has no room for what comes after them.
            return found
    return _worth_folding(some)


def _worth_folding(some: list[EntrySpan]) -> list[EntrySpan]:
    """Those of some entries that become a fold: without the first of them that have as many messages as all after them, so that no message
    is folded more often than the number of folded ones doubles."""
    at, after = 0, some[-1].end - some[0].begin if some else 0
    while at < len(some) and 2 * some[at].size > after:
        after -= some[at].size
        at += 1
    return some[at:] if len(some) - at >= LEAST_FOLDED else []


def folding(chain: Foldable, some: Sequence[EntrySpan], form: RecordForm, author: Author) -> Steps[Record | None]:
    """The fold of the first of some entries that follow one another in an author's chain, as many as it has room for; none where that is
    one."""
    for begin in range(len(some) - 1):
        fold, many = ToFold(form, author, *chain.before(some[begin].begin)), 0
        for one in some[begin:]:
            if not (yield from _written(chain, one, fold)):
                break
            fold.keep()
            many += 1
        if many > 1:
            return fold.folded()
    return None


def _written(chain: Foldable, one: EntrySpan, fold: ToFold) -> Steps[bool]:
    """Adds an entry to a fold; whether that has room for all of it."""
    for begin in range(one.begin, one.end, MOST_IN_A_STEP):
        end = min(begin + MOST_IN_A_STEP, one.end)
        if not fold.add(chain.part(begin, end)):
            return False
        yield end - begin + OF_EACH_STEP
    return True


def run_through(steps: Steps[ComesTo]) -> ComesTo:
    """What steps come to."""
    while True:
        try:
            next(steps)
        except StopIteration as ended:
            found: ComesTo = ended.value
            return found


def fold_of(form: RecordForm, records: Sequence[Record], author: Author, length: int = 0) -> Record | None:
    """Records of one author, number and text, each after the one before it, in one; None where one hasn't room for all of them, or they
    don't follow one another. Before them the chain had inserted so many characters."""
    some = ToFold(form, author, records[0].before, length)
    if not all(some.add(ChainPart(one.operations, one.hashes, one.ons)) for one in records):
        return None
    some.keep()
    return some.folded()
