"""Messages of the second form by their hashes, each of which names all before it: so however they are cut into entries, and however
often they come, each is here once.

Of a message there are its hash and some numbers, and letters that were typed one after the other are one operation: of one letter
there are some 90 bytes. Nothing is ever taken away.
"""
from array import array
from bisect import bisect_left
from collections.abc import Iterable, Iterator, Mapping, MutableSequence, Sequence
from enum import Enum
from itertools import groupby
from typing import NamedTuple, Protocol

from share.admission.hashes import MARK_MASK, NUMBER_MASK, Hashes
from share.admission.ledger import MOST_IN_RUN
from share.format.entry import NO_HASH
from share.format.operation import Operation
from share.text.names import Names


class Whose(NamedTuple):
    """Whose a message is, and of which text."""

    author: bytes
    site: int
    text: int


class WithMessages(Protocol):
    """An entry that has messages."""

    @property
    def author(self) -> bytes:
        """Its author."""

    @property
    def site(self) -> int:
        """The number under which he wrote it."""

    @property
    def text(self) -> int:
        """Of which text it is."""

    @property
    def first(self) -> int:
        """The seq of its first message."""

    @property
    def before(self) -> bytes:
        """The hash of the message before that, zeros where there is none."""

    @property
    def operations(self) -> Sequence[Operation]:
        """Its messages, letters typed one after the other perhaps in one."""


class Root(Enum):
    """How messages go on from the first one of their author, number and text."""

    ROOTED = "each after the one before it"
    LOOSE = "one is missing"
    MISPLACED = "one follows what is of somebody else, or of another place"


class Sayings(Hashes):
    """Messages, each by a number of its own, and which follow which."""

    def __init__(self, ranks: Mapping[bytes, bytes] | None = None):
        super().__init__()
        # What decides in place of their hashes between messages, by these; what has none comes last.
        self._ranks = ranks
        self._clients: list[Whose] = []
        self._client_of: dict[Whose, int] = {}
        self._texts_of: dict[tuple[bytes, int], list[int]] = {}
        # Whose each message is; its seq, 0 where it isn't here yet and others follow it; the message before it, by one more than its
        # number, 0 where there is none; the one with the least hash that goes on from it, likewise; the run that has it; and one that
        # it goes on from without a gap, itself where there is none.
        self._whose, self._seqs, self._befores, self._leasts, self._in_runs, self._downs = (array("I") for _ in range(6))
        # Of each client the message of seq 1 with the least hash.
        self._firsts: dict[int, int] = {}
        # What follows what isn't here; `found` rises where that comes.
        self._waiting: dict[int, list[int]] = {}
        self.found = 0
        self._ons: dict[int, bytes] = {}
        self._runs: list[Operation] = []

    # What comes.

    def add(self, entry: WithMessages, hashes: Sequence[bytes], ons: Sequence[bytes]) -> list[int]:
        """Adds those of an entry's messages that aren't here, and gives their numbers; without the first of them none of the others has
        its place."""
        client = self._client(Whose(entry.author, entry.site, entry.text))
        before = self._entered(entry.before) if entry.before != NO_HASH else None
        numbers, found, at = [*map(self._entered, hashes)], list[int](), 0
        for run in entry.operations:
            for begin, end in self._lacking(numbers, ons, at, at + run.size):
                self._put(numbers[begin:end], client, run.part(begin - at, end - at), numbers[begin - 1] if begin else before, ons[begin])
                found += numbers[begin:end]
            at += run.size
        return found

    def extend(self, client: Whose, before: int | None, operations: Iterable[Operation], hashes: Sequence[bytes],
               ons: Sequence[bytes]) -> range:
        """Adds messages after one that is here and has none after it, or the first ones of a client; nobody has spoken of them. Their
        numbers."""
        whose, begin, many = self._client(client), len(self), len(hashes)
        numbers = range(begin, begin + many)
        first = self._seqs[before] + 1 if before is not None else 1
        self._hashes += b"".join(hashes)
        self._enter(hashes, begin)
        self._whose.extend([whose] * many)
        self._seqs.extend(range(first, first + many))
        self._befores.extend([0 if before is None else before + 1, *range(begin + 1, begin + many)])
        self._leasts.extend([*range(begin + 2, begin + many + 1), 0])
        self._downs.extend([begin if before is None else self._downs[before]] * many)
        if before is None:
            self._firsts[whose] = begin
        else:
            self._leasts[before] = begin + 1
        at = 0
        for operation in operations:
            for part in _parted(operation, ons[at:at + operation.size]):
                if ons[at]:
                    self._ons[begin + at] = ons[at]
                self._in_runs.extend([self._run_after(begin + at - 1 if at else before, whose, part, ons[at])] * part.size)
                at += part.size
        return numbers

    def _client(self, client: Whose) -> int:
        """The number of an author, a number and a text."""
        if (found := self._client_of.get(client)) is None:
            found = self._client_of[client] = len(self._clients)
            self._clients.append(client)
            self._texts_of.setdefault((client.author, client.site), []).append(client.text)
        return found

    def _entered(self, of: bytes) -> int:
        """The number of a hash, a new one where it hasn't one."""
        mark = hash(of) & MARK_MASK
        seat = self._seat(of, mark)
        if found := self._index[seat]:
            return (found & NUMBER_MASK) - 1
        if 3 * len(self) > 2 * len(self._index):
            self._grow()
            seat = self._seat(of, mark)
        number = len(self)
        self._hashes += of
        self._index[seat] = mark | number + 1
        for column in self._whose, self._seqs, self._befores, self._leasts, self._in_runs:
            column.append(0)
        self._downs.append(number)
        return number

    def _lacking(self, numbers: Sequence[int], ons: Sequence[bytes], begin: int, end: int) -> Iterator[tuple[int, int]]:
        """The stretches of a run that aren't here, each but its first message without what it builds on."""
        first = None
        for at in range(begin, end):
            is_new = not self._seqs[numbers[at]]
            if first is not None and (ons[at] or not is_new):
                yield first, at
                first = None
            if is_new and first is None:
                first = at
        if first is not None:
            yield first, end

    def _put(self, numbers: Sequence[int], client: int, run: Operation, before: int | None, on: bytes) -> None:
        """Adds a run, of which these are the numbers, after a message."""
        if on:
            self._ons[numbers[0]] = on
        in_run = self._run_after(before, client, run, on)
        for seq, number in enumerate(numbers, run.seq):
            self._whose[number], self._seqs[number], self._in_runs[number] = client, seq, in_run
            self._befores[number] = before + 1 if before is not None else 0
            self._link(number)
            before = number

    def _run_after(self, before: int | None, client: int, run: Operation, on: bytes) -> int:
        """The number of the run that has another one after a message: that of the message, where it is typed on."""
        if before is not None and self._seqs[before] == run.seq - 1 > 0 and self._whose[before] == client and not on:
            number = self._in_runs[before]
            last = self._runs[number]
            if last.seq + last.size == run.seq and _is_typed_on(last, run):
                self._runs[number] = last._replace(size=last.size + run.size, data=last.data + run.data)
                return number
        self._runs.append(run)
        return len(self._runs) - 1

    def _link(self, number: int) -> None:
        """Notes what a new message goes on from, and what goes on from it."""
        before = self._befores[number] - 1
        if before < 0:
            client = self._whose[number]
            if (first := self._firsts.get(client)) is None or self.is_less(number, first):
                self._firsts[client] = number
        elif self._seqs[before]:
            self._go_on(number, before)
        else:
            self._waiting.setdefault(before, []).append(number)
        for after in self._waiting.pop(number, ()) if self._waiting else ():
            self.found += 1
            self._go_on(after, number)

    def _go_on(self, number: int, before: int) -> None:
        """Notes that a message goes on from the one that it follows, where it can."""
        if self._whose[number] != self._whose[before] or self._seqs[number] != self._seqs[before] + 1:
            return
        self._downs[number] = self._downs[before]
        least = self._leasts[before]
        if not least or self.is_less(number, least - 1):
            self._leasts[before] = number + 1

    def is_less(self, number: int, other: int) -> bool:
        """Whether a message holds where another one has its place."""
        one, two, ranks = self.hash(number), self.hash(other), self._ranks
        return one < two if ranks is None else _rank_of(one, ranks) < _rank_of(two, ranks)

    # What is asked of them.

    def is_here(self, number: int) -> bool:
        """Whether a message is here, and not only what follows it."""
        return self._seqs[number] > 0

    def client(self, number: int) -> Whose:
        """Whose a message is."""
        return self._clients[self._whose[number]]

    def clients(self) -> Sequence[Whose]:
        """All of whom there are messages."""
        return self._clients

    def texts(self, author: bytes, site: int) -> Sequence[int]:
        """The texts of which there are messages of an author and a number."""
        return self._texts_of.get((author, site), ())

    def seq(self, number: int) -> int:
        """A message's seq."""
        return self._seqs[number]

    def before(self, number: int) -> int | None:
        """The message that one follows, whether it is here or not; None of none."""
        return self._befores[number] - 1 if self._befores[number] else None

    def on(self, number: int) -> bytes:
        """What a message builds on."""
        return self._ons.get(number, b"")

    def least(self, client: Whose) -> int | None:
        """The least message of seq 1."""
        found = self._client_of.get(client)
        return None if found is None else self._firsts.get(found)

    def least_after(self, number: int) -> int | None:
        """The least message that goes on from one."""
        return self._leasts[number] - 1 if self._leasts[number] else None

    def root(self, number: int) -> Root:
        """How it is with the messages that one goes on from."""
        downs, down = self._downs, number
        while downs[down] != down:
            down = downs[down]
        while downs[number] != down:
            downs[number], number = down, downs[number]
        if not self._befores[down]:
            return Root.ROOTED
        return Root.MISPLACED if self._seqs[self._befores[down] - 1] else Root.LOOSE

    def missing(self) -> Iterator[bytes]:
        """The hashes of the messages that are missing, after which others came."""
        return map(self.hash, self._waiting)

    def message(self, number: int) -> Operation:
        """A message that is here."""
        run, seq = self._runs[self._in_runs[number]], self._seqs[number]
        return run.part(seq - run.seq, seq + 1 - run.seq)

    def runs_of(self, numbers: Sequence[int]) -> Iterator[Operation]:
        """Messages that go on one from the other, letters typed one after the other in one."""
        in_runs, at = self._in_runs, 0
        for number, some in groupby(numbers, in_runs.__getitem__):
            size = sum(1 for _ in some)
            run, seq = self._runs[number], self._seqs[numbers[at]]
            yield run.part(seq - run.seq, seq - run.seq + size)
            at += size

    def run(self, numbers: MutableSequence[int], begin: int, end: int) -> Operation:
        """The first run of messages that go on one from the other, from one place up to another; the first of them all has place 0."""
        in_runs, number = self._in_runs, self._in_runs[numbers[begin]]
        run = self._runs[number]
        end = min(end, run.seq - 1 + run.size)
        if in_runs[numbers[end - 1]] != number:
            # Others go on from the middle of the run.
            end = bisect_left(numbers, True, begin + 1, end, key=lambda each: in_runs[each] != number)
        return run.part(begin + 1 - run.seq, end + 1 - run.seq)


def _parted(run: Operation, ons: Sequence[bytes]) -> Iterator[Operation]:
    """A run in parts, of which only the first messages say what they build on."""
    begin = 0
    for at in range(1, run.size) if any(ons) else ():
        if ons[at]:
            yield run.part(begin, at)
            begin = at
    yield run.part(begin, run.size)


def _rank_of(one: bytes, ranks: Mapping[bytes, bytes]) -> tuple[bool, bytes, bytes]:
    """What decides between messages."""
    return one not in ranks, ranks.get(one, b""), one


def _is_typed_on(last: Operation, run: Operation) -> bool:
    """Whether letters are typed on after others, and there is room for them in one run."""
    return (len(last.data) == last.size and len(run.data) == run.size and last.size + run.size <= MOST_IN_RUN
            and run.stamp == last.stamp + last.size and run.at == last.at + last.size and run.looks == last.looks
            and run.mentions == (Names(run.site, run.at - 1, 1),))
