"""The chain of a number in a text, where hashes are of messages: of several that go on from the same one, the least."""
from array import array
from bisect import bisect_right
from collections.abc import Iterable, Iterator, Sequence

from share.admission.chain import last_of_others
from share.admission.passing import Passing
from share.admission.sayings import Whose, Sayings
from share.format.operation import Operation


class Path:
    """Messages of a site in a text that go on one from the other, by their numbers; that of seq 1 has place 0."""

    __slots__ = ("sayings", "site", "text", "numbers")

    def __init__(self, sayings: Sayings, site: int, text: int, numbers: Iterable[int] = ()):
        self.sayings, self.site, self.text, self.numbers = sayings, site, text, array("I", numbers)

    def __len__(self) -> int:
        return len(self.numbers)

    def hash(self, place: int) -> bytes:
        """A message's hash."""
        return self.sayings.hash(self.numbers[place])

    def named(self, seq: int) -> bytes:
        """What names a message: its hash."""
        return self.hash(seq - 1)

    def runs(self, begin: int, end: int) -> Iterator[Operation]:
        """The messages from one place to another, letters typed one after the other in one."""
        while begin < end:
            run = self.sayings.run(self.numbers, begin, end)
            yield run
            begin += run.size

    def between(self, begin: int, end: int) -> Iterator[Operation]:
        """The messages from one place to another, one by one."""
        return (one for run in self.runs(begin, end) for one in run.each())

    def parts(self, begin: int, end: int) -> Iterator[tuple[bytes, Sequence[Operation], int]]:
        """The same in one part."""
        yield b"", [*self.runs(begin, end)], end - begin

    def until(self, at: int) -> "Path":
        """The first messages as a path of their own."""
        return Path(self.sayings, self.site, self.text, self.numbers[:at])

    def shared(self, other: "Path", most: int) -> int:
        """How many of the first messages are the same, of so many at most. Where one is, those before it are."""
        low, high = 0, min(most, len(self), len(other))
        while low < high:
            middle = (low + high) // 2
            if self.hash(middle) == other.hash(middle):
                low = middle + 1
            else:
                high = middle
        return low


class MessageChain(Passing):
    """The messages of a number and a text that hold, and what was let through of them."""

    __slots__ = ("branch", "seen", "_ends", "_next")

    branch: Path

    def __init__(self, sayings: Sayings, site: int, text: int, numbers: Iterable[int] = ()):
        self.branch = Path(sayings, site, text, numbers)
        super().__init__()

    def begin_anew(self) -> None:
        """Lets nothing through yet. What had it keeps the path that it knows."""
        super().begin_anew()
        self.branch = self.branch.until(len(self.branch))
        # The last character of each other site that was mentioned, and how long the site's file is after each message.
        self.seen: dict[int, int] = {}
        self._ends = array("I")
        # The messages that are next, where somebody asked, and how long the line was then.
        self._next: tuple[int, int, Operation | None] = (0, 0, None)

    @property
    def client(self) -> Whose:
        """Whose it is, where it has messages."""
        return self.branch.sayings.client(self.branch.numbers[0])

    def message(self, seq: int) -> Operation:
        """A message of it."""
        return self.branch.sayings.message(self.branch.numbers[seq - 1])

    @property
    def on(self) -> bytes:
        """What the message that is next builds on."""
        return self.branch.sayings.on(self.branch.numbers[self.front])

    def go_on(self, client: Whose) -> Sequence[int]:
        """Lengthens the line by the least messages that there are, and gives their numbers."""
        sayings, numbers, before = self.branch.sayings, self.branch.numbers, len(self.branch)
        number = sayings.least_after(numbers[-1]) if numbers else sayings.least(client)
        while number is not None:
            numbers.append(number)
            number = sayings.least_after(number)
        return numbers[before:]

    def has(self, number: int) -> bool:
        """Whether a message is in it."""
        place = self.branch.sayings.seq(number) - 1
        return place < len(self.branch) and self.branch.numbers[place] == number

    def cut(self, at: int) -> bool:
        """Takes the messages from a place on away; whether some of them were let through, and all has to be let through anew."""
        if self.front > at:
            self.branch = self.branch.until(at)
            return True
        # Nobody has looked at what they have.
        del self.branch.numbers[at:]
        self.ended, self.needs, self._next = False, {}, (0, 0, None)
        return False

    def next(self) -> Operation | None:
        """The messages that are next to be let through."""
        numbers, front = self.branch.numbers, self.front
        end = len(numbers)
        if self.ended or front >= end:
            return None
        if self._next[:2] != (front, end):
            self._next = front, end, self.branch.sayings.run(numbers, front, end)
        return self._next[2]

    def pass_on(self, run: Operation, up_to: float) -> None:
        """Lets the next messages through: all of the run, which are right where the first one is."""
        if run.data:
            self._passed(run.stamp, len(run.data), len(run.data) == run.size)
        self._ends.extend(range(self.length - run.size + 1, self.length + 1) if run.size > 1 else (self.length,))
        for site, last in last_of_others((run,)).items():
            self.seen[site] = max(self.seen.get(site, 0), last)
        self.front, self.stamp = self.front + run.size, run.stamp + run.size - 1
        self.at = self.front

    def mentioned(self, more: Iterable[Operation]) -> dict[int, int]:
        """The last character of each other site that messages mention, those of the line and some that are to follow it."""
        found = dict(self.seen)
        waiting = self.branch.runs(self.front, len(self.branch))
        for site, last in (one for run in (*waiting, *more) for one in last_of_others((run,)).items()):
            found[site] = max(found.get(site, 0), last)
        return found

    def length_before(self, place: int) -> int:
        """How many characters were inserted by the messages before a place, which were let through."""
        return self._ends[place - 1] if place else 0

    def inserter_of(self, at: int) -> bytes:
        """The hash of the message that inserted a character, which was let through."""
        return self.branch.hash(bisect_right(self._ends, at))

    def inserted(self, begin: int, end: int) -> bytes:
        """The bytes of characters that were let through, from one to before another."""
        runs = (run for run in self.branch.runs(bisect_right(self._ends, begin), bisect_right(self._ends, end - 1) + 1) if run.data)
        return b"".join(run.data[max(0, begin - run.at):max(0, end - run.at)] for run in runs)
