"""The chain of a site: the entries that hold, and what was let through of them."""
from array import array
from bisect import bisect_right
from collections.abc import Iterable, Sequence

from share.admission.ledger import Ledger, Branch
from share.admission.passing import Passing
from share.format.operation import Operation
from share.text.names import Names


class Chain(Passing):
    """The entries of a site that hold, its claim first, and what was let through of them."""

    __slots__ = ("branch", "run", "_runs", "pending", "_ends")

    branch: Branch

    def __init__(self, ledger: Ledger, site: int):
        self.branch = Branch(ledger, site)
        super().__init__()

    def begin_anew(self) -> None:
        """Lets nothing through yet."""
        super().begin_anew()
        # Which of the runs of the entry that has the next message it begins, and these runs.
        self.run = 0
        self._runs: Sequence[Operation] | None = None
        # How many bytes are kept of entries that aren't let through.
        self.pending = sum(map(self.branch.ledger.weight, self.branch.numbers))
        # How long the site's file is after each entry that was let through.
        self._ends = array("I")

    @property
    def number(self) -> int:
        """The number of the entry that has the message that is next."""
        return self.branch.numbers[self.at]

    def runs(self) -> Sequence[Operation]:
        """The messages of the entry that has the next one."""
        if self._runs is None:
            self._runs = self.branch.ledger.runs(self.number)
        return self._runs

    def next(self) -> Operation | None:
        """The messages that are next to be let through."""
        if self.ended:
            return None
        while self.at < len(self.branch.numbers):
            runs = self._runs if self._runs is not None else self.runs()
            if self.run < len(runs):
                return runs[self.run]
            self.pending -= self.branch.ledger.weight(self.number)
            self.at, self._runs, self.run = self.at + 1, None, 0
        return None

    def pass_on(self, run: Operation, up_to: float) -> None:
        """Lets the next messages through; with the last one of an entry also the next entries that type on after it, up to a
        stamp. These are right where it is."""
        while len(self._ends) <= self.at:
            self._ends.append(self.length)
        if run.data:
            self._passed(run.stamp, len(run.data), len(run.data) == run.size)
            self._ends[self.at] = self.length
        self.run += 1
        self.front, self.stamp = run.seq + run.size - 1, run.stamp + run.size - 1
        if self.run == len(self.runs()):
            self._type_on(up_to)

    def _type_on(self, up_to: float) -> None:
        """Lets the next entries through, as far as they type on one after the other and up to a stamp."""
        branch, at = self.branch, self.at + 1
        end = branch.typed_until(at)
        if up_to < self.stamp + branch.lasts[end - 1] - self.front:
            end = branch.at_seq(self.front + 1 + max(0, int(up_to) - self.stamp))
        if at >= end:
            return
        self.pending -= branch.ledger.weight_of(branch.numbers[self.at:end])
        before, size = self.length - self.front, branch.lasts[end - 1] - self.front
        self._ends.extend([before + last for last in branch.lasts[at:end]])
        self._passed(self.stamp + 1, size, True)
        self.front, self.stamp = self.front + size, self.stamp + size
        self.at, self._runs, self.run = end, None, 0

    def inserter_of(self, at: int) -> bytes:
        """The hash of the entry in which it was inserted."""
        return self.branch.ledger.hash(self.branch.numbers[bisect_right(self._ends, at)])

    def add(self, numbers: range) -> None:
        """Lengthens the chain by entries that were added together."""
        self.branch.add(numbers)
        self.pending += self.branch.ledger.weight_of(numbers)

    def cut(self, at: int) -> bool:
        """Takes the entries from a place on out of the chain; whether messages of theirs were let through, and all has to be
        let through anew."""
        if self.front > (self.branch.lasts[at - 1] if at else 0):
            self.branch = self.branch.until(at)
            return True
        # Nobody has looked at what they have.
        self.pending = sum(map(self.branch.ledger.weight, self.branch.numbers[self.at:at]))
        self.branch.shorten(at)
        if self.at >= at:
            self.at, self._runs, self.run = at, None, 0
        self.ended, self.needs = False, {}
        return False

    def speaks_of(self) -> Sequence[Names]:
        """The characters that have to be there before the next message: those that it mentions. All that the others of its
        entry mention of other sites has to be there with the first one, where the entry says what they build on."""
        runs = self.runs()
        if self.run or len(runs) == 1 or not self.branch.ledger.on(self.number):
            return runs[self.run].mentions
        return [*runs[0].mentions, *of_others(runs[1:])]


def of_others(runs: Iterable[Operation]) -> list[Names]:
    """The characters of other sites that messages mention."""
    return [names for run in runs for names in run.mentions if names.site != run.site]


def last_of_others(runs: Iterable[Operation]) -> dict[int, int]:
    """The offset of the last character that messages mention of each other site."""
    last: dict[int, int] = {}
    for names in of_others(runs):
        last[names.site] = max(last.get(names.site, 0), names.at + names.length - 1)
    return last
