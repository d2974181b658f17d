"""Messages of the second form that are in no line, in twigs: each has messages of one author, number and text, of which each goes on from
the one before it. Of several that go on from the same one each but one begins another twig. So it takes no longer to go down from a message
where many are before it.
"""
from collections.abc import Iterator, Sequence
from functools import cached_property

from share.admission.aside import Aside
from share.admission.left_out import LeftOut, joined_stretches, of_stretches
from share.admission.sayings import Sayings, Whose
from share.format.operation import Operation


class Twig:
    """Messages of a client that go on one from the other, by their numbers, and the one before them, none of seq 1."""

    def __init__(self, sayings: Sayings, client: Whose, numbers: list[int], before: int | None):
        self.sayings, self.client, self.numbers, self.before = sayings, client, numbers, before
        self.author, self.site, self.text = client
        self.first = sayings.seq(numbers[0])

    @property
    def size(self) -> int:
        """How many messages it has."""
        return len(self.numbers)

    @property
    def last(self) -> int:
        """The seq of the last one."""
        return self.first + self.size - 1

    @property
    def operations(self) -> Iterator[Operation]:
        """The messages, letters typed one after the other in one."""
        return self.sayings.runs_of(self.numbers)

    @cached_property
    def messages(self) -> Sequence[Operation]:
        """The messages, one by one."""
        return [one for run in self.operations for one in run.each()]

    @cached_property
    def told(self) -> Sequence[LeftOut]:
        """What is told of all of them where they were left out."""
        return joined_stretches(of_stretches(self, [(self.first, self.last)], self.text))

    @cached_property
    def end(self) -> int:
        """How far its insertions go."""
        return max((run.at + len(run.data) for run in self.operations if run.data), default=0)

    def goes_on(self, number: int) -> bool:
        """Whether a message of this client has the place after the last one."""
        return self.sayings.before(number) == self.numbers[-1] and self.sayings.seq(number) == self.last + 1


class Twigs:
    """All of them, by whose they are; made anew for those of whom others are aside than before."""

    def __init__(self, sayings: Sayings, aside: Aside):
        self._sayings, self._aside = sayings, aside
        self._of: dict[Whose, list[Twig]] = {}
        self._twig_of: dict[int, Twig] = {}

    def all(self) -> Iterator[Twig]:
        """All of them."""
        self._look_again()
        for twigs in self._of.values():
            yield from twigs

    def twig(self, number: int) -> Twig | None:
        """The one that has a message; None where that is in a line."""
        self._look_again()
        return self._twig_of.get(number)

    def down(self, number: int | None) -> Iterator[tuple[Twig | None, int]]:
        """The twigs on the way down from a message, and how many messages of each are that one or before it; last, without a twig, the
        message of a line at which the way leaves them, where there is one."""
        self._look_again()
        sayings = self._sayings
        while number is not None and sayings.is_here(number):
            twig = self._twig_of.get(number)
            if twig is None:
                yield None, number
                return
            yield twig, sayings.seq(number) - twig.first + 1
            number = twig.before

    def _look_again(self) -> None:
        """Makes the twigs of those anew of whom others are aside."""
        changed = self._aside.changed()
        for client in changed:
            for twig in self._of.pop(client, ()):
                for number in twig.numbers:
                    del self._twig_of[number]
        for client in changed:
            self._grow(client)

    def _grow(self, client: Whose) -> None:
        """Makes the twigs of a client."""
        sayings, twig_of, found = self._sayings, self._twig_of, list[Twig]()
        for number in sorted(self._aside.of(client), key=sayings.seq):
            before = sayings.before(number)
            twig = twig_of.get(before) if before is not None else None
            if twig and twig.client == client and twig.goes_on(number):
                twig.numbers.append(number)
            else:
                twig = Twig(sayings, client, [number], before)
                found.append(twig)
            twig_of[number] = twig
        if found:
            self._of[client] = found
