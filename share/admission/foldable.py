"""A chain of which entries may be folded, as it is looked at in several turns."""
from collections.abc import Iterator

from share.admission.lines import MessageChain
from share.admission.records import Records
from share.admission.sayings import Sayings
from share.format.entry import NO_HASH
from share.format.second.folding import EntrySpan, ChainPart


class FoldableChain:
    """The chain of a number as far as it counts now; what it has is right as long as it holds."""

    def __init__(self, records: Records, sayings: Sayings, line: MessageChain, left_after: int):
        self._records, self._sayings, self._line, self._left_after = records, sayings, line, left_after
        self._path, self._front = line.branch, line.front

    def holds(self) -> bool:
        """Whether all that counted of it does so still."""
        # Where another branch holds, or all is let through anew, the line has another path.
        return self._line.branch is self._path

    def extents(self) -> Iterator[EntrySpan | None]:
        """Its entries in their order, after which as many follow as are left as they are; in place of what is folded its folds. None where
        something else was looked at."""
        end = self._front
        for _ in range(self._left_after):
            end = self._records.first(self._record_at(end - 1)) - 1 if end else 0
            yield None
        place, records = 0, self._records
        while place < end:
            number = self._record_at(place)
            last = place + records.size(number)
            if records.first(number) == place + 1 and self._path.numbers[last - 1] == records.last(number):
                yield EntrySpan(records.hash(number), records.length(number), place, last)
                place = last
            else:
                # It goes on in another branch.
                yield None
                place += 1

    def _record_at(self, place: int) -> int:
        """The record that has the message at a place, or its fold."""
        return self._records.folds.of(self._records.having(self._path.numbers[place]))

    def part(self, begin: int, end: int) -> ChainPart:
        """Its messages from one place to another."""
        numbers, sayings = self._path.numbers[begin:end], self._sayings
        return ChainPart([*self._path.runs(begin, end)], [*map(sayings.hash, numbers)], [*map(sayings.on, numbers)])

    def before(self, place: int) -> tuple[bytes, int]:
        """The hash of the message before a place, and how many characters were inserted by then."""
        return self._path.hash(place - 1) if place else NO_HASH, self._line.length_before(place)
