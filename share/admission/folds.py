"""Which records are folded: all messages of such a one stand in another one, its fold, which has more of them. Since the hash of a message
names all before it, one look says so: the fold has the record's last message, and begins no later.

Folds count as all other records do, by their messages; so nothing hangs on what is found here but which bytes are kept and carried.
"""
from array import array
from collections import deque
from collections.abc import Iterator
from typing import TYPE_CHECKING

from share.admission.sayings import Whose

if TYPE_CHECKING:
    from share.admission.records import Records

# Of each author, number and text no more than this many records are remembered that have messages which others had before: where one is
# forgotten, and a fold comes, it stays as it is.
MOST_LATER = 100


class Folds:
    """The folds among some records, and what is folded in them."""

    def __init__(self, records: "Records"):
        self._records = records
        # Records and their folds, in turn, in the order in which that was found; and the last fold of each.
        self._found, self._fold_of = array("I"), dict[int, int]()
        # The records that came after others with the same messages and aren't folded.
        self._later: dict[Whose, dict[int, None]] = {}
        # Those in which it is still to be looked what is folded.
        self._put_off = deque[Iterator[int]]()

    def __len__(self) -> int:
        return len(self._found) // 2

    def pair(self, at: int) -> tuple[int, int]:
        """A record and its fold."""
        return self._found[2 * at], self._found[2 * at + 1]

    def of(self, number: int) -> int:
        """The fold that has all messages of a record and isn't folded itself; the record itself where none does."""
        while (fold := self._fold_of.get(number)) is not None:
            number = fold
        return number

    def add(self, number: int) -> None:
        """Looks at a record of which others had some messages before."""
        records = self._records
        later = self._later.setdefault(records.client(number), {})
        last = records.last(number)
        fold = next((one for one in dict.fromkeys((records.having(last), *later)) if one != number and self._has(one, number, last)), None)
        if fold is None:
            self.put_off(number)
            deque(self._put_off.pop(), 0)
        else:
            self._note(number, fold)

    def put_off(self, number: int) -> None:
        """Adds a record of which others have all messages; what is folded in it is looked for by and by."""
        later = self._later.setdefault(self._records.client(number), {})
        self._put_off.append(self._looks(number, later))
        later[number] = None
        if len(later) > MOST_LATER:
            del later[next(iter(later))]

    def look(self, most: float) -> bool:
        """Looks for what is folded in what was put off, at so many messages; whether at all of them by now."""
        while self._put_off and most > 0:
            if next(self._put_off[0], None) is None:
                self._put_off.popleft()
            most -= 1
        return not self._put_off

    def _looks(self, number: int, later: dict[int, None]) -> Iterator[int]:
        """Looks for what is folded in a record, by its messages: those whose last one is among these, whether they had it first or came
        later."""
        records, ends = self._records, dict[int, list[int]]()
        for one in later:
            ends.setdefault(records.last(one), []).append(one)
        for message in records.messages_back(number):
            for one in (records.having(message), *ends.get(message, ())):
                if one != number and records.last(one) == message and self._is_within(one, number):
                    self._note(one, number)
                    later.pop(one, None)
            yield 1

    def _has(self, fold: int, number: int, last: int) -> bool:
        """Whether a record has all messages of another one, whose last message is this."""
        if not self._is_within(number, fold):
            return False
        at = self._records.first(number) + self._records.size(number) - 1 - self._records.first(fold)
        return self._records.having(last) == fold or self._records.messages(fold)[at] == last

    def _is_within(self, number: int, fold: int) -> bool:
        """Whether a record has more messages than another one, and by their seqs all that this one has."""
        records = self._records
        first, size, begin, most = records.first(number), records.size(number), records.first(fold), records.size(fold)
        return size < most and begin <= first and first + size <= begin + most

    def _note(self, number: int, fold: int) -> None:
        self._found.extend((number, fold))
        self._fold_of[number] = fold
