"""Which messages that were left out are one text, as entries of copies say: what was made anew, and was left out in its turn, and
what was made anew twice. It is typed again once, and what is typed stands for all of them."""
from collections.abc import Iterable, Iterator, Mapping, Sequence
from typing import NamedTuple

from share.admission.judging import Judging
from share.admission.ledger import Who
from share.format.entry import NO_HASH, Copy
from share.format.operation import Operation

# How many times a copy may have been copied, and how many operations may be one text.
MOST_TIMES, MOST_ALIKE = 8, 64
# Anybody with the link can say anything of copies: the most looks at what is said.
MOST_LOOKED_AT = 100_000


class One(NamedTuple):
    """A message of an author. Of a number that has two histories several have the same seq."""

    copy: Copy
    message: Operation
    # The last entry of its history, where that is known.
    last: bytes


class Alike:
    """Messages that were left out, and what is typed for each."""

    def __init__(self, left: Iterable[One], judge: Judging):
        self._judge, self._looks = judge, 0
        self._left = {one.message: one for one in left}
        self._by_copy = {one.copy: message for message, one in self._left.items()}
        # What doesn't count of an author's number, by its seqs.
        self._elsewhere: dict[tuple[int, bytes, int], dict[int, list[Operation]]] = {}
        # Those that have the bytes of one and stand for it, or it for them, wherever they are; and that which is typed.
        self._same = {message: self._all_of(one) for message, one in self._left.items()}
        one_of = {message: min(one for one in same if self._is_left_out(one)).message for message, same in self._same.items()}
        found = {one_of[message]: [one_of[part] for part in parts] for message in self._left if (parts := self._parts(message))}
        # What is typed for each. A copy may have copies, and those that say so may be anybody.
        self.typed_for = {message: _last_of(one, found, MOST_TIMES) or [one] for message, one in one_of.items()}

    def stood_for(self) -> Iterator[tuple[One, Sequence[Operation]]]:
        """The messages, here and elsewhere, for which something is typed, and the messages that are typed for them."""
        for message, one in self._left.items():
            yield one, self.typed_for[message]
        others = {other: message for message, same in self._same.items() for other in same if not self._is_left_out(other)}
        for other in sorted(others):
            yield other, self.typed_for[others[other]]

    def _is_left_out(self, one: One) -> bool:
        return one.message in self._left and self._left[one.message].copy == one.copy

    def _all_of(self, of: One) -> list[One]:
        """A message, and all with its bytes that stand for it or it for them, and so on."""
        found, waiting = {(of.copy, of.message): of}, [of]
        while waiting and len(found) < MOST_ALIKE and self._looks < MOST_LOOKED_AT:
            one = waiting.pop()
            for last, copy, last_of_copy in self._judge.copies_in(one.copy.text).beside(one.copy):
                self._looks, copy = self._looks + 1, copy._replace(text=one.copy.text)
                if last == NO_HASH or self._judge.message_in(last, one.copy.seq) == one.message:
                    other = self._like(of.message, copy, last_of_copy)
                    if other and (copy, other.message) not in found:
                        found[copy, other.message] = other
                        waiting.append(other)
        return [*found.values()]

    def _like(self, message: Operation, of: Copy, last: bytes) -> One | None:
        """The message of an author, a site and a seq that has the bytes of another one; of a history, where that is known."""
        some: Iterable[Operation | None] = [self._judge.message_in(last, of.seq)] if last != NO_HASH else self._of(of)
        return next((One(of, one, last) for one in some if one and one.data == message.data), None)

    def _of(self, of: Copy) -> Iterator[Operation]:
        """The messages of an author, a site and a seq."""
        who = of.site, of.author, of.text
        if who not in self._elsewhere:
            self._elsewhere[who] = {}
            for entry in self._judge.not_counting(of.site, of.author):
                for message in entry.messages if entry.text == of.text else ():
                    self._elsewhere[who].setdefault(message.seq, []).append(message)
        yield from self._elsewhere[who].get(of.seq, ())
        if self._judge.message_counts(*of):
            yield self._judge.message(*of[1:])

    def _parts(self, message: Operation) -> list[Operation]:
        """What was left out of what stands for a message in several parts, in their order, as the author says."""
        of, groups = self._left[message].copy, dict[Who, list[Operation]]()
        for copy in self._judge.copies_of(of.author, of.site, of.seq, lambda old: old == message, of.text):
            if (copy := copy._replace(text=of.text)) in self._by_copy:
                groups.setdefault((copy.site, copy.author), []).append(self._by_copy[copy])
        return next((parts for parts in groups.values() if len(parts) > 1 and b"".join(each.data for each in parts) == message.data), [])


def _last_of(message: Operation, found: Mapping[Operation, Sequence[Operation]], most: int) -> list[Operation]:
    """The messages that stand for one and for which no others do; nothing where they are too many times copied."""
    if message not in found:
        return [message]
    parts = [_last_of(part, found, most - 1) for part in found[message]] if most else []
    return [one for part in parts for one in part] if parts and all(parts) else []
