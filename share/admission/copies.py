"""Which messages stand for which, as entries say it."""
from collections.abc import Callable, Iterable, Iterator, Sequence
from itertools import chain, islice
from typing import NamedTuple, Protocol, TypeVar

from share.admission.ledger import Who
from share.format.entry import NO_HASH, Copied, Copy
from share.format.operation import Operation

# The most messages that are looked at which stand for others by the word of somebody else than their author; and the most of what is
# said of an author's messages, as somebody asks what stands beside one.
MOST_COPIES_BY_OTHERS = 4_096


class MessagesInARow(Protocol):
    """Messages of an author and a number that go on one from the other."""

    @property
    def author(self) -> bytes:
        """Their author."""

    @property
    def site(self) -> int:
        """The number."""

    @property
    def first(self) -> int:
        """The seq of the first one."""

    @property
    def last(self) -> int:
        """The seq of the last one."""

    @property
    def operations(self) -> Iterable[Operation]:
        """The messages, letters typed one after the other in one."""

    @property
    def messages(self) -> Sequence[Operation]:
        """The messages, one by one."""


SomeMessages = TypeVar("SomeMessages", bound=MessagesInARow)
AskedOf = TypeVar("AskedOf", bound=MessagesInARow, contravariant=True)


class Fronts(Protocol):
    """What says how far messages count."""

    def front_up_to(self, author: bytes, site: int, last: bytes) -> int:
        """How many messages of an author and site are let through that are the one that is named or before it; all where none is."""


class Counting(Fronts, Protocol[AskedOf]):
    """What says which messages count."""

    def message(self, site: int, seq: int) -> Operation:
        """A message that is let through."""

    def chained_up_to(self, some: AskedOf, last: bytes) -> int:
        """The seq up to which messages are the one that is named or before it; 0 where none is."""


class _Stretch(NamedTuple):
    """A stretch of messages from a seq on, how many they are, and the first of their copies, with the seq 0 where nothing remained
    of them; and the last of their entries, or none where it is said of each that has such seqs, and the last of the copies'."""

    seq: int
    size: int
    by: Copy
    last: bytes
    by_last: bytes

    def end(self, counting: Fronts) -> int:
        """The seq after the last message whose copy counts."""
        if not self.by.seq:
            return self.seq + self.size
        front = counting.front_up_to(self.by.author, self.by.site, self.by_last)
        return self.seq + min(self.size, front - self.by.seq + 1)


class Copies:
    """What entries say of copies: their authors, whose word is taken, and others, where all is in the copy."""

    def __init__(self) -> None:
        self._by_authors: dict[Who, list[_Stretch]] = {}
        self._by_others: dict[Who, list[_Stretch]] = {}
        # The same by who made the copies, with whose messages these stand for.
        self._by_copier: dict[Who, list[tuple[Who, _Stretch]]] = {}
        # The sites whose messages stand for others, and the seq of the last one that does; and the last entries that have such.
        self.sites: dict[int, int] = {}
        self.lasts: set[bytes] = set()

    def add(self, site: int, author: bytes, before: bytes, copied: Copied) -> None:
        """Takes over what an author says under a number, of the messages up to one that is named, or of each."""
        last = max((by + size - 1 for _, by, size in copied.stretches if by), default=0)
        self.sites[copied.by_site] = max(self.sites.get(copied.by_site, 0), last)
        self.lasts.add(copied.last)
        whose = copied.site, copied.author
        known = self._by_authors if (site, author) == whose else self._by_others
        said = [_Stretch(seq, size, Copy(copied.by, copied.by_site, by), before, copied.last) for seq, by, size in copied.stretches]
        known.setdefault(whose, []).extend(said)
        self._by_copier.setdefault((copied.by_site, copied.by), []).extend((whose, one) for one in said if one.by.seq)

    def speak_of(self, author: bytes, site: int) -> bool:
        """Whether copies of an author's messages are spoken of."""
        return (site, author) in self._by_authors or (site, author) in self._by_others

    def are_told_by(self, site: int, author: bytes) -> bool:
        """Whether an author says of own messages what stands for them."""
        return (site, author) in self._by_authors

    def of(self, author: bytes, site: int, seq: int, suits: Callable[[bytes], bool]) -> list[tuple[Copy, bytes]]:
        """The messages that stand for one, as its author says, where it is the one of a history that suits, of which the hash of the
        last entry is known; that of the least number and seq first, each with the last entry of its own history."""
        found = {(one.by._replace(seq=one.by.seq + seq - one.seq), one.by_last) for one in self._by_authors.get((site, author), ())
                 if one.by.seq and one.seq <= seq < one.seq + one.size and suits(one.last)}
        return sorted(found, key=lambda one: (one[0].site, one[0].seq, one[0].author, one[1]))

    def beside(self, one: Copy) -> Iterator[tuple[bytes, Copy, bytes]]:
        """The messages that stand for one, and those for which it stands, whoever says so: each after the last entry of the history of
        the one, and before the last of its own, none where nothing is said of that."""
        who = one.site, one.author
        for said in islice(chain(self._by_authors.get(who, ()), self._by_others.get(who, ())), MOST_COPIES_BY_OTHERS):
            if said.by.seq and said.seq <= one.seq < said.seq + said.size:
                yield said.last, said.by._replace(seq=said.by.seq + one.seq - said.seq), said.by_last
        for (site, author), said in islice(self._by_copier.get(who, ()), MOST_COPIES_BY_OTHERS):
            if said.by.seq <= one.seq < said.by.seq + said.size:
                yield said.by_last, Copy(author, site, said.seq + one.seq - said.by.seq), said.last

    def stretches(self, some: SomeMessages, counting: Counting[SomeMessages]) -> Iterator[tuple[int, int]]:
        """The seqs of those of some messages for which copies stand that count."""
        who = some.site, some.author
        for one in self._by_authors.get(who, ()):
            first, last = _spoken_of(one, some, counting)
            if first <= last:
                yield first, last
        # Who copied a message has all of it, in one copy or in all of them, one after the other.
        found: dict[tuple[int, int, bytes], dict[int, bytes]] = {}
        for one in self._by_others.get(who, ()):
            first, last = _spoken_of(one, some, counting)
            for seq in range(first, min(last, first + MOST_COPIES_BY_OTHERS) + 1) if one.by.seq else ():
                by = one.by.seq + seq - one.seq
                found.setdefault((seq, one.by.site, one.by.author), {})[by] = counting.message(one.by.site, by).data
        for (seq, _, _), parts in found.items():
            data = some.messages[seq - some.first].data
            if data and data in (b"".join(parts[by] for by in sorted(parts)), *parts.values()):
                yield seq, seq


def _spoken_of(one: _Stretch, some: SomeMessages, counting: Counting[SomeMessages]) -> tuple[int, int]:
    """The seqs of the first and the last of some messages of which it is said what stands for them, where that counts; the first one is
    greater where there are none."""
    first, last = max(some.first, one.seq), min(some.last, one.seq + one.size - 1)
    if first <= last:
        last = min(last, one.end(counting) - 1)
    if first <= last and one.last != NO_HASH:
        last = min(last, counting.chained_up_to(some, one.last))
    return first, last
