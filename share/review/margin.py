"""What a note's margin says: one function of the insertions there that count, as a set, whatever the order in which they come.

Adding one costs the same however many there are. A thread is put together where somebody asks for it, of what answers it alone.
"""
from collections.abc import Iterable, Iterator, Sequence
from itertools import chain, takewhile
from typing import NamedTuple

from share.format.operation import Operation
from share.review.record import LEAST_OF_A_LINE, MOST_OF_A_BODY, Anchor, MarginKind, MarginRecord, MarginState, Ref, read_line
from share.text.names import Name, Names

# By which records are ordered: the stamp of the insertion, then its site.
RecordKey = tuple[int, int]
# Kinds of records that speak of their own author's alone.
OF_ITS_AUTHOR = MarginKind.TAKEN, MarginKind.REVISED, MarginKind.MORE
# From a record to its thread: what goes on with another body of a reply.
MOST_HOPS = 3


class Remark(NamedTuple):
    """What somebody wrote: what begins a thread, or a reply."""

    name: Name
    key: RecordKey
    by: str
    time: int
    # None where it was taken back.
    body: str | None
    is_revised: bool


class AboutText(NamedTuple):
    """What a thread is about, and what it suggests instead."""

    kind: MarginKind
    anchor: Anchor
    new: tuple[Names, ...]


class Thread(NamedTuple):
    """A remark or a suggestion, with its replies. What is suggested may be accepted besides, which the text says."""

    first: Remark
    kind: MarginKind
    # None where it was taken back.
    state: MarginState | None
    anchor: Anchor
    new: tuple[Names, ...]
    replies: tuple[Remark, ...]


class _Entered(NamedTuple):
    """A record that is in the margin."""

    name: Name
    key: RecordKey
    record: MarginRecord

    @property
    def site(self) -> int:
        """Whose it is."""
        return self.name[0]


class _Alike:
    """The records of one sum, which is that of their bytes, and those that name one of them."""

    __slots__ = ("names", "least", "answers")

    def __init__(self) -> None:
        self.names = set[Name]()
        self.least: _Entered | None = None
        # By the name that they say.
        self.answers: dict[Name, list[_Entered]] = {}


class Margin:
    """The insertions of a margin, and what they say."""

    def __init__(self) -> None:
        self._by_name: dict[Name, _Entered] = {}
        self._by_sum: dict[str, _Alike] = {}
        self._threads = set[Name]()

    def add_all(self, runs: Iterable[Operation]) -> set[Name]:
        """Adds the insertions of these operations; the threads of which something may be otherwise then."""
        # Letters in a row, of which there may be a million, are no records.
        long = (run for run in runs if len(run.data) >= LEAST_OF_A_LINE * run.size)
        return {name for run in long for one in run.each() for name in self.add(one)}

    def add(self, one: Operation) -> set[Name]:
        """Adds what was inserted; the threads of which something may be otherwise then. What is known already changes nothing."""
        record, name = read_line(one.data) if one.data and one.size == 1 else None, (one.site, one.at)
        if record is None or name in self._by_name:
            return set()
        new = self._by_name[name] = _Entered(name, (one.stamp, one.site), record)
        alike = self._alike(record.sum)
        alike.names.add(name)
        # What named the least one for want of this one names this one.
        changed, before = [new], alike.least
        if before:
            changed.append(before)
        if before is None or new.key < before.key:
            alike.least = new
        if record.kind.begins:
            self._threads.add(name)
        if record.of:
            self._alike(record.of.sum).answers.setdefault(record.of.name, []).append(new)
        return {found for each in changed if (found := self._thread_of(each)) is not None}

    def _alike(self, of: str) -> _Alike:
        if of not in self._by_sum:
            self._by_sum[of] = _Alike()
        return self._by_sum[of]

    def _thread_of(self, one: _Entered | None) -> Name | None:
        """The thread of which a record says something, if it is there."""
        for _ in range(MOST_HOPS):
            if one and one.record.of:
                one = self._meant(one.record.of)
        return one.name if one and one.record.kind.begins else None

    def _meant(self, ref: Ref) -> _Entered | None:
        """The record that is named so."""
        alike = self._by_sum.get(ref.sum)
        if alike and ref.name in alike.names:
            return self._by_name[ref.name]
        return alike.least if alike else None

    def __len__(self) -> int:
        """How many threads there are."""
        return len(self._threads)

    def many_records(self) -> int:
        """How many records there are, also of those that say nothing now."""
        return len(self._by_name)

    def threads(self) -> list[Name]:
        """The names of all threads, in the order of their keys."""
        return sorted(self._threads, key=lambda name: self._by_name[name].key)

    def ref(self, name: Name) -> Ref | None:
        """What names the record that begins so, if there is one."""
        found = self._by_name.get(name)
        return Ref(*name, found.record.sum) if found else None

    def kind(self, name: Name) -> MarginKind | None:
        """What the record is that begins so, if there is one."""
        found = self._by_name.get(name)
        return found.record.kind if found else None

    def is_taken(self, name: Name) -> bool:
        """Whether the author of the record that begins so took it back."""
        return any(answer.record.kind is MarginKind.TAKEN for answer in self._answers(self._by_name[name]))

    def new(self, name: Name) -> tuple[Names, ...]:
        """The replacement that a record suggests."""
        return self._by_name[name].record.new

    def suggested(self) -> set[Names]:
        """The characters that records suggest, which their authors have typed."""
        return {names for name in self._threads for names in self.new(name) if names.site == name[0]}

    def thread(self, name: Name) -> Thread:
        """The thread that a record begins."""
        one = self._by_name[name]
        answers, first = self._answers(one), self._remark(one)
        replies = (self._remark(answer) for answer in answers if answer.record.kind is MarginKind.REPLY)
        state = None if first.body is None else _last_state(answers)
        return Thread(first, one.record.kind, state, self._anchor(one), one.record.new, (*replies,))

    def is_said_accepted(self, name: Name) -> bool:
        """Whether somebody says of a thread that it was accepted, and nobody since that this was taken back."""
        return name in self._by_name and _is_accepted(self._answers(self._by_name[name]))

    def about(self, name: Name) -> AboutText:
        """What a thread is about."""
        one = self._by_name[name]
        return AboutText(one.record.kind, self._anchor(one), one.record.new)

    def key(self, name: Name) -> RecordKey:
        """By what a record that begins so is ordered."""
        return self._by_name[name].key

    def _anchor(self, one: _Entered) -> Anchor:
        anchor, parts = one.record.anchor, [*self._parts(one)]
        assert anchor
        if not parts:
            return anchor
        saw = dict[int, str]()
        for some in reversed([anchor.saw, *(part.saw for part in parts)]):
            saw |= some
        return anchor._replace(at=tuple(chain(anchor.at, *(part.at for part in parts))), saw=saw)

    def _answers(self, one: _Entered) -> list[_Entered]:
        """What names a record, and may, in the order of keys."""
        alike = self._by_sum[one.record.sum]
        found = [*alike.answers.get(one.name, ())]
        if alike.least is one:
            found += [answer for name, some in alike.answers.items() if name not in alike.names for answer in some]
        return sorted((answer for answer in found if answer.record.kind not in OF_ITS_AUTHOR or answer.site == one.site),
                      key=lambda answer: answer.key)

    def _remark(self, one: _Entered) -> Remark:
        """What somebody wrote, as it is now."""
        revised = [answer for answer in self._answers(one) if answer.record.kind is MarginKind.REVISED]
        is_taken = self.is_taken(one.name)
        body = None if is_taken else self._body(revised[-1] if revised else one)
        return Remark(one.name, one.key, one.record.by, one.record.time, body, bool(revised) and not is_taken)

    def _body(self, one: _Entered) -> str:
        parts = (part.body for part in self._parts(one))
        return "".join([one.record.body, *parts])[:MOST_OF_A_BODY]

    def _parts(self, one: _Entered) -> Iterable[MarginRecord]:
        """What goes on with a record, from the first part on as far as there are."""
        if not one.record.parts:
            return ()
        parts = dict[int, MarginRecord]()
        for answer in self._answers(one):
            if answer.record.kind is MarginKind.MORE:
                parts.setdefault(answer.record.part, answer.record)
        return (parts[number] for number in takewhile(parts.__contains__, range(1, one.record.parts + 1)))

    def each(self) -> Iterator[Thread]:
        """All threads, in the order of their keys."""
        return map(self.thread, self.threads())


def _is_accepted(answers: Iterable[_Entered]) -> bool:
    """Whether the last word about an acceptance is that there is one."""
    return [False, *(answer.record.accepts for answer in answers if answer.record.accepts is not None)][-1]


def _last_state(answers: Sequence[_Entered]) -> MarginState:
    """What the last one says. What is said of an acceptance counts as long as that isn't taken back; so what others said meanwhile stands.
    """
    is_accepted = _is_accepted(answers)
    states = [one.record.state for one in answers if one.record.state and (is_accepted or one.record.accepts is None)]
    return states[-1] if states else MarginState.OPEN
