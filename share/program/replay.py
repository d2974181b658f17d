"""A note as it was, and who wrote what, by replays: messages are handed to a run of the program, up to where that is
asked for. It is done in a thread of its own, since a long history takes seconds."""
from collections import OrderedDict
from collections.abc import Iterable, Iterator, Set
from contextlib import suppress
from typing import NamedTuple, TypeVar

from share.format.history import Messages
from share.format.operation import CHANGE_LOOKS, DELETE, INSERT, RESTORE, Operation
from share.program.site import Site
from share.review.hidden import hidden_at_once
from share.text.change import boundary
from share.text.errors import Trouble
from share.text.looks import Dressed
from share.text.names import Names
from share.text.rope import Measured
from share.text.units import Units

# The texts as they were that are kept.
MOST_KEPT_TEXTS = 64
# The number under which is replayed. Nothing is typed there.
REPLAYING = 1
DID = {INSERT: "typed", DELETE: "deleted", RESTORE: "restored", CHANGE_LOOKS: "looked"}


class HistoryStep(NamedTuple):
    """Messages of a site in a row that go on with one another, what they did, and the number of bytes it was done to; and how many
    gave way to these."""

    begin: int
    end: int
    site: int
    did: str
    size: int
    gave_way: int = 0


class Wrote(NamedTuple):
    """A stretch of a text, in bytes, and the site that wrote it."""

    begin: int
    end: int
    site: int


class Came(NamedTuple):
    """A stretch of a later text, in bytes, that an earlier one doesn't show, the site that wrote it, and the site that typed it
    since, or brought it back."""

    begin: int
    end: int
    site: int
    by: int


# A stretch of a text, with who wrote it or with its looks.
Of = TypeVar("Of", Wrote, Came, Dressed)


class Past(NamedTuple):
    """A text as it was, and who wrote it."""

    text: bytes
    wrote: list[Wrote]


class Replays:
    """A note's history, as far as it was asked for. Used by one thread."""

    def __init__(self) -> None:
        self._kept: OrderedDict[int, Past] = OrderedDict()
        self._history = Messages()
        self._site: Site | None = None
        self._at = 0

    def past(self, history: Messages, at: int) -> Past:
        """The text as it was after a number of messages."""
        if history[:len(self._history)] != self._history:
            # All was taken in anew, in another order.
            self.close()
        self._history = history
        if at not in self._kept:
            self._kept[at] = self._replayed(at)
        self._kept.move_to_end(at)
        while len(self._kept) > MOST_KEPT_TEXTS:
            self._kept.popitem(last=False)
        return self._kept[at]

    def close(self) -> None:
        """Ends the run of the program."""
        if self._site:
            with suppress(Trouble):
                self._site.close()
        self._site, self._at, self._history = None, 0, Messages()
        self._kept.clear()

    def _replayed(self, at: int) -> Past:
        if self._site and at < self._at:
            self._site.close()
            self._site = None
        if not self._site:
            self._site, self._at = Site(REPLAYING), 0
        self._site.take(self._history[self._at:at])
        self._at = at
        text = self._site.text()
        return Past(text, wrote(self._site, 0, len(text)))


def steps(history: Messages, begin: int, most: int, suggested: Set[Names] = frozenset()) -> list[HistoryStep]:
    """The steps of a history from a message on, up to a number of them. What replaces something is one, and so is what is typed
    behind a character that is shown meanwhile. What types a replacement that is suggested, and hides it at once, is passed over."""
    found: list[HistoryStep] = []
    # The first message of each, of several the first one.
    firsts: list[Operation] = []
    last: Operation | None = None
    for one, is_passed_over in _with_passed_over(history[begin:].runs(), hidden_at_once(suggested, history)):
        if is_passed_over:
            begin += one.size
            continue
        size = len(one.data) or sum(names.length for names in one.mentions)
        if last and _is_same_step(last, one):
            found[-1] = found[-1]._replace(end=begin + one.size, size=found[-1].size + size)
        elif last and last.data and _replaces(firsts[-1], last, one):
            found[-1] = found[-1]._replace(end=begin + one.size, gave_way=size)
            if firsts[-2:-1] and _is_meanwhile(firsts[-2], one):
                del firsts[-2]
                found[-2:] = [found[-1]._replace(begin=found[-2].begin, gave_way=0)]
            begin += one.size
            continue
        elif len(found) == most:
            break
        else:
            found.append(HistoryStep(begin, begin + one.size, one.site, DID[one.kind], size))
            firsts.append(one)
        last, begin = one, begin + one.size
    return found


def _with_passed_over(runs: Iterable[Operation], passed_over: Set[tuple[int, int]]) -> Iterator[tuple[Operation, bool]]:
    """Operations, and of each whether it is passed over, by site and seq; letters one by one where that is so of some."""
    sites = {site for site, _ in passed_over}
    for run in runs:
        is_near = run.site in sites and any((run.site, seq) in passed_over for seq in range(run.seq, run.seq + run.size))
        for one in run.each() if is_near else (run,):
            yield one, is_near and (one.site, one.seq) in passed_over


def as_line(step: HistoryStep) -> dict[str, int]:
    """A step as editors are told it: what wasn't done was done to 0 bytes."""
    line = {"begin": step.begin, "end": step.end, "site": step.site, **dict.fromkeys(DID.values(), 0), step.did: step.size}
    return line | {DID[DELETE]: step.gave_way} if step.gave_way else line


def _replaces(first: Operation, last: Operation, one: Operation) -> bool:
    """Whether a message deletes what an insertion of its site just before it, of which these are the first and the last message, was
    put inside."""
    return (one.kind == DELETE and last.site == one.site and first.kind == INSERT and any(
        names.site == cause.site and names.at <= cause.at < names.at + names.length for cause in first.mentions for names in one.mentions))


def _is_meanwhile(before: Operation, one: Operation) -> bool:
    """Whether a message hides what one of its site had shown."""
    return (before.kind, before.site, before.mentions) == (RESTORE, one.site, one.mentions)


def _is_same_step(last: Operation, one: Operation) -> bool:
    """Whether messages are of the same step as those before them: typing that goes on, or more of the same kind."""
    if (last.site, last.kind) != (one.site, one.kind):
        return False
    return not last.data or [*one.mentions] == [Names(last.site, last.at + len(last.data) - 1, 1)]


def wrote(site: Site, begin: int, end: int) -> list[Wrote]:
    """Who wrote what of the text that a site shows, from one position to another."""
    out: list[Wrote] = []
    at = begin
    for names in site.names(begin, end):
        if out and out[-1].site == names.site:
            out[-1] = out[-1]._replace(end=at + names.length)
        else:
            out.append(Wrote(at, at + names.length, names.site))
        at += names.length
    return out


def in_units(text: Measured, stretches: Iterable[Of], units: Units) -> list[Of]:
    """Stretches of a note's bytes in units. A character that two have written is the one's that began it."""
    data, out = text.as_note(), []
    for one in stretches:
        begin, end = (text.position(boundary(data, place), units) for place in (one.begin, one.end))
        if begin < end:
            out.append(one._replace(begin=begin, end=end))
    return out
