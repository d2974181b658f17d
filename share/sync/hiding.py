"""Which characters of copies are to be hidden, since what they stand for counts again or another copy stays; and which are
to be shown again, since neither holds any more.

Shown again is only what was hidden for this: never what a user has deleted. What others made is hidden where they don't do so,
since their disk may be gone.
"""
import time
from collections.abc import Iterable, Iterator, Sequence
from itertools import chain
from typing import NamedTuple

from share.format.entry import Author, Copied, Copy, Entry, Form
from share.format.operation import DELETE, RESTORE, TEXT, Operation
from share.program.site import Edited, Told
from share.program.trace import Traced, trace
from share.store.guarded import Unkept
from share.sync.backoff import seconds_for_others
from share.sync.edits import OwnEdits
from share.sync.numbers import Numbers
from share.sync.rebasing import Rebaser
from share.sync.replica import Replica
from share.sync.state import Holdings
from share.sync.texts import OpenTexts
from share.text.names import Name, Names, united, without


class Hider:
    """Hides copies that aren't to be seen, and shows them again. The editor's thread alone calls it."""

    def __init__(self, holdings: Holdings, form: Form, numbers: Numbers, replica: Replica, edits: OwnEdits, rebaser: Rebaser):
        self._holdings, self._form, self._numbers = holdings, form, numbers
        self._replica, self._edits, self._rebaser = replica, edits, rebaser
        # How far what copies stand for counted when it was last looked at.
        self._fronts: list[int] | None = None
        # When copies of others are hidden that stand beside what they stand for, unless they are hidden by then.
        self._hides_others: float | None = None

    def look_again(self) -> None:
        """Looks at all again the next time, since the site began anew."""
        self._fronts = None

    def hide(self, fronts: list[int]) -> Told:
        """Hides copies that were made here and aren't to be seen, or shows them again, where what they stand for counts this far; what the
        text has become. Those of others are hidden some seconds later."""
        is_due = self._hides_others is not None and time.monotonic() >= self._hides_others
        if fronts == (self._fronts or []) and not is_due or not self._may_hide():
            return []
        names, before = wanted(self._holdings, self._replica.text), len(self._replica.site.history)
        try:
            told = self._hide(names, is_due)
        except BaseException as why:
            # What can't be done isn't tried again in each turn.
            self._rebaser.wait()
            self._replica.site.go_back(before)
            if not isinstance(why, Unkept):
                raise
            self._rebaser.later(why)
            return []
        self._fronts = fronts
        if is_due or not names.of_others:
            self._hides_others = None
        elif self._hides_others is None:
            self._hides_others = time.monotonic() + seconds_for_others()
        return told

    def _may_hide(self) -> bool:
        numbers = self._numbers
        return numbers.own.stood and not self._replica.is_stale and not numbers.is_taken and self._rebaser.may_write()

    def _hide(self, names: "Wanted", of_others_too: bool) -> Told:
        site, author = self._replica.site, self._numbers.own.author
        hidden, gone = site.delete(names.hidden)
        of_others, went = site.delete(one for _, one in names.of_others) if of_others_too else (Edited([]), [])
        shown, come = site.restore(names.shown)
        if messages := hidden.messages + of_others.messages + shown.messages:
            self._edits.keep(messages, hidings=[Copy(author.name, one.site, one.seq, one.text) for one in messages],
                             says=lambda last: said_of_hidden(self._form, author, of_others.messages, names.of_others, last))
            trace(Traced.HIDDEN, messages=len(hidden.messages), of_others=len(of_others.messages), shown=len(shown.messages))
        told = [one for part in (gone, went, come) if isinstance(part, list) for one in part]
        return told if all(isinstance(part, list) for part in (gone, went, come)) else site.text()


class Hiders:
    """Hides and shows copies in all texts: one that isn't open is opened where some of its copies are to be hidden or shown. The editor's
    thread alone calls it."""

    def __init__(self, holdings: Holdings, form: Form, numbers: Numbers, texts: OpenTexts, rebaser: Rebaser):
        self._texts, self._known, self._rebaser = texts, (holdings, form, numbers), rebaser
        self._hiders: dict[int, Hider] = {}
        # How far what copies stand for counted when it was last looked at texts that aren't open.
        self._fronts: list[int] = []

    def hide(self) -> Told:
        """Hides copies that aren't to be seen, or shows them again; what the first text has become."""
        told: Told = []
        fronts = self._known[0].fronts_of_copies()
        self._open_more(fronts)
        for text, hider in self._each():
            hidden = hider.hide(fronts)
            told = hidden if text == TEXT else told
        return told

    def look_again(self) -> None:
        """Looks at all again the next time, since the sites began anew."""
        self._fronts = []
        for _, hider in self._each():
            hider.look_again()

    def _open_more(self, fronts: list[int]) -> None:
        """Opens the texts that aren't open and have copies that are to be hidden or shown."""
        holdings, form, numbers = self._known
        if fronts == self._fronts or len(form.texts) == 1 or not numbers.own.stood:
            return
        self._fronts = fronts
        for text in holdings.texts_of_copies().difference(one.replica.text for one in self._texts):
            if any(wanted(holdings, text)):
                self._texts.open_one(text)

    def _each(self) -> Iterator[tuple[int, Hider]]:
        for one in self._texts:
            text = one.replica.text
            if text not in self._hiders:
                self._hiders[text] = Hider(*self._known, *one, self._rebaser)
            yield text, self._hiders[text]


class Wanted(NamedTuple):
    """The names of characters that are to be hidden, and of those that are to be shown; and the copies of others that are to
    be hidden, with their names."""

    hidden: list[Names]
    shown: list[Names]
    of_others: list[tuple[Copy, Names]]


def wanted(holdings: Holdings, text: int) -> Wanted:
    """What is to become of the copies of a text that count: those that were made here, and those that others made."""
    hidden, shown, of_others, hidden_here = list[Names](), list[Names](), list[tuple[Copy, Names]](), list[Names]()
    judge, standing, recovered = holdings.judge, holdings.standing, holdings.recovered
    for copy, is_hidden in chain(standing.made_here(judge.entry_of, holdings.rows), recovered.made_here(judge)):
        if copy.text == text and (message := _made_here(holdings, copy)) and (names := message.new):
            (hidden if is_hidden else shown).append(names)
    of_all = holdings.standing_for_all.made_by_all(judge.entry_of, judge.front_up_to)
    for copy, is_hidden in chain(of_all, recovered.made_by_others(judge)):
        # What was hidden here is shown again by who hid it.
        if copy.text == text and (is_hidden or holdings.hidings) and judge.message_counts(*copy) and not _made_here(holdings, copy):
            if names := judge.message(*copy[1:]).new:
                of_others.append((copy, names)) if is_hidden else hidden_here.append(names)
    own = [message for copy in holdings.hidings if copy.text == text and (message := _made_here(holdings, copy))]
    said_so = (judge.message(*one[1:]) for one in recovered.hidings if one.text == text and judge.message_counts(*one))
    hidings = own + [message for message in said_so if message.kind == DELETE]
    shown = _hidden_by(hidings, united(shown)) + _hidden_by(own, united(hidden_here))
    all_messages = holdings.judge.let_through_in_order(text) if shown else ()
    return Wanted(united(hidden), _hidden_for_that_alone(all_messages, hidings, united(shown)), of_others)


def said_of_hidden(form: Form, author: Author, made: Iterable[Operation], hidden: Iterable[tuple[Copy, Names]], last: Entry) -> list[Entry]:
    """The entries by which the author of messages, of which this is the last entry, says of which copies of others they are
    made to hide: of one for each."""
    copies, found = [*hidden], list[Entry]()
    for message in made:
        names = message.mentions
        of = next((copy for copy, one in copies if _in_both([one], names)), None)
        if of and message.kind == DELETE:
            stretches = ((of.seq, message.seq, 1),)
            found.append(form.copies(Copied(of.author, of.site, author.name, last.site, stretches, last.name), author, last.site,
                                     text=message.text))
    return found


def _made_here(holdings: Holdings, copy: Copy) -> Operation | None:
    """A copy, where it counts. Another disk may have written under its number, too."""
    if not holdings.judge.message_counts(*copy):
        return None
    of = holdings.judge.entry_of(*copy[1:])
    if of is None or not holdings.rows[of].made:
        return None
    entry = holdings.rows[of].entry
    return entry.messages[copy.seq - entry.first]


def _hidden_by(hidings: Iterable[Operation], names: list[Names]) -> list[Names]:
    """Those of these characters that messages mention."""
    return _in_both(names, united(part for message in hidings for part in message.mentions)) if names else []


def _hidden_for_that_alone(all_messages: Iterable[Operation], hidings: Iterable[Operation], names: list[Names]) -> list[Names]:
    """Those of these characters that would be shown if no copy had ever been hidden, and aren't."""
    if not names:
        return []
    messages = [message for message in all_messages if message.kind in (DELETE, RESTORE)]
    made_for_that = {(message.site, message.seq) for message in hidings}
    would_be = _gone(names, (message for message in messages if (message.site, message.seq) not in made_for_that))
    return without([*_of(_gone(names, messages))], [*_of(would_be)])


def _gone(names: list[Names], messages: Iterable[Operation]) -> set[Name]:
    """Those of these characters that messages have deleted and not restored: of each the greatest stamp decides."""
    last: dict[Name, tuple[int, int, int]] = {}
    for message in messages:
        for one in _in_both(message.mentions, names):
            for at in range(one.at, one.at + one.length):
                last[one.site, at] = max(last.get((one.site, at), (0, 0, 0)), (message.stamp, message.site, message.kind))
    return {name for name, (_, _, kind) in last.items() if kind == DELETE}


def _of(names: Iterable[Name]) -> list[Names]:
    return united(Names(site, at, 1) for site, at in names)


def _in_both(names: Sequence[Names], others: Sequence[Names]) -> list[Names]:
    """Names that are in both sets."""
    return without(names, without(names, others))
