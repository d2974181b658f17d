"""The margin of an open note: what its insertions that count say, kept up as they are taken in, and how somebody's records are written
there. Nothing of it is read before somebody asks."""
import contextlib
import math
from collections.abc import Callable, Iterator, Sequence

from share.format.history import Messages
from share.format.operation import TEXT, Operation
from share.program.site import Edited, Site
from share.review.anchor import Knows
from share.review.margin import Margin
from share.review.record import MARGIN, MarginRecord
from share.review.writing import lines_of
from share.sync.edits import OwnEdits
from share.sync.numbers import FULL, Numbers
from share.sync.state import Holdings
from share.sync.texts import OpenTexts
from share.text.errors import Refused
from share.text.names import Name

NO_MARGIN = "This note has no margin: bin/note renew NAME --form 2 makes one of it that has, with its history."
NOT_HERE = "That was written under number {}, which isn't yours to write under any more, so it stays as it is. Answer it instead."
IN_USE = "That was written under number {}, which another editor of yours has now. Quit that, or do it there."


Notes = Callable[[Name, Sequence[Operation]], None]


class NotOwn(Exception):
    """A number can't be written under; in words."""


class TakenIn:
    """What a text's site has taken in since somebody asked last."""

    def __init__(self, site: Callable[[], Site]):
        self._site = site
        self._history: Messages | None = None
        self._many = 0

    def forget(self) -> None:
        """Has all be new the next time."""
        self._history = None

    def more(self, most: int | None = None) -> tuple[Messages, bool]:
        """The messages, the first ones where there are more than are asked for; and whether the site began anew, so that these are the
        first of all."""
        history = self._site().history
        is_anew = history is not self._history or len(history) < self._many
        before = 0 if is_anew else self._many
        found = history[before:None if most is None else before + most]
        self._history, self._many = history, before + len(found)
        return found, is_anew

    def has_more(self) -> bool:
        """Whether there are more than those that were asked for last."""
        return self._many < len(self._site().history)


class OpenMargin:
    """The margin of a session's note. The editor's thread alone calls it."""

    def __init__(self, holdings: Holdings, numbers: Numbers, texts: OpenTexts, exists: bool):
        self._holdings, self._numbers, self._texts = holdings, numbers, texts
        # Whether the note can have one.
        self.exists = exists
        self.said = Margin()
        self._taken_in = TakenIn(lambda: texts[MARGIN].replica.site)
        # What the text that it is about took in since it was asked.
        self.of_text = TakenIn(lambda: texts[TEXT].replica.site)

    def forget(self) -> None:
        """Has all be read anew."""
        self._taken_in.forget()
        self.of_text.forget()

    def knows(self) -> Knows:
        """What of the text counts, shown or not."""
        judge = self._holdings.judge
        return Knows(judge.inserter, judge.inserted, judge.is_of_base)

    def read_on(self, most: int) -> set[Name] | None:
        """Takes over what was taken in, of so many messages at most; the threads of which something may be otherwise since, None where that
        may be so of all."""
        new, is_anew = self._taken_in.more(most)
        if is_anew:
            self.said = Margin()
        changed = self.said.add_all(new.runs())
        return None if is_anew else changed

    def has_more(self) -> bool:
        """Whether something was taken in that isn't taken over."""
        return self._taken_in.has_more()

    def make_room(self, length: int) -> None:
        """Goes on under another number now where this one has no room for this many characters and what is said of them."""
        self._texts[TEXT].edits.make_room(length)

    def write(self, record: MarginRecord, site: int | None = None, notes: Notes = lambda name, made: None) -> Name:
        """Writes a record, and what goes on with it, as one edit; under this editor's number, or under that one of this person's which is
        given. `notes` is called with its name and messages before they are kept."""
        if site is None or site == self._numbers.own.site:
            return self._written(self._texts[MARGIN].edits, record, site, notes)
        with self._under(site) as edits:
            name = self._written(edits, record, site, notes)
        self._texts[MARGIN].replica.take_in(math.inf, False)
        return name

    def _written(self, edits: OwnEdits, record: MarginRecord, number: int | None, notes: Notes) -> Name:
        names, refused = list[Name](), list[int]()

        def work(site: Site) -> Edited:
            if number not in (None, site.number):
                # The number was full.
                raise NotOwn(NOT_HERE.format(number))
            names.append((site.number, self._holdings.judge.length(site.number, MARGIN)))
            made = list[Operation]()
            for line in lines_of(record, *names[-1]):
                edited = site.insert(0, line)
                if edited.refused is not None:
                    refused.append(edited.refused)
                    raise Refused(edited.refused)
                made += edited.messages
            notes(names[-1], made)
            return Edited(made)

        try:
            edits.make(work)
        finally:
            self._numbers.is_full = self._numbers.is_full or any(one in FULL for one in refused)
        return names[-1]

    @contextlib.contextmanager
    def _under(self, site: int) -> Iterator[OwnEdits]:
        """What edits the margin under another number of this person; NotOwn where it can't be."""
        with self._numbers.as_another(site) as has_it:
            if not has_it:
                raise NotOwn((IN_USE if self._numbers.is_in_use(site) else NOT_HERE).format(site))
            found = self._texts.opened_beside(MARGIN)
            try:
                yield found.edits
            finally:
                found.replica.close()
