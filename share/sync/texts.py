"""The texts of a note that are open in a session: the first one always, and others as something is to be done in them."""
from collections.abc import Callable, Iterator
from typing import NamedTuple

from share.admission.judging import Counted
from share.format.history import Messages
from share.format.operation import TEXT
from share.sync.edits import OwnEdits
from share.sync.replica import Replica
from share.sync.state import Holdings


class OpenText(NamedTuple):
    """A text: its replica, and what edits it."""

    replica: Replica
    edits: OwnEdits


class OpenTexts:
    """Opens texts, and hands each what counts of it. The editor's thread alone calls it."""

    def __init__(self, holdings: Holdings, opens: Callable[[int, Messages], OpenText]):
        self._holdings, self._opens = holdings, opens
        self._open: dict[int, OpenText] = {}
        self.open(TEXT, holdings.count().messages)

    def open(self, text: int, messages: Messages) -> OpenText:
        """Opens a text of which these messages count."""
        found = self._open[text] = self._opens(text, messages.of_text(text))
        found.edits.elsewhere, found.edits.took_another = (lambda counted: self.comes(counted, text)), self.go_on_under_another_number
        return found

    def __getitem__(self, text: int) -> OpenText:
        """A text, which is opened where it isn't."""
        self.open_one(text)
        return self._open[text]

    def open_one(self, text: int) -> None:
        """Opens a text, where it isn't open."""
        if text not in self._open:
            self.comes(self._holdings.count())
            self.open(text, self._holdings.judge.let_through_in_order(text))

    def opened_beside(self, text: int) -> OpenText:
        """Opens a text once more, under the number of now; what is made there comes to all that are open. Who asks closes it."""
        self.comes(self._holdings.count())
        found = self._opens(text, self._holdings.judge.let_through_in_order(text))
        found.edits.elsewhere = self.comes
        return found

    def __iter__(self) -> Iterator[OpenText]:
        """All that are open."""
        return iter([*self._open.values()])

    def others(self) -> list[OpenText]:
        """Those beside the first one."""
        return [one for text, one in self._open.items() if text != TEXT]

    def comes(self, found: Counted, but: int | None = None) -> None:
        """Hands what counts now to each, but for one that knows it."""
        for one in self:
            if one.replica.text == but:
                continue
            if found.anew:
                one.replica.is_stale = True
            else:
                one.replica.comes(found.messages.of_text(one.replica.text))

    def is_stale(self) -> bool:
        """Whether one may lack something that counts, or have something that doesn't."""
        return any(one.replica.is_stale for one in self)

    def begin_anew(self, messages: Messages) -> None:
        """Begins each anew with what counts of it, of all texts."""
        for one in self:
            one.replica.is_stale = False
            one.replica.begin_anew(messages.of_text(one.replica.text))

    def has_other_number(self) -> bool:
        """Whether one runs under another number than that of now."""
        return any(one.replica.site.number != one.replica.number for one in self)

    def goes_on(self) -> None:
        """Goes on after the last entries of the number of now."""
        for one in self:
            one.edits.goes_on()

    def go_on_under_another_number(self) -> None:
        """Goes on under the number of now with all that each has."""
        self.goes_on()
        for one in self:
            one.replica.go_on_under_another_number()

    def close(self) -> None:
        """Ends what runs for each."""
        for one in self:
            one.replica.site.close()
