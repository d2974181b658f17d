"""What changed of a note since its user looked, as its editors show it: stretches that came and places where something went, which move
with the text."""
from collections.abc import Callable
from typing import NamedTuple

from share.editors.threads import stretch_after
from share.text.change import Change
from share.text.line import Line


class PlacedChange(NamedTuple):
    """A stretch that came, or a place where a text went; and what is told of it."""

    begin: int
    end: int
    line: Line

    @property
    def gone(self) -> str:
        """What went there; nothing, where something came."""
        return str(self.line.get("text", ""))


class NoteChanges:
    """What changed of an open note, in an editor's units, as far as it was told."""

    def __init__(self) -> None:
        # In their order; None while nobody wants to see them.
        self.found: list[PlacedChange] | None = None
        # When the user looked; 0 where that never was.
        self.since = 0
        self._is_due = self._asked = False

    def want(self) -> None:
        """Has them be asked for."""
        self._is_due = True

    def drop(self) -> None:
        """Has them be shown no more."""
        self.found, self._is_due = None, False

    def ask(self, version: int, is_settled: bool, send: Callable[[Line], None]) -> None:
        """Asks for them where somebody wants to see them, and all edits are answered."""
        if self._is_due and not self._asked and is_settled:
            self._is_due, self._asked = False, True
            send({"do": "changed", "id": "changed", "version": version, "since": "looked"})

    def take(self, line: Line, made: int) -> None:
        """Takes in a line of the engine's."""
        if line.get("answer") != "changed":
            return
        self._asked = False
        if "error" in line:
            return
        if line["edits"] != made:
            # It crossed an edit.
            self._is_due = True
            return
        came = [PlacedChange(one["begin"], one["end"], one) for one in line["came"]]
        went = [PlacedChange(one["at"], one["at"], one) for one in line["went"]]
        self.found, self.since = sorted(came + went, key=lambda one: one[:2]), line["since"]

    def ended(self) -> None:
        """Asks again, if something was asked of an engine that ended."""
        self._asked, self._is_due = False, self._is_due or self._asked

    def follow(self, change: Change) -> None:
        """Moves all along with a change of the text; of what came and is gone nothing is left."""
        if self.found is not None:
            moved = [one._replace(begin=begin, end=end) for one in self.found for begin, end in [stretch_after(*one[:2], change)]]
            self.found = [one for one in moved if one.begin < one.end or one.gone]
