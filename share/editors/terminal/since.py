"""What changed since the user looked, in the terminal: marked, and shown change by change."""
from datetime import datetime

from share.editors.note import EngineNote
from share.editors.since import PlacedChange
from share.editors.terminal.keys import safe_for_terminal
from share.editors.terminal.status_line import StatusLine
from share.editors.terminal.view import View
from share.text.change import boundary
from share.text.errors import counted
from share.text.line import Line

HELP_CHANGES = "F8, Shift-F8 go to the next change, the last; Esc shows them no more"


class ChangesSince:
    """The changes that are shown, and the one that was gone to."""

    def __init__(self, note: EngineNote, view: View, line: StatusLine):
        self._note, self._view, self._line = note, view, line
        self._waits = False
        # The number of the change that was gone to.
        self._at: int | None = None

    @property
    def is_on(self) -> bool:
        """Whether they are shown."""
        return self._view.changes is not None

    def step(self, by: int) -> None:
        """Shows them, or goes to the next one of those that are shown, or to the one before; from an end on at the other one."""
        found = self._view.changes
        if found is None:
            self._note.changes.want()
            self._waits, self._at = True, None
        elif found:
            self._at = self._next(found, by)
            self._view.go_to(boundary(self._view.text, min(found[self._at].begin, len(self._view.text))))
            self._line.say(f"{self._at + 1} of {counted(len(found), 'change')} {self._since()}. {HELP_CHANGES}")

    def _next(self, found: list[PlacedChange], by: int) -> int:
        cursor = self._view.cursor
        if self._at is not None and self._at < len(found) and found[self._at].begin == cursor:
            return (self._at + by) % len(found)
        before = sum(one.begin < cursor for one in found)
        return (before if by > 0 else before - 1) % len(found)

    def look(self) -> None:
        """Says how many there are, once that is known."""
        found = self._view.changes
        if self._waits and found is not None:
            self._waits = False
            if not found:
                self.close()
            self._line.say(f"{counted(len(found), 'change')} {self._since()}. {HELP_CHANGES}" if found
                           else f"Nothing has changed {self._since()}.")

    def close(self) -> None:
        """Shows them no more."""
        self._note.changes.drop()
        self._view.look()
        self._at = None

    def _since(self) -> str:
        time = self._note.changes.since
        return f"since you looked, {datetime.fromtimestamp(time):%Y-%m-%d %H:%M}" if time else "since the note began"

    def shown(self) -> tuple[int, list[str]] | None:
        """The change that was gone to, as it is shown below its line, as long as the cursor is there."""
        found = self._view.changes
        if not found or self._at is None or self._at >= len(found) or found[self._at].begin != self._view.cursor:
            return None
        one = found[self._at]
        lines = [_what_was_done(one), *(f"- {line}" for line in _lines_of(one.gone))]
        return one.begin, [f"  | {safe_for_terminal(line)}" for line in lines]


def _what_was_done(one: PlacedChange) -> str:
    """Who did what, and who wrote that, where it was somebody else."""
    by, is_own = one.line["by"], one.line["by"]["site"] == one.line["site"]
    did = "deleted this" if one.gone else "typed this" if is_own else "brought this back"
    return f"{_author(by)} {did}" + ("" if is_own else f", of {_author(one.line)}")


def _lines_of(text: str) -> list[str]:
    return text.split("\n") if text else []


def _author(line: Line) -> str:
    return str(line.get("name") or ("you" if line.get("own") else f"site {line['site']}"))
