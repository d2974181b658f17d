"""What is asked of the engine about a note's margin, and the words that are kept to be put elsewhere."""
from share.editors.note import EngineNote
from share.editors.terminal.clipboard import Clipboard
from share.editors.terminal.status_line import StatusLine
from share.editors.terminal.work import Work
from share.text.line import Line

KEPT = "^V puts what you wrote."


class Requests:
    """The requests about the margin."""

    def __init__(self, note: EngineNote, work: Work, line: StatusLine, clipboard: Clipboard):
        self._note, self._work, self._line, self._clipboard = note, work, line, clipboard

    def ask(self, what: str, **more: object) -> Line | None:
        """What the engine answers; None where it refuses. Words that it doesn't take aren't lost."""
        answer = self._work.edit(lambda: self._note.say(what, **more))
        words = str(more.get("body") or more.get("new") or "")
        if words and answer is None:
            self._clipboard.text = words
            self._line.add(f"You wrote: {words}" if self._work.failure else KEPT)
        return answer
