"""A mode in which what one types and deletes is suggested, and not done."""
import time
from collections.abc import Sequence

from share.editors.note import EngineNote, occurrences, typed_text
from share.editors.suggesting import Gathered, Meant
from share.editors.terminal.keys import safe_for_terminal
from share.editors.terminal.requests import Requests
from share.editors.terminal.status_line import StatusLine
from share.editors.terminal.view import View
from share.editors.terminal.work import Work
from share.editors.threads import replaced_in_lines
from share.engine.coalescing import pause_seconds
from share.text.errors import counted
from share.text.rope import readable, swapped

# The silence that ends a suggestion, as in all editors, unless this person has set another one.
REST_SECONDS = 4.0
IS_ON = "What you type and delete is suggested now. M-u ends that, ^Z takes the last suggestion back."


class Suggesting:
    """The mode, and what is gathered in it."""

    def __init__(self, note: EngineNote, work: Work, view: View, line: StatusLine, requests: Requests):
        self._note, self._work, self._view, self._line, self._requests = note, work, view, line, requests
        self.is_on = False
        # The suggestions that were made in the mode; and when something was gathered last.
        self._made = list[str]()
        self._rest, self._gathered_at = pause_seconds(REST_SECONDS), 0.0

    def toggle(self) -> None:
        """Begins the mode, or ends it."""
        self.end()
        self.is_on = not self.is_on
        self._line.mode = "suggesting" if self.is_on else ""
        self._line.say(IS_ON if self.is_on else "What you type is done again.")

    def take(self, begin: int, end: int, characters: str, back: int = 0) -> None:
        """Has what a key would do be suggested, which may be some signs backwards."""
        self._view.unmark()
        if not self._work.may_edit():
            return
        done, cursor = self._note.gathering.add(Meant(begin, end, typed_text(characters), back))
        self._gathered_at = time.monotonic()
        self._view.go_to(cursor)
        if done:
            self._send(done)

    def take_back(self) -> None:
        """Drops what is gathered, or takes back the last suggestion that was made in the mode."""
        if self._note.gathering.taken():
            self._view.look()
        elif not self._made:
            self._line.say("You have suggested nothing here that could be taken back.")
        elif self._requests.ask("withdraw", to=self._made[-1]):
            self._made.pop()
            self._line.say("Taken back.")

    def replace(self, old: str, new: str) -> None:
        """Suggests words in the place of others, wherever those stand."""
        self.end()
        made = self._work.edit(lambda: self._note.suggest_all(occurrences(bytes(self._note.text), old, new)))
        if made is not None:
            self._made += made
            self._line.say(f"Suggested {counted(len(made), 'time')}." if made else f"{old!r} isn't in the note.")

    def look(self) -> None:
        """Sends what is gathered, where the user has gone elsewhere, or types no more."""
        one = self._note.gathering.now
        if one and not (one.begin <= self._view.cursor <= one.end and time.monotonic() < self._gathered_at + self._rest):
            self.end()

    def end(self) -> bool:
        """Sends what is gathered; whether nothing of it is left to be said."""
        one = self._note.gathering.taken()
        return one is None or self._send(one)

    def _send(self, one: Gathered) -> bool:
        answer = self._requests.ask("suggest", begin=one.begin, end=one.end, new=one.new)
        if answer:
            self._made.append(answer["thread"])
        return answer is not None

    def shown(self) -> tuple[int, Sequence[str]] | None:
        """What is gathered, as it is shown below its line."""
        one = self._view.gathered
        if one is None:
            return None
        old = readable(swapped(self._view.text[one.begin:one.end]))
        return one.end, [f"  | {safe_for_terminal(line)}" for line in replaced_in_lines(old, one.new)]
