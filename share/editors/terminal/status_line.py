"""What the status line says, in words."""
import time

from share.editors.terminal.screen import Screen
from share.editors.terminal.waiting import HANGING_SECONDS
from share.program import retyping
from share.sync.session import Status
from share.text.errors import Trouble, counted

# How long a sentence is shown at least, though keys are pressed.
NOTICE_SECONDS = 3
HELP = "^Z undo  ^Y redo  ^F find  ^S save  ^Q quit"
BAR_COLUMNS = 30


def state(status: Status) -> str:
    """Whether what was typed is sent, in words."""
    if not status.has_log:
        return "kept here"
    if status.offline:
        return f"offline, {counted(status.unsent, 'edit')} kept"
    if status.reading:
        return f"reading {percent(*status.reading)}"
    return f"sending {counted(status.unsent, 'edit')}" if status.unsent else "all sent"


def state_of_others(status: Status) -> str:
    """Whether something of the others lacks what it builds on, or was left out, whether they go on elsewhere, and whether
    the program isn't proved, in words."""
    waiting = f"  {counted(status.waiting, 'message')} incomplete" if status.waiting else ""
    left_out = f"  left out: {retyping.whose_in_words(status.left_out)}" if status.left_out else ""
    renewed = f"  renewed by {retyping.called(status.renewed)}" if status.renewed else ""
    return waiting + left_out + renewed + ("  not proved" if status.unproved else "")


def bar(done: int, total: int) -> str:
    """A bar of what was done of all."""
    full = BAR_COLUMNS * done // max(1, total)
    return f"[{'#' * full}{'.' * (BAR_COLUMNS - full)}] {percent(done, total)}"


def percent(done: int, total: int) -> str:
    """What was done of all."""
    return f"{100 * done // max(1, total)}%"


def sentence(why: BaseException) -> str:
    """What went wrong, in words."""
    return str(why) if isinstance(why, Trouble) else f"Something failed inside ({type(why).__name__}: {why})."


class StatusLine:
    """The words of the moment: a notice, what is waited for and what went wrong, or else how the note is."""

    def __init__(self, name: str, screen: Screen):
        self.name, self._screen = name, screen
        self._notice, self._noticed_at = "", 0.0
        # In which the editor is, if in one.
        self.mode = ""

    def say(self, words: str) -> None:
        """Shows a notice."""
        self._notice, self._noticed_at = words, time.monotonic()

    def add(self, words: str) -> None:
        """Shows more behind the notice that there is."""
        self.say(f"{self._notice} {words}".strip())

    def before(self, words: str) -> str:
        """Words behind the notice that there is."""
        return f"{self._notice} {words}".strip()

    def forget_notice(self) -> None:
        """Drops the notice, once it could be read."""
        if time.monotonic() >= self._noticed_at + NOTICE_SECONDS:
            self._notice = ""

    def words(self, status: Status, silent: float, failure: BaseException | None, keys: str = "",
              remarks: int = 0) -> tuple[str, str]:
        """What is said to the left and to the right. The note has been silent for some seconds, and may have failed; keys may have another
        meaning, and remarks be open."""
        parts = self._notice, self._waits(silent), _trouble(status, failure)
        if words := " ".join(part for part in dict.fromkeys(parts) if part):
            return words, ""
        if keys:
            return keys, ""
        site = f"site {status.site}" if status.can_type else "no number yet"
        mode = f"  {self.mode}" if self.mode else ""
        return f"{self.name}{mode}  {site}  {status.on} on  {state(status)}{_remarks(remarks)}{state_of_others(status)}", HELP

    def _waits(self, silent: float) -> str:
        """What is waited for."""
        if silent and self._screen.progress:
            return f"{self.name}  catching up  {bar(*self._screen.progress)}"
        if silent >= HANGING_SECONDS:
            return f"Waiting for {counted(int(silent), 'second')}. ^S saves the text as shown, ^Q quits."
        if self._screen.keyboard.paste:
            return f"Pasting: {counted(self._screen.keyboard.paste.size, 'byte')} so far."
        return ""


def _remarks(many: int) -> str:
    return f"  {counted(many, 'remark')}" if many else ""


def _trouble(status: Status, failure: BaseException | None) -> str:
    """What needs the user's attention."""
    if failure:
        return f"{sentence(failure)} Nothing more can be typed here. ^S saves the text, ^Q quits."
    return status.trouble or ""
