"""What the note is asked to do, in a thread of its own."""
from collections.abc import Callable
from concurrent.futures import Future

from share.editors.note import EngineNote
from share.editors.terminal.clipboard import Clipboard
from share.editors.terminal.screen import Screen
from share.editors.terminal.status_line import StatusLine
from share.editors.terminal.view import View
from share.editors.terminal.waiting import Waiting
from share.editors.terminal.worker import Returned, Worker
from share.sync.number_search import NONE_FOUND_YET
from share.sync.session import Status
from share.text.errors import Refused

CANT_TYPE = "You can't type yet: this editor has no number of its own, which it gets once the log answers."


class Work:
    """Runs the note's work, one thing after another; what fails ends the editing."""

    def __init__(self, note: EngineNote, status: Status, thread: Worker, screen: Screen, waiting: Waiting, view: View,
                 line: StatusLine, clipboard: Clipboard):
        self.status, self._clipboard = status, clipboard
        # What ended the editing: the text can be moved in and saved then, and no more.
        self.failure: BaseException | None = None
        self._note, self._thread, self._screen = note, thread, screen
        self._waiting, self._view, self._line = waiting, view, line

    def do(self, work: Callable[[], Returned]) -> Returned | None:
        """Runs work of the note's, and gives what that gives; None where it failed."""
        if self.failure:
            return None
        future = self._thread.do(work)
        self._waiting.until_done(future)
        self._screen.progress = None
        self._view.look()
        if self._note.notice:
            self._line.say(self._note.notice)
            self._note.notice = ""
        if self._note.unmade:
            self._clipboard.text, self._note.unmade = self._note.unmade, ""
        if not (why := future.exception()):
            return future.result()
        if isinstance(why, Refused):
            self._line.say(str(why))
        else:
            self.stop(why)
        return None

    def edit(self, work: Callable[[], Returned]) -> Returned | None:
        """Makes an edit, where one can be made."""
        return self.do(work) if self.may_edit() else None

    def may_edit(self) -> bool:
        """Whether an edit can be made; says so where none can."""
        if not self.status.can_type:
            self._line.say(self.status.trouble or (NONE_FOUND_YET if self.status.searching else CANT_TYPE))
        return self.status.can_type and not self.failure

    def take_in(self) -> None:
        """Takes in what came from others."""

        def taken_in() -> None:
            self._note.take_in()
            self.status = self._note.session.status()

        self.do(taken_in)

    def close(self) -> "Future[None]":
        """Closes the note, after all that it was asked to do."""
        closing = self._thread.do(self._note.session.close)
        closing.add_done_callback(lambda _: self._screen.wake())
        return closing

    def stop(self, why: BaseException) -> None:
        """Ends the editing; the first reason counts."""
        self.failure = self.failure or why
