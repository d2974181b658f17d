"""Saving the text as a file."""
from collections.abc import Callable

from share.editors.terminal.prompts import Prompts
from share.editors.terminal.status_line import StatusLine, sentence
from share.editors.terminal.view import View
from share.editors.terminal.waiting import Waiting
from share.editors.terminal.worker import Returned, Worker
from share.store import atomic
from share.text.change import LINE_END


class Saving:
    """Saves the text as it is shown, one file at a time, also while the note hangs."""

    def __init__(self, view: View, line: StatusLine, prompts: Prompts, waiting: Waiting):
        self._view, self._line, self._prompts, self._waiting = view, line, prompts, waiting
        self._files, self._is_saving = Worker(), False

    def ask(self) -> None:
        """Asks for the file's name."""
        self._prompts.ask("Save as", self._save, f"{self._line.name}.txt", needs_no_note=True)

    def _save(self, path: str) -> None:
        if not path:
            return
        there = self._on_disk(lambda: atomic.exists(path))
        if there:
            self._prompts.ask(f"{path} exists. Replace it (yes or no)",
                              lambda answer: self._store(path) if answer in ("y", "yes") else None, needs_no_note=True)
        elif there is False:
            self._store(path)

    def _store(self, path: str) -> None:
        data = self._view.text.replace(LINE_END, b"\n")
        if saved := self._on_disk(lambda: atomic.save(path, data)):
            self._line.say(f"Saved as {saved}.")

    def _on_disk(self, work: Callable[[], Returned]) -> Returned | None:
        """What the disk gives; None where it fails, which is reported."""
        if self._is_saving:
            self._line.say("Not saved: the save before it isn't done yet.")
            return None
        self._is_saving = True
        future = self._files.do(work)
        self._waiting.until_done(future)
        self._is_saving = False
        if not (why := future.exception()):
            return future.result()
        self._line.say(sentence(why))
        return None
