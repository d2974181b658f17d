"""Edits of the note, and what was cut or copied."""
from share.editors.note import EngineNote
from share.editors.terminal.keys import Pasted
from share.editors.terminal.layout import cluster_after, cluster_before
from share.editors.terminal.prompts import Prompts
from share.editors.terminal.clipboard import Clipboard
from share.editors.terminal.status_line import StatusLine
from share.editors.terminal.suggesting import Suggesting
from share.editors.terminal.view import View
from share.editors.terminal.work import Work
from share.text.change import LINE_END
from share.text.errors import counted


class Edits:
    """What keys change in the note."""

    def __init__(self, note: EngineNote, work: Work, view: View, line: StatusLine, prompts: Prompts, clipboard: Clipboard,
                 suggesting: Suggesting):
        self._note, self._work, self._view, self._line, self._prompts = note, work, view, line, prompts
        self._clipboard, self._suggesting = clipboard, suggesting
        # Whether what is cut next to a line's end goes on with what was cut last.
        self._kills = False

    def type(self, characters: str) -> None:
        """Types characters, if there are any."""
        if characters and self._suggesting.is_on:
            self._suggesting.take(*(self._view.selected() or (self._view.cursor, self._view.cursor)), characters)
        elif characters:
            self._work.edit(lambda: self._note.type(characters))

    def paste(self, pasted: Pasted) -> None:
        """Types what was pasted as an edit of its own."""
        self._view.go_to(self._view.cursor)
        self.type(pasted.text)
        self._view.go_to(self._view.cursor)
        if pasted.too_long:
            self._line.say("Nothing was pasted: it is longer than a note can be.")
        elif pasted.dropped:
            self._line.say(f"Pasted without {counted(pasted.dropped, 'control character')}.")

    def copy(self) -> None:
        """Keeps what is selected, to be put elsewhere."""
        if stretch := self._view.selected():
            self._clipboard.text = self._view.text[slice(*stretch)].decode("utf-8", "ignore")
        self._view.unmark()

    def cut(self) -> None:
        """Keeps what is selected, and deletes it."""
        if stretch := self._view.selected():
            self.copy()
            self._erase(*stretch)

    def kill(self) -> None:
        """Keeps what is left of the line, or its end where nothing is, and deletes it; what is killed in one go is kept together."""
        text, begin = self._view.text, self._view.cursor
        end = text.find(LINE_END, begin)
        end = len(text) if end < 0 else end + (end == begin)
        self._clipboard.text = (self._clipboard.text if self._kills else "") + text[begin:end].decode("utf-8", "ignore")
        self._kills = True
        self._erase(begin, end)

    def end_kill(self) -> None:
        """What is killed next is kept by itself."""
        self._kills = False

    def put(self) -> None:
        """Types what was cut or copied last, or written in vain."""
        if self._clipboard.text:
            self.paste(self._clipboard.pasted())

    def backspace(self) -> None:
        """Deletes what is selected, or the character before the cursor."""
        end = self._view.cursor
        if stretch := self._view.selected():
            self._erase(*stretch)
        else:
            self._erase(cluster_before(self._view.text, end), end, 1)

    def delete(self) -> None:
        """Deletes what is selected, or the character after the cursor."""
        begin = self._view.cursor
        self._erase(*self._view.selected() or (begin, cluster_after(self._view.text, begin)))

    def undo(self) -> None:
        """Takes back this editor's last edit, or suggestion."""
        if self._suggesting.is_on:
            self._suggesting.take_back()
        elif self._work.edit(self._note.take_back) is False:
            self._line.say("You have made no edit since the note was opened that could be taken back.")

    def redo(self) -> None:
        """Does again what was taken back last."""
        if self._work.edit(self._note.do_again) is False:
            self._line.say("You have taken nothing back that could be done again.")

    def ask_for_replacement(self, old: str) -> None:
        """Asks what is to be put in the place of some words."""
        if old:
            self._prompts.ask(f"Replace {old} by", lambda new: self._replace(old, new))

    def _replace(self, old: str, new: str) -> None:
        """Puts words in the place of others, as one edit."""
        if self._suggesting.is_on:
            self._suggesting.replace(old, new)
            return
        many = self._work.edit(lambda: self._note.replace(old, new))
        if many is not None:
            self._line.say(f"Replaced {counted(many, 'time')}." if many else f"{old!r} isn't in the note.")

    def _erase(self, begin: int, end: int, back: int = 0) -> None:
        """Deletes a stretch, by a key that may delete backwards."""
        if self._suggesting.is_on:
            self._suggesting.take(begin, end, "", back)
        else:
            self._work.edit(lambda: self._note.erase(begin, end))
