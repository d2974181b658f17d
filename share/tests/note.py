"""A note that a test has opened: its text, a cursor, and what this site can take back."""
import re
from collections.abc import Callable
from dataclasses import dataclass
from typing import Any

from share.format.operation import DELETE, RESTORE, Operation
from share.program.site import Edited, Site, Told
from share.text.change import LINE_END, Change, boundary, change, make
from share.text.errors import Refused, Trouble
from share.text.names import Names


@dataclass
class Undo:
    """What takes an own edit back: messages of a kind, each of these names."""

    kind: int
    names: list[list[Names]]


class Note:
    """The text as this site shows it. Positions count bytes, and stand between characters."""

    # A session, or what a test has in place of one.
    def __init__(self, session: Any):
        self.session = session
        self.text = bytearray(session.text())
        self.cursor = self.top = 0
        # What the user was told last, and all of it.
        self.notice, self.told = "", list[str]()
        self._number = session.number
        self._done: list[Undo] = []
        # Whether what is typed next goes on with what was typed last, and is taken back with it.
        self._goes_on = False

    def type(self, characters: str) -> None:
        """Types characters at the cursor. What is typed in one go, up to a line end, is taken back as one."""
        data = re.sub("\r\n|\n", "\r", characters).encode("utf-8", "ignore")
        messages = self._edited(lambda: self.session.insert(self.cursor, data))
        if messages is None:
            return
        for message in messages:
            self._typed(message)
        self._shows([Change(self.cursor, self.cursor, data)], follow=True)
        self._goes_on = not data.endswith(LINE_END)

    def erase(self, begin: int, end: int) -> None:
        """Deletes a stretch."""
        if begin == end:
            return
        messages = self._edited(lambda: self.session.cut(begin, end))
        if messages is None:
            return
        self._done.append(Undo(RESTORE, [[*message.names] for message in reversed(messages)]))
        self._shows([Change(begin, end, b"")], follow=True)

    def take_back(self) -> bool:
        """Takes back this site's last edit that stands, by names: nobody else's is touched. False where there
        is none."""
        self._forget_names_of_others()
        if not self._done:
            return False
        undo = self._done.pop()
        for done, names in enumerate(undo.names):
            told: list[Told] = []
            if self._edited(lambda: self.session.edit(lambda site: self._named(site, undo.kind, names, told))) is None:
                # What was refused, and what comes after it, can be taken back later.
                self._done.append(Undo(undo.kind, undo.names[done:]))
                return True
            self._shows(told[0], follow=True)
        self._goes_on = False
        return True

    def take_in(self) -> bool:
        """Takes in what came from the others; whether the text changed."""
        changed = self._shows(self.session.arrived())
        self._forget_names_of_others()
        if notices := self.session.notices():
            self.told += notices
            self.notice = notices[0] + (f" ({len(notices) - 1} more such.)" if len(notices) > 1 else "")
        return changed

    def moved_to(self, position: int) -> None:
        """Puts the cursor at a position. What is typed there is an edit of its own."""
        self.cursor, self._goes_on = position, False

    def as_file(self) -> bytes:
        """The text as a file of this system, with its line ends."""
        return bytes(self.text).replace(LINE_END, b"\n")

    def _typed(self, message: Operation) -> None:
        (names,) = message.names
        if self._goes_on and self._done and self._done[-1].kind == DELETE:
            ((before,),) = self._done[-1].names
            self._done[-1].names = [[before._replace(length=before.length + names.length)]]
        else:
            self._done.append(Undo(DELETE, [[names]]))
        self._goes_on = True

    @staticmethod
    def _named(site: Site, kind: int, names: list[Names], told: list[Told]) -> Edited:
        edited, changed = (site.delete if kind == DELETE else site.restore)(names)
        told.append(changed)
        return edited

    def _edited(self, edit: Callable[[], Edited]) -> list[Operation] | None:
        """The messages of an edit; None where it was refused or couldn't be kept, or was done in part: the text
        is the program's then."""
        self._forget_names_of_others()
        try:
            edited = edit()
            if edited.refused is None:
                return edited.messages
            self.notice = str(Refused(edited.refused))
        except Trouble as why:
            self.notice = str(why)
        self._goes_on = False
        self._shows(self.session.text(), follow=True)
        return None

    def _shows(self, told: Told, follow: bool = False) -> bool:
        """Takes over what the text has become; whether it changed. The cursor stays with its character, or
        follows the last change."""
        if not isinstance(told, list):
            told = [change(self.text, told)] if told != self.text else []
        if not told:
            return False
        for one in told:
            self.cursor, self.top = one.moved(self.cursor), one.moved(self.top)
        make(self.text, told)
        if follow:
            self.cursor = told[-1].begin + len(told[-1].new)
        self.cursor, self.top = boundary(self.text, self.cursor), boundary(self.text, self.top)
        return True

    def _forget_names_of_others(self) -> None:
        # Under a new site number the names of what was typed before are another client's.
        if self.session.number != self._number:
            self._number, self._done, self._goes_on = self.session.number, [], False
