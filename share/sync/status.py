"""What a user is told of a note: how things are, and what has happened."""
from collections.abc import Iterable
from dataclasses import dataclass, field

from share.format.operation import Operation
from share.program.site import is_nearly_full
from share.text.errors import BEGUN, entries
from share.text.line import Line


@dataclass
class Status:
    """What the status line says."""

    site: int
    on: int
    unsent: int
    offline: str | None
    waiting: int
    trouble: str | None = None
    can_type: bool = True
    has_log: bool = True
    # How many entries were read of those that the log had at opening, and how many these are; nothing once all were taken in.
    reading: tuple[int, int] | None = None
    # How much was left out for good, and of which sites; and who says that the note was renewed.
    left_out: list[Line] = field(default_factory=list)
    renewed: Line | None = None
    # Whether the program is one that isn't proved.
    unproved: bool = False
    # Whether this editor has no number, and one is being searched for.
    searching: bool = False


class Notices:
    """What the user is to be told, each thing once. The editor's thread alone calls it."""

    def __init__(self) -> None:
        # What of this editor's edits couldn't be kept or rebased yet.
        self.trouble: str | None = None
        self._waiting: list[str] = []
        self._wrong: set[tuple[int, int]] = set()
        self._once: set[str] = set()
        # How many entries had no room when that was last told; and why what the note begins with isn't here, as far as it was told.
        self._without_room, self._not_begun = 0, ""

    def tell(self, words: str) -> None:
        """Tells the user something."""
        self._waiting.append(words)

    def tell_once(self, words: str) -> None:
        """Tells the user something that isn't told again."""
        if words not in self._once:
            self._once.add(words)
            self.tell(words)

    def tell_of_begin(self, why_not: str) -> None:
        """Tells why what the note begins with isn't here, and then that it has come."""
        if why_not != self._not_begun:
            self._not_begun = why_not
            self.tell(why_not or BEGUN)

    def tell_of_fullness(self, many: int, name: str) -> None:
        """Tells once that a note of a name has nearly as many messages as it can have."""
        if is_nearly_full(many) and "" not in self._once:
            self._once.add("")
            self.tell(f"This note has {many:,} messages, a keystroke being one, and is nearly full. bin/note renew {name} --fresh makes "
                      "a new note of its text.")

    def tell_of_room(self, many: int) -> None:
        """Tells of entries that are in the file alone, since too many came that don't count; again where they are ten times
        as many."""
        if many > 10 * self._without_room:
            self._without_room = many
            self.tell(f"{entries(many)} wait in the note's file, since too many came that don't count yet.")

    def tell_of_wrong(self, messages: Iterable[Operation]) -> None:
        """Tells once of each wrong message."""
        for message in messages:
            if (message.site, message.seq) not in self._wrong:
                self._wrong.add((message.site, message.seq))
                self.tell(f"Message {message.seq} of site {message.site} is wrong, and was left out with what builds on it.")

    def take(self) -> list[str]:
        """What is to be told since this was last asked."""
        told, self._waiting = self._waiting, []
        return told
