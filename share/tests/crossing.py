"""People who edit a note at the same time, each with an engine over the real program and some editors: what they do arrives when the
test says so."""
import json
import math
import random
from collections import deque
from typing import cast

from share.editors.mirror import Mirror, TextChange
from share.engine.editor import Peer
from share.engine.engine import Engine
from share.format.entry import Entry, Plain
from share.sync.session import Session
from share.tests.support import Carried
from share.text.change import Change, change
from share.text.line import Line
from share.text.rope import readable, swapped
from share.text.units import UNITS, Units


class Meeting(Carried):
    """A note's session that an engine can have open."""

    turn_seconds, can_type = math.inf, True

    def differing(self, before: bytes, now: bytes) -> list[Change]:
        """What differs between two texts."""
        return [change(before, now)]

    def show(self, _: dict[bytes, bytes]) -> list[bytes]:
        """What others show of themselves: nothing."""
        return []

    def token(self) -> bytes:
        """What tells this session from others."""
        return bytes(16)

    def is_own(self, site: int) -> bool:
        """Whether a number is this one's."""
        return site == self.number

    def lost(self) -> list[Line]:
        """What was left out: nothing."""
        return []

    def has_more(self) -> bool:
        """Whether something is still to be taken in."""
        return False

    def tidy(self) -> None:
        """Does what can be done while there is time: nothing."""


class Hand(Mirror):
    """An editor with a place in its text, which stays before what comes in there."""

    place = 0

    def follow(self, begin: int, end: int, data: bytes) -> None:
        """Moves the place along."""
        if self.place > begin:
            self.place = max(begin, self.place - end + begin) + (self.units.count(data) if self.place >= end else 0)


class Editor:
    """An editor at an engine, with lines on their way both ways."""

    def __init__(self, engine: Engine, units: Units):
        self.engine, self.to_engine, self.to_editor = engine, deque[bytes](), deque[Line]()
        self.peer: Peer = engine.joined(lambda data: self.to_editor.append(json.loads(data)), lambda: 0)
        self._send({"do": "open", "protocol": 1, "units": [units.name]})
        self.hand = Hand(self.opened(), self._send)

    def _send(self, line: Line) -> None:
        self.to_engine.append(json.dumps(line).encode())

    def opened(self) -> Line:
        """The answer to the opening."""
        self.asks()
        while "units" not in (line := self.to_editor.popleft()):
            pass
        return line

    def edit(self, begin: int, end: int, text: str) -> None:
        """Replaces code points, and goes on behind them."""
        self.edits([(begin, end, text)])

    def edits(self, changes: list[TextChange]) -> None:
        """Makes changes of code points as one edit, the last of which says where it goes on."""
        units, text, found = self.hand.units, self.hand.text, list[TextChange]()
        for begin, end, new in changes:
            first, last = (units.count(units.encode(text[:place])) for place in (begin, end))
            found.append((first, last, new))
            text = text[:begin] + new + text[end:]
        self.hand.edit(found)
        self.hand.place = found[-1][0] + units.count(units.encode(found[-1][2]))

    def at(self) -> int:
        """Its place in code points."""
        units = self.hand.units
        return len(units.decode(units.encode(self.hand.text)[:units.size * self.hand.place]))

    def cursor(self, at: int, anchor: int | None = None) -> None:
        """Says where its cursor is, and the other end of a selection."""
        line = {"do": "cursor", "version": self.hand.version, "at": at}
        self._send(line if anchor is None else line | {"anchor": anchor})

    def undo(self, what: str = "undo") -> None:
        """Takes back its last edit, or does it again."""
        self._send({"do": what})

    def asks(self) -> None:
        """Its lines arrive at the engine."""
        waiting: list[bytes | None] = [*self.to_engine]
        self.to_engine.clear()
        while waiting:
            self.engine.take(self.peer, waiting)
        self.engine.turn()

    def reads(self) -> None:
        """The engine's lines arrive."""
        while self.to_editor:
            self.hand.take(self.to_editor.popleft())


class Writer:
    """Somebody with a note open in two editors."""

    def __init__(self, form: Plain, number: int, chance: random.Random):
        self.session = Meeting(form, number)
        self.engine = Engine("note", lambda: cast(Session, self.session), lambda: None)
        self.editors = [Editor(self.engine, chance.choice([*UNITS.values()])) for _ in range(2)]

    def hears(self, entries: list[Entry]) -> None:
        """Others' entries arrive."""
        self.session.coming = entries
        self.engine.turn()


def settled(writers: list[Writer]) -> str:
    """The text once all has arrived everywhere, which all show."""
    for _ in range(2):
        for writer in writers:
            for editor in writer.editors:
                editor.asks()
        made = [entry for writer in writers for entry in writer.session.made]
        for writer in writers:
            writer.hears(made)
            for editor in writer.editors:
                editor.reads()
    texts = {editor.hand.text for writer in writers for editor in writer.editors}
    assert len(texts) == 1, texts
    (text,) = texts
    for writer in writers:
        assert readable(swapped(writer.session.text())) == text
    return text
