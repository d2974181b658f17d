"""A script's way to a note: by the engine that has it open, where one does, so that no number is spent; else by the
file here. Both are spoken to as docs/ENGINE.md has it."""
import math
import socket
import time
from collections import deque
from collections.abc import Callable, Iterator
from contextlib import contextmanager
from typing import Protocol

from share.editors.mirror import Mirror, TextChange
from share.editors.threads import THREADS_AT_ONCE
from share.engine import protocol, server
from share.engine.engine import Engine
from share.log.bell import Bell
from share.log.polling import can_read
from share.sync.number_search import NONE_FOUND_YET
from share.sync.session import SEND_SECONDS, Session
from share.text.errors import Trouble
from share.text.line import MOST_LINE, PIECE, Assembler, Line

# How long an engine may take for an answer, and a log that isn't away for a number; and for how long one is waited for while that is away,
# or none can be found.
ENGINE_SECONDS, GET_NUMBER_SECONDS = 120.0, 5.0
# After this long, and each time again, it is told what is waited for.
TELL_SECONDS = 1.0
RECEIVE_SECONDS = 0.02
NOT_READ_YET = "The log is being read, before which nothing can be typed here."
# How often threads are asked for again where the text changed meanwhile.
ASK_AGAIN = 10
OpensSession = Callable[[Callable[[], None]], Session]
# Is told, again and again, what is waited for, if something is to be said; what it raises ends that.
WaitsFor = Callable[[str], None]


class RequestRefused(Trouble):
    """A request that is answered by an error, which has words."""

    def __init__(self, line: Line):
        super().__init__(line["words"])
        self.line = line


class Channel(Protocol):
    """What lines go through."""

    def send(self, data: bytes) -> None:
        """Sends a line."""

    def receive(self, seconds: float) -> bytes:
        """What has come, within some time; raises Trouble where nothing can come any more."""

    def close(self) -> None:
        """Ends it."""


class BySocket:
    """The way to an engine that runs."""

    def __init__(self, line: socket.socket):
        self._line = line

    def send(self, data: bytes) -> None:
        """Sends a line."""
        self._line.sendall(data)

    def receive(self, seconds: float) -> bytes:
        """What has come."""
        if not can_read(self._line, seconds):
            return b""
        if not (data := self._line.recv(PIECE)):
            raise Trouble("The note's engine has ended.")
        return data

    def close(self) -> None:
        """Ends it."""
        self._line.close()


class InPlace:
    """An engine in this process."""

    def __init__(self, name: str, opens: OpensSession):
        self._bell, self._out = Bell(), bytearray()
        self._engine = Engine(name, lambda: opens(self._bell.ring), self._bell.ring)
        self._peer = self._engine.joined(self._out.extend, lambda: 0)

    def send(self, data: bytes) -> None:
        """Does what a line says."""
        self._engine.take(self._peer, [data])

    def receive(self, seconds: float) -> bytes:
        """What came of it, and of others' edits."""
        self._engine.turn()
        if not (self._out or self._engine.has_more()) and self._bell.waits(min(seconds, RECEIVE_SECONDS)):
            self._bell.silence()
        data = bytes(self._out)
        self._out.clear()
        return data

    def close(self) -> None:
        """Closes the note."""
        self._engine.close()
        self._bell.close()


class ScriptNote:
    """A note that is open for a script."""

    def __init__(self, way: Channel, waits_for: WaitsFor = lambda what: None, name: str = ""):
        self._way, self._waits_for, self._asked = way, waits_for, 0
        # An engine's lines have no bound: one may have all the text.
        self._assembler = Assembler(None)
        # Lines that came and that nobody has looked at.
        self._lines: deque[Line] = deque()
        self.state: Line = {}
        # What the user is to be told.
        self.says: list[str] = []
        # The text, once it is open, with what others make of it; the script's own edit isn't in it.
        self._mirror: Mirror | None = None
        self.ask("open", protocol=1, units=["utf-32"], script=True, **({"name": name} if name else {}))

    def ask(self, what: str, **more: object) -> Line:
        """What a request is answered; Trouble where that is an error."""
        self._asked += 1
        self._send({"do": what, "id": self._asked, **more})
        answer = self._until(lambda line: line.get("id") == self._asked, ENGINE_SECONDS)
        if answer is None:
            raise Trouble("The note's engine doesn't answer.")
        if "error" in answer:
            raise RequestRefused(answer)
        return answer

    def write(self, what: str, **more: object) -> Line:
        """What a request is answered that says something of the note; it is on the disk then."""
        self._wait_for_number()
        return self.ask(what, **more)

    def write_at(self, what: str, place: Callable[[str], Line], **more: object) -> Line:
        """The same of a passage or place, which is looked for in the text as it is when something can be typed."""
        self._wait_for_number()
        assert self._mirror
        return self.ask(what, version=self.version, **place(self._mirror.text), **more)

    @property
    def version(self) -> int:
        """The version of the text that was read last."""
        version: int = self._mirror.version if self._mirror else 0
        return version

    def reviewed(self) -> tuple[str, list[Line]]:
        """The text as it is now, and all that is said of it, in the order of the places."""
        assert self._mirror
        for _ in range(ASK_AGAIN):
            found, version = list[Line](), self.version
            while True:
                answer = self.ask("remarks", version=self.version, most=THREADS_AT_ONCE, **{"from": len(found)})
                found += answer["threads"]
                if not answer["threads"] or len(found) >= answer["of"]:
                    break
            if len(found) == len(answer["threads"]) or version == self.version:
                return self._mirror.text, found
        raise Trouble("The note is changed so fast that what is said of it can't be read.")

    def edit(self, changes_of: Callable[[str], list[TextChange]]) -> int:
        """Changes the text, once, as it is when something can be typed; how many changes that takes. They are on the disk then."""
        self._wait_for_number()
        assert self._mirror
        changes = changes_of(self._mirror.text)
        if sum(len(protocol.serialize({"": text})) for _, _, text in changes) > MOST_LINE // 2:
            raise Trouble("This is more than a note takes at once.")
        if changes:
            self.ask("edit", version=self._mirror.version, edits=1, changes=changes)
        return len(changes)

    def recover(self) -> list[Line]:
        """Types again what was left out; what that was."""
        self._wait_for_number()
        found: list[Line] = self.ask("recover")["lost"]
        return found

    def is_sent(self) -> bool:
        """Whether all that was typed is sent, as soon as it is, or after some seconds; where there is no log nothing has
        to be."""
        # The state of after the edit comes before this is answered.
        self.ask("on")
        self._until(lambda line: self.state.get("log") != "sending", 0.1)
        if self.state.get("log") == "sending":
            self._until(lambda line: line.get("notice") == "state" and line["log"] != "sending", SEND_SECONDS)
        return self.state.get("log") in ("sent", "none")

    def _send(self, line: Line) -> None:
        self._way.send(protocol.serialize(line))

    def _wait_for_number(self) -> None:
        """Waits until something can be typed, and all is there of a log that is read first; but not for ever where nothing goes on that
        brings that."""
        if self.state.get("types"):
            return
        begun = now = time.monotonic()
        patience = 1.0
        while patience > 0 and not (self.state.get("types") and "read" not in self.state):
            before, state = now, self.state
            self._until(lambda line: line.get("notice") == "state", TELL_SECONDS)
            now = time.monotonic()
            patience -= (now - before) / _longest_wait(state)
            self._waits_for(_what_goes_on(state) if now >= begun + TELL_SECONDS else "")

    def _until(self, is_it: Callable[[Line], object], seconds: float) -> Line | None:
        """The first line that is the one; None where none comes. What comes after it isn't looked at."""
        end = time.monotonic() + seconds
        while time.monotonic() < end:
            if not self._lines:
                self._lines.extend(map(protocol.parse, self._assembler.lines(self._way.receive(RECEIVE_SECONDS))))
            while self._lines:
                line = self._lines.popleft()
                self._take(line)
                if is_it(line):
                    return line
        return None

    def _take(self, line: Line) -> None:
        if line.get("answer") == "open" and "error" not in line:
            self._mirror = Mirror(line, self._send)
        elif self._mirror:
            self._mirror.take(line)
        if line.get("notice") == "state":
            self.state = line
        elif line.get("notice") == "says":
            self.says.append(line["words"])


def _what_goes_on(state: Line) -> str:
    """What goes on that brings a number, in words, if something does, and nothing fails."""
    if state.get("log") == "away" or state.get("trouble") not in (None, NONE_FOUND_YET):
        return ""
    return NONE_FOUND_YET if state.get("searching") else NOT_READ_YET if "read" in state else ""


def _longest_wait(state: Line) -> float:
    """How long a number is waited for while things are so."""
    if _what_goes_on(state):
        return math.inf
    return GET_NUMBER_SECONDS if state.get("log") == "away" or "trouble" in state else ENGINE_SECONDS


def state_of_engine(line: socket.socket) -> Line:
    """How things are with a note that an engine has open, once all is sent or after some seconds."""
    way = BySocket(line)
    try:
        note = ScriptNote(way)
        note.is_sent()
        return note.state
    finally:
        way.close()


@contextmanager
def note_for_script(name: str, opens: OpensSession, waits_for: WaitsFor, own_name: str = "") -> Iterator[ScriptNote]:
    """A note, by its engine or by itself. What is said of it is said under a name."""
    way: Channel
    if line := server.connected(name):
        way = BySocket(line)
    else:
        way = InPlace(name, opens)
    try:
        yield ScriptNote(way, waits_for, own_name)
    finally:
        way.close()
