"""Engines that are killed at a given point of what they do, and editors that open again: each has a mirror of the text."""
import json
import os
import pathlib
import signal
import socket
import time
from collections.abc import Callable, Iterator
from contextlib import contextmanager
from functools import wraps
from typing import Any

from share.editors.mirror import Mirror, new_editor
from share.engine import server
from share.engine.engine import Engine
from share.engine.journal import Journal
from share.format.second.key_link import link_of
from share.log.folder import make_folder
from share.log.polling import can_read
from share.store import notes
from share.sync.edits import OwnEdits
from share.sync.session import Session
from share.tests.waiting import PATIENCE
from share.text.line import PIECE, Assembler, Line

NAME = "note"
# What an engine does between which it is killed: before and after each.
STEPS: list[tuple[Any, str]] = [(Engine, "take"), (Journal, "_append"), (OwnEdits, "keep"), (server.Connection, "send")]


class Events:
    """Counts what an engine does, and kills it as one is reached."""

    def __init__(self, last: int):
        self._left = last

    def happens(self) -> None:
        """Notes an event."""
        self._left -= 1
        if self._left == 0:
            os.kill(os.getpid(), signal.SIGKILL)

    def around(self, work: Callable[..., Any]) -> Callable[..., Any]:
        """Work with an event before it and one after it; none where nothing is to be sent."""
        @wraps(work)
        def done(*given: Any, **more: Any) -> Any:
            if isinstance(given[0], server.Connection) and not given[0].out:
                return work(*given, **more)
            self.happens()
            found = work(*given, **more)
            self.happens()
            return found
        return done


class House:
    """A person's data folder, with the engine of the note. Each engine is killed at an event, as long as some are given."""

    def __init__(self, data: pathlib.Path, url: str | None = None, link: str | None = None):
        self.data, self._url, self._link = data, url, link
        self.kills: Iterator[int] = iter(())
        self.killed = 0
        self._engine = 0

    @contextmanager
    def here(self) -> Iterator[None]:
        """What is opened meanwhile is of this person."""
        before = os.environ.get("VIALSHOAL_DATA")
        os.environ["VIALSHOAL_DATA"] = str(self.data)
        try:
            yield
        finally:
            os.environ.pop("VIALSHOAL_DATA") if before is None else os.environ.update(VIALSHOAL_DATA=before)

    def line(self) -> socket.socket:
        """A line to the engine, which is started where it isn't there."""
        with self.here():
            end = time.monotonic() + PATIENCE
            while not (line := server.connected(NAME)):
                if self._has_ended():
                    self._engine = self._started()
                assert time.monotonic() < end, "no engine came"
                time.sleep(0.005)
            return line

    def kill(self) -> None:
        """Kills the engine that runs."""
        if self._engine:
            os.kill(self._engine, signal.SIGKILL)
            os.waitpid(self._engine, 0)
            self._engine = 0

    def _has_ended(self) -> bool:
        """Whether no engine runs."""
        if self._engine and os.waitpid(self._engine, os.WNOHANG)[0]:
            self._engine = 0
            self.killed += 1
        return not self._engine

    def _started(self) -> int:
        last = next(self.kills, 0)
        make_folder(server.run_folder())
        if child := os.fork():
            return child
        try:
            os.setsid()
            os.closerange(3, 256)
            events = Events(last)
            for of, name in STEPS if last else []:
                setattr(of, name, events.around(getattr(of, name)))
            server.serve(NAME, self._opened)
        finally:
            os._exit(0)

    def _opened(self, bar: Callable[[int, int], None], wake: Callable[[], None]) -> Session:
        link = link_of(self._link) if self._link else None
        return Session(notes.open_note(NAME, self._url, link), None, bar, wake)


class Reopening:
    """An editor that opens again when its engine ends, and whose user types on meanwhile."""

    def __init__(self, house: House, of: str):
        self._house, self.of, self.editor = house, of, new_editor()
        self.lines: list[Line] = []
        self.says: list[str] = []
        # The edits that weren't carried over.
        self.unmade: list[Any] = []
        self.was_cut = 0
        self._mirror: Mirror | None = None
        self._open()

    @property
    def mirror(self) -> Mirror:
        """What it has of the text."""
        assert self._mirror
        return self._mirror

    @property
    def text(self) -> str:
        """What it shows."""
        return self.mirror.text

    def _open(self) -> None:
        while True:
            self._line, self._assembler, self.lines = self._house.line(), Assembler(None), []
            again = {"again": self.mirror.again()} if self._mirror else {}
            self.send({"id": 1, "do": "open", "protocol": 1, "units": ["utf-16"], "editor": self.editor, **again})
            if self._mirror:
                self.type_meanwhile()
            while self._receive(0.5):
                if answer := next((line for line in self.lines if line.get("id") == 1), None):
                    assert "error" not in answer, answer
                    self._opened(answer)
                    return
            self._line.close()

    def _opened(self, answer: Line) -> None:
        if self._mirror:
            self.unmade += self._mirror.opened_again(answer)
        else:
            self._mirror = Mirror(answer, self.send)
        for line in self.lines[self.lines.index(answer) + 1:]:
            self.mirror.take(line)

    def type_meanwhile(self) -> None:
        """Types something while the engine is away, unless its line was taken back."""
        self.was_cut += 1
        if f"{self.of}:" in self.text:
            self.type(f"{self.of}x{self.was_cut} ")

    def send(self, line: Line) -> None:
        """Sends a line, if anybody is there."""
        try:
            self._line.sendall(json.dumps(line).encode() + b"\n")
        except OSError:
            pass

    def _receive(self, seconds: float) -> bool:
        """Reads what comes within some time; whether the engine is there."""
        if not can_read(self._line, seconds):
            return True
        try:
            data = self._line.recv(PIECE)
        except OSError:
            return False
        new = [json.loads(line) for line in self._assembler.lines(data) if line]
        self.lines += new
        self.says += [line["words"] for line in new if line.get("notice") == "says"]
        if self._mirror and not self._mirror.is_away:
            for line in new:
                self._mirror.take(line)
        return bool(data)

    def look(self, seconds: float = 0.01) -> None:
        """Takes in what comes, and opens again where the engine ended."""
        if not self._receive(seconds):
            self._line.close()
            self.mirror.left()
            self.type_meanwhile()
            self._open()

    def type(self, words: str, at_once: bool = False) -> None:
        """Types at the end of its line, key by key."""
        for part in [words] if at_once else words:
            end = self.text.index("\n", self.text.index(f"{self.of}:"))
            self.mirror.edit([(end, end, part)])

    def type_first(self, words: str) -> None:
        """Types at the begin of its line, at once."""
        begin = self.text.index(f"{self.of}:") + 2
        self.mirror.edit([(begin, begin, words)])

    def rewrite(self, old: str, new: str) -> None:
        """Types words in the place of others, which are cut first."""
        begin = self.text.index(old)
        self.mirror.edit([(begin, begin + len(old), "")])
        self.mirror.edit([(begin, begin, new)])

    def own(self) -> str:
        """What stands in its line."""
        return next(line for line in self.text.split("\n") if line.startswith(f"{self.of}:"))[2:]

    def ask(self, what: str) -> Line | None:
        """What a request is answered; None where the engine ended meanwhile."""
        self.send({"do": what, "id": "asked"})
        cut = self.was_cut
        while cut == self.was_cut:
            if answer := next((line for line in self.lines if line.get("id") == "asked"), None):
                self.lines.remove(answer)
                return answer
            self.look()
        return None

    def close(self) -> None:
        """Ends its line."""
        self._line.close()
