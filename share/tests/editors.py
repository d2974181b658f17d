"""Editors of tests: each has an engine started as an editor does, by the real command, and a mirror of the text."""
import json
import os
import pathlib
import subprocess
import time
from collections.abc import Callable, Sequence
from typing import IO, Any

from share.editors.mirror import Mirror, TextChange
from share.engine.engine import Engine
from share.log.polling import can_read, ready
from share.store import notes
from share.sync.session import Session
from share.tests.support import NOTE, Case, engine_of
from share.tests.waiting import PATIENCE as PATIENCE
from share.tests.waiting import wait_for
from share.text.line import Line


def accepted(ask: Callable[..., Line], *whose: int, **more: object) -> Line:
    """What `accept` is answered once it names what is shown."""
    answer = ask("accept", *whose, **more)
    return ask("accept", *whose, **more, becomes=answer["becomes"]) if answer.get("error") == "changed" else answer


class Editor:
    """An editor without a screen."""

    def __init__(self, data: pathlib.Path, name: str = "note", units: str = "utf-16", link: str | None = None,
                 opens: bool = True, command: Sequence[str] = (NOTE,), **more: str):
        words = [*command, "engine", name]
        if "log" in more:
            words += ["--log", more.pop("log")]
        variables = {**os.environ, "VIALSHOAL_DATA": str(data)}
        variables.pop("VIALSHOAL_LINK", None)
        if link:
            variables["VIALSHOAL_LINK"] = link
        self.process = subprocess.Popen(words, env=variables, bufsize=0, stdin=subprocess.PIPE, stdout=subprocess.PIPE)
        assert self.process.stdin and self.process.stdout
        self._pipes: tuple[IO[bytes], IO[bytes]] = self.process.stdin, self.process.stdout
        self._in, self._out = (pipe.fileno() for pipe in self._pipes)
        self._coming = b""
        # Lines that came, oldest first, and those that nobody has looked at.
        self.lines: list[Line] = []
        self._mirror: Mirror | None = None
        # Whether lines are handed to the mirror as they come.
        self.listens = True
        if opens:
            answer = self.ask("open", protocol=1, units=[units], **more)
            assert "error" not in answer, answer
            self._mirror = Mirror(answer, self.send)
            for line in self.lines[self.lines.index(answer) + 1:]:
                self._mirror.take(line)

    @property
    def mirror(self) -> Mirror:
        """What it has of the note, once that is open."""
        assert self._mirror
        return self._mirror

    @mirror.setter
    def mirror(self, mirror: Mirror) -> None:
        self._mirror = mirror

    @property
    def text(self) -> str:
        """What it shows."""
        return self.mirror.text

    def send(self, line: Line) -> None:
        """Sends a line."""
        self.write(json.dumps(line).encode() + b"\n")

    def write(self, data: bytes) -> None:
        """Writes bytes, and reads meanwhile."""
        left = memoryview(data)
        while left:
            read, write = ready(PATIENCE, [self._out], [self._in])
            if write:
                left = left[os.write(self._in, left[:4_096]):]
            if read:
                self._receive()

    def ask(self, what: str, **more: object) -> Line:
        """What a request is answered."""
        given = f"{what}-{time.monotonic()}"
        self.send({"do": what, "id": given, **more})
        return self.wait_for(lambda: next((line for line in self.lines if line.get("id") == given), None),
                             f"an answer to {what}")

    def edit(self, *changes: TextChange, **more: object) -> None:
        """Makes an edit: changes as (begin, end, text)."""
        self.mirror.edit(changes, **more)

    def type(self, text: str) -> None:
        """Types at the end."""
        end = self.mirror.units.count(self.mirror.units.encode(self.text))
        self.edit((end, end, text))

    def gets_number(self, but: int | None = None) -> None:
        """Waits until something can be typed, under another number than one where that is given. What is typed before is taken out."""
        self.wait_for(lambda: self.state.get("types") and self.state["site"] != but, "a number")

    def settle(self) -> Line:
        """Waits until all edits are answered; the last answer."""
        mirror = self.mirror
        self.wait_for(lambda: mirror.answered == mirror.made, "all edits to be answered")
        return next(line for line in reversed(self.lines) if line.get("answer") == "edit" or not mirror.made)

    def wait_for(self, condition: Callable[..., Any], what: str) -> Any:
        """The condition's value, as soon as it is a true one."""
        end = time.monotonic() + PATIENCE
        while not (value := condition()):
            if time.monotonic() > end or self.process.poll() is not None and not self.read():
                raise AssertionError(f"waited {PATIENCE} seconds for {what}; the process's end: {self.process.poll()}; "
                                     f"the last lines: {str(self.lines[-5:])[-2_000:]}")
            self.read(0.02)
        return value

    def shows(self, text: str) -> None:
        """Waits until it shows a text."""
        try:
            self.wait_for(lambda: self.text == text, "a text")
        except AssertionError as why:
            raise AssertionError(f"shows {self.text[:500]!r} and not {text[:500]!r}; {str(self.lines[-5:])[-2_000:]}") from why

    @property
    def state(self) -> Line:
        """How things are, as it was told last."""
        return (self.notices("state") or [{}])[-1]

    def notices(self, kind: str) -> list[Line]:
        """The notices of a kind that came."""
        return [line for line in self.lines if line.get("notice") == kind]

    def read(self, seconds: float = 0.0) -> int:
        """Takes in what comes within some time; how many lines."""
        before = len(self.lines)
        while can_read(self._out, seconds) and self._receive():
            seconds = 0.0
        return len(self.lines) - before

    def _receive(self) -> bool:
        data = os.read(self._out, 1 << 20)
        *lines, self._coming = (self._coming + data).split(b"\n")
        for line in map(json.loads, lines):
            self.lines.append(line)
            if self._mirror and self.listens:
                self._mirror.take(line)
        return bool(data)

    def kill(self) -> None:
        """Ends it without a word."""
        self.process.kill()
        self._end()

    def close(self) -> None:
        """Closes the note, and waits until the line has ended."""
        if self.process.poll() is None and not self._pipes[0].closed:
            self._pipes[0].close()
            self.listens = False
            end = time.monotonic() + PATIENCE
            while (is_there := can_read(self._out, max(0.0, end - time.monotonic()))) and self._receive():
                pass
            if not is_there:
                self.kill()
                raise AssertionError(f"waited {PATIENCE} seconds for a line to end; the last lines: {str(self.lines[-5:])[-2_000:]}")
        self._end()

    def _end(self) -> None:
        self.process.wait(PATIENCE)
        for pipe in self._pipes:
            pipe.close()


class Engines(Case):
    """A test whose editors are closed at its end."""

    def editor(self, data: str = "data", **more: Any) -> Editor:
        """An editor of the person of a data folder."""
        editor = Editor(self.folder / data, **more)
        self.addCleanup(editor.close)
        return editor

    def printed(self, data: str = "data") -> str:
        """What the note's command prints."""
        done = subprocess.run([NOTE, "note", "--print"], capture_output=True, check=True, timeout=PATIENCE,
                              env={**os.environ, "VIALSHOAL_DATA": str(self.folder / data)})
        return done.stdout.decode()

    def engine(self, data: str = "data") -> int:
        """The process that has the note open."""
        return engine_of(self.folder / data)

    def others(self, *names: str, url: str | None = None) -> list[Editor]:
        """Editors of several people, whose notes have one log and who can type."""
        first = self.editor(names[0], log=url or self.file_log())
        first.gets_number()
        link = self.person(names[0]).link()
        editors = [first, *(self.editor(name, link=link) for name in names[1:])]
        for editor in editors:
            editor.gets_number()
        return editors

    def alike(self, *editors: Editor) -> str:
        """Waits until editors show the same, with all answered; that."""
        def are_alike() -> bool:
            for editor in editors:
                # What it has asked for has been done when this is answered.
                editor.ask("on")
            return all(one.mirror.answered == one.mirror.made for one in editors) and len({one.text for one in editors}) == 1
        wait_for(are_alike, "editors to show the same")
        return editors[0].text


class EngineHere(Case):
    """An engine in this process, at a time that the test sets, with two editors."""

    def setUp(self) -> None:
        super().setUp()
        self.now = 0.0
        pause = os.environ.pop("VIALSHOAL_PAUSE")
        self.addCleanup(os.environ.__setitem__, "VIALSHOAL_PAUSE", pause)
        self.engine = Engine("note", lambda: Session(notes.open_note("note", None, None)), lambda: None, clock=lambda: self.now)
        self.addCleanup(self.engine.close)
        # How many bytes are on their way to each editor, by its number.
        self.unread: dict[int, int] = {}
        self.editors = [self.editor(units) for units in ("utf-16", "utf-8")]

    def session(self) -> Session:
        """The session of the engine."""
        assert self.engine.session
        return self.engine.session

    def editor(self, units: str) -> Any:
        """One more editor: its end at the engine, its mirror, what it was sent, and what it sends."""
        sent: list[bytes] = []
        number = len(self.engine.peers)
        peer = self.engine.joined(sent.append, lambda: self.unread.get(number, 0))
        self.engine.take(peer, [json.dumps({"do": "open", "protocol": 1, "units": [units]}).encode()])
        asked: list[bytes | None] = []
        mirror = Mirror(json.loads(sent.pop(0)), lambda line: asked.append(json.dumps(line).encode()))
        return peer, mirror, sent, asked

    def meet(self) -> list[list[Line]]:
        """Has all lines arrive; those that each editor got."""
        got: list[list[Line]] = [[] for _ in self.editors]
        for _ in range(6):
            for peer, _, _, asked in self.editors:
                while asked:
                    self.engine.take(peer, asked)
            self.engine.turn()
            for number, (_, mirror, sent, _) in enumerate(self.editors):
                for line in map(json.loads, [*sent]):
                    got[number].append(line)
                    mirror.take(line)
                sent.clear()
        return got

    def asks(self, number: int, what: str, **more: object) -> Line:
        """What an editor's request is answered."""
        self.editors[number][3].append(json.dumps({"do": what, "id": 1, **more}).encode())

        def answered() -> Line | None:
            return next((line for line in self.meet()[number] if line.get("answer") == what), None)
        found: Line = wait_for(answered, f"an answer to {what}")
        return found

    def shows(self, text: str) -> None:
        """That all show a text, and the disk has it."""
        self.meet()
        self.assertEqual([mirror.text for _, mirror, _, _ in self.editors], [text] * len(self.editors))
        self.assertEqual(self.session().text().decode(), text.replace("\n", "\r"))
        self.assertEqual(self.person().text().decode(), text.replace("\n", "\r"))
