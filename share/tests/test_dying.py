"""Engines of this process die at each step of what they do, again and again, while two editors of a person and somebody else type. Each key
is there once and in its order, and the editors lose no words."""
import contextlib
import os
import random
import time
from collections.abc import Callable, Iterator
from functools import wraps
from typing import Any
from unittest import mock

from share.editors.mirror import Mirror, new_editor
from share.engine import protocol
from share.engine.editor import Peer
from share.engine.engine import Engine
from share.engine.journal import Journal
from share.store import notes
from share.sync.edits import OwnEdits
from share.sync.session import Session
from share.tests.note import Note
from share.tests.support import Case
from share.tests.waiting import PATIENCE
from share.text.line import Line

SEEDS, DEATHS = range(3), int(os.environ.get("VIALSHOAL_DEATHS", "20"))
# An engine dies within so many events, each of which is before or after something is written.
MOST_EVENTS = 12
KEYS = "abcdefghé漢🍰👍"


class Death(BaseException):
    """The engine is killed."""


class Dies:
    """Kills the engine at one of its next events, if a number of them is given."""

    def __init__(self, chance: random.Random):
        self._chance, self.left = chance, 0

    def happens(self) -> None:
        """Count an event."""
        self.left -= 1
        if self.left == 0:
            raise Death

    def around(self, work: Callable[..., Any]) -> Callable[..., Any]:
        """Return work with an event before it and one after it."""
        @wraps(work)
        def done(*given: Any, **more: Any) -> Any:
            self.happens()
            found = work(*given, **more)
            self.happens()
            return found
        return done

    def appends(self, _: Journal, file: int, data: bytes) -> None:
        """Append to a journal, in two parts."""
        self.happens()
        part = self._chance.randrange(len(data)) if self.left == 1 else 0
        os.write(file, data[:part])
        self.happens()
        os.write(file, data[part:])
        self.happens()

    @contextlib.contextmanager
    def everywhere(self) -> Iterator[None]:
        """Have it kill what is done meanwhile."""
        with contextlib.ExitStack() as stack:
            stack.enter_context(mock.patch.object(Journal, "_append", lambda journal, file, data: self.appends(journal, file, data)))
            for of, name in (OwnEdits, "keep"), (Journal, "begin"):
                stack.enter_context(mock.patch.object(of, name, self.around(getattr(of, name))))
            yield


class DyingEditor:
    """An editor that opens again, and types at the end of its own line."""

    def __init__(self, of: str, units: str, chance: random.Random):
        self.of, self._units, self._chance, self._name = of, units, chance, new_editor()
        self.typed, self.unmade = "", list[Any]()
        self._in, self._out = list[bytes](), list[bytes | None]()
        self._mirror: Mirror | None = None
        self._peer: Peer | None = None
        self.is_open = False

    @property
    def mirror(self) -> Mirror:
        """What it shows."""
        assert self._mirror
        return self._mirror

    def opens(self, engine: Engine) -> None:
        """Ask an engine to open the note."""
        self._peer = engine.joined(lambda data: self._in.extend(data.splitlines()), lambda: 0)
        again = {"again": self._mirror.again()} if self._mirror else {}
        self._send({"id": 1, "do": "open", "protocol": 1, "units": [self._units], "editor": self._name, "looks": True, **again})

    def _send(self, line: Line) -> None:
        self._out.append(protocol.serialize(line).rstrip())

    def types(self) -> None:
        """Type a key, or take some characters away that it typed before."""
        units, text = self.mirror.units, self.mirror.text
        end = text.index("\n", text.index(f"{self.of}:"))
        most = min(3, len(self.typed))
        if self._chance.randrange(6) == 0 and most:
            many = self._chance.randint(1, most)
            begin, end = (units.count(units.encode(text[:at])) for at in (end - many, end))
            self.mirror.edit([(begin, end, "")], **({"join": False} if self._chance.randrange(2) else {}))
            self.typed = self.typed[:-many]
        else:
            place, key = units.count(units.encode(text[:end])), self._chance.choice(KEYS)
            self.mirror.edit([(place, place, key)])
            self.typed += key

    def hands_on(self, engine: Engine, most: int = 1 << 30) -> None:
        """Have the engine take lines of it."""
        now, self._out = self._out[:most], self._out[most:]
        assert self._peer
        while now:
            engine.take(self._peer, now)

    def takes(self, most: int = 1 << 30) -> None:
        """Take lines of the engine's."""
        now, self._in = self._in[:most], self._in[most:]
        for line in map(protocol.parse, now):
            if line.get("answer") == "open":
                self._opened(line)
            elif self.is_open:
                self.mirror.take(line)

    def _opened(self, answer: Line) -> None:
        assert "error" not in answer, answer
        if self._mirror:
            self.unmade += self._mirror.opened_again(answer)
        else:
            self._mirror = Mirror(answer, self._send)
        self.is_open = True

    def loses_its_engine(self) -> None:
        """See that the engine has ended. What it sent may have come, as far as that goes."""
        self.takes(self._chance.randint(0, len(self._in)))
        self._in, self._out, self.is_open = [], [], False
        self.mirror.left()

    @property
    def is_quiet(self) -> bool:
        """Whether all is answered."""
        return self.is_open and not (self._in or self._out) and self.mirror.answered == self.mirror.made

    def own(self) -> str:
        """What its line has."""
        return next(line for line in self.mirror.text.split("\n") if line.startswith(f"{self.of}:"))[2:]


class Dying(Case):
    """A person with two editors, and somebody else."""

    def setUp(self) -> None:
        super().setUp()
        self.path = self.folder / "note.editors"
        here = self.person("ada").here()
        here.__enter__()
        self.addCleanup(here.__exit__, None, None, None)

    def engine(self) -> Engine:
        """The next engine."""
        return Engine("note", lambda: Session(notes.open_note("note", self.file_log(), None)), lambda: None, journal=self.path)

    def test_each_key_is_there_once(self) -> None:
        for seed in SEEDS:
            with self.subTest(seed=seed):
                self.tries(random.Random(seed))

    def tries(self, chance: random.Random) -> None:
        """Have engines die."""
        self.folder = self.folder / f"{chance.random()}"
        (self.folder / "shared").mkdir(parents=True)
        with self.person("ada").here():
            self.chance, self.dies = chance, Dies(chance)
            self.now = self.engine()
            self.two = [DyingEditor(of, units, chance) for of, units in (("A", "utf-16"), ("B", "utf-8"))]
            self.open_all()
            self.meet()
            self.two[0].mirror.edit([(0, 0, "A:\nB:\nC:\n")])
            self.meet()
            self.other, self.other_typed = self.opened(self.person("cat"), link=self.person("ada").link()), ""
            self.wait(lambda: (self.other.take_in(), self.other.session.can_type and b"C:" in self.other.text)[1])
            with self.dies.everywhere():
                for _ in range(DEATHS):
                    self.die_once()
            self.look()

    def open_all(self) -> None:
        """Have both editors ask the engine of now."""
        for one in self.two:
            one.opens(self.now)

    def die_once(self) -> None:
        """Type until the engine dies."""
        self.dies.left = self.chance.randint(1, MOST_EVENTS)
        try:
            for _ in range(self.chance.randint(5, 30)):
                self.does_something()
            raise Death
        except Death:
            self.dies.left = 0
        self.bury()
        for one in self.two:
            one.loses_its_engine()
            for _ in range(self.chance.randrange(4)):
                one.types()
        self.now = self.engine()
        self.open_all()

    def does_something(self) -> None:
        """Do a thing of those that can come next."""
        one = self.chance.choice(self.two)
        what = self.chance.randrange(10)
        if what < 4:
            one.types()
        elif what < 6:
            one.hands_on(self.now, self.chance.randint(1, 4))
        elif what < 8:
            one.takes(self.chance.randint(1, 4))
        elif what < 9:
            self.now.turn()
        else:
            self.other_types()

    def other_types(self) -> None:
        """Have somebody else type at the end of his line, and perhaps put a line above all."""
        left, self.dies.left = self.dies.left, 0
        self.other.take_in()
        if self.chance.randrange(3) == 0:
            self.other.moved_to(0)
            self.other.type("line\n")
        at = self.other.text.index(b"C:")
        self.other.moved_to(self.other.text.index(b"\r", at))
        self.other.type(key := self.chance.choice("xyz"))
        self.other_typed += key
        self.dies.left = left

    def bury(self) -> None:
        """Leave an engine as if it had been killed: what its end writes isn't there."""
        said = self.path.read_bytes() if self.path.exists() else None
        self.now.close()
        self.path.unlink(missing_ok=True)
        if said is not None:
            self.path.write_bytes(said)

    def meet(self) -> None:
        """Have all lines come, and be answered."""
        def is_so() -> bool:
            for one in self.two:
                one.hands_on(self.now)
            self.now.turn()
            for one in self.two:
                one.takes()
            return all(one.is_quiet and one.mirror.state.get("types") for one in self.two)
        self.wait(is_so)

    def look(self) -> None:
        """Compare what all show with what was typed."""
        def is_so() -> bool:
            self.meet()
            self.other.take_in()
            return len({*(one.mirror.text for one in self.two), self.shown(self.other)}) == 1
        self.wait(is_so)
        for one in self.two:
            self.assertEqual((one.own(), one.unmade), (one.typed, []))
        text = self.two[0].mirror.text
        self.assertEqual(next(line for line in text.split("\n") if line.startswith("C:"))[2:], self.other_typed)
        self.assertEqual({line[:2] for line in text.split("\n")} - {"li", ""}, {"A:", "B:", "C:"})
        self.now.close()

    @staticmethod
    def shown(note: Note) -> str:
        """What somebody's note shows."""
        return note.as_file().decode()

    @staticmethod
    def wait(condition: Callable[[], object]) -> None:
        """Wait until something is so."""
        end = time.monotonic() + PATIENCE
        while not condition():
            assert time.monotonic() < end
            time.sleep(0.005)
