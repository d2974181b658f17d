"""An engine of this process that ends without a word, the next one, and an editor that speaks to both by lines alone."""
import hashlib
from collections.abc import Sequence

from share.editors.mirror import new_editor
from share.engine import protocol
from share.engine.engine import Engine
from share.store import notes
from share.sync.session import Session
from share.tests.support import Case
from share.text.line import Line

Changes = Sequence[tuple[int, int, str]]


class OneEditor:
    """An editor at an engine of this process, which speaks by lines alone."""

    def __init__(self, engine: Engine, name: str):
        self.engine, self.name = engine, name
        self.lines: list[Line] = []
        self._peer = engine.joined(lambda data: self.lines.extend(map(protocol.parse, data.splitlines())), lambda: 0)

    def ask(self, what: str, **more: object) -> Line:
        """What a request is answered."""
        self.engine.take(self._peer, [protocol.serialize({"do": what, "id": len(self.lines) + 1, **more})])
        self.engine.turn()
        return next(line for line in reversed(self.lines) if line.get("answer") == what)

    def open(self, **more: object) -> Line:
        """Opens the note."""
        return self.ask("open", protocol=1, units=["utf-32"], editor=self.name, **more)

    def again(self, version: int, edits: int, text: str, *made: Changes | Line) -> Line:
        """Opens the note again, and shows a text."""
        given = [one if isinstance(one, dict) else {"changes": one} for one in made]
        return self.open(again={"version": version, "edits": edits, "hash": hashlib.sha256(text.encode()).hexdigest(), "made": given})

    def says(self) -> str:
        """What its user was told."""
        return " ".join(line["words"] for line in self.lines if line.get("notice") == "says")


class Journaled(Case):
    """An engine that ended without a word, and the next one."""

    def setUp(self) -> None:
        super().setUp()
        self.path = self.folder / "note.editors"
        self.name = new_editor()

    def engine(self) -> Engine:
        """An engine of the note."""
        return Engine("note", lambda: Session(notes.open_note("note", None, None)), lambda: None, journal=self.path)

    def typed(self, *words: str) -> None:
        """Has an editor type words at the begin, each an edit, before its engine ends."""
        with self.person().here():
            engine = self.engine()
            one = OneEditor(engine, self.name)
            one.open()
            for number, word in enumerate(words, 1):
                self.assertNotIn("error", one.ask("edit", version=0, edits=number, changes=[[0, 0, word]]))
            engine.close()

    def next(self, version: int, edits: int, text: str, *made: Changes) -> tuple[Line, str]:
        """What the editor is answered by the next engine, and told."""
        with self.person().here():
            engine = self.engine()
            one = OneEditor(engine, self.name)
            answer = one.again(version, edits, text, *made)
            engine.turn()
            engine.close()
            return answer, one.says()
