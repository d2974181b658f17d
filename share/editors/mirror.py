"""The text and the two numbers that an editor has of a note. docs/ENGINE.md says in words what it does; share/engine/vectors have lines,
and what an editor does with each of them."""
import hashlib
import secrets
import time
from collections.abc import Callable, Sequence

from share.text.line import Line
from share.text.units import UNITS, Units

# A begin and an end, and the text that replaces the passage between them.
TextChange = tuple[int, int, str]

# After typing this long without all being answered, lines are read before the next key; and for how long at most.
UNANSWERED_SECONDS, PATIENCE_SECONDS = 0.5, 0.2
# After this number of notices the editor sends its version, if no edit has said it.
NOTICES = 100
# From this number of unanswered edits on, further changes are gathered into one.
MOST_UNANSWERED = 10
# The bytes of an editor's name of itself.
EDITOR_BYTES = 16


def new_editor() -> str:
    """Return a new name of an editor, by which the next engine knows it."""
    return secrets.token_hex(EDITOR_BYTES)


class Mirror:
    """The text as an editor shows it. It is handed the engine's lines, and what its user does, and sends lines."""

    def __init__(self, opened: Line, send: Callable[[Line], None], units: Units | None = None,
                 clock: Callable[[], float] = time.monotonic):
        self.units = units or UNITS[opened["units"]]
        self.version, self.made, self.answered = opened["version"], opened["edits"], opened["edits"]
        self.cursors: list[Line] = []
        self.looks: list[Line] = []
        self.state: Line = {}
        self.cursor: int | None = None
        self.words = ""
        self._data = bytearray(self.units.encode(opened["text"]))
        self._send, self._clock = send, clock
        # Since when not all edits have been answered.
        self._since: float | None = None
        self._gathered: list[TextChange] = []
        self._more: Line = {}
        self._said_version = self.version
        # The version and the number of edits with which it showed the engine's text last, its edits since, and the number of them that an
        # opening names. Each edit has `changes`, and `join` if its user's command says that.
        self._base = self.version, self.made
        self._since_base: list[Line] = []
        self._named = 0
        # Whether the engine is away: then nothing is sent.
        self.is_away = False

    @property
    def text(self) -> str:
        """The text."""
        return self.units.decode(bytes(self._data))

    def edit(self, changes: Sequence[TextChange], **more: object) -> None:
        """Makes an edit of the user's."""
        if more != self._more:
            self._send_gathered()
        self._make(changes)
        self._gathered += changes
        self._more = more
        if self.is_away or self.made - self.answered < MOST_UNANSWERED:
            self._send_gathered()

    def _send_gathered(self) -> None:
        if not self._gathered:
            return
        if self.answered == self.made:
            self._since = self._clock()
        self.made += 1
        self._said_version = self.version
        changes, more, self._gathered, self._more = self._gathered, self._more, [], {}
        edit = {"changes": [list(one) for one in changes], **more}
        self._since_base.append(edit)
        self._tell({"do": "edit", "version": self.version, "edits": self.made, **edit})

    def _tell(self, line: Line) -> None:
        if not self.is_away:
            self._send(line)

    def left(self) -> None:
        """Go on without an engine. Edits are shown and kept; the next opening has them."""
        self._send_gathered()
        self.is_away, self._since = True, None

    def again(self) -> Line:
        """Return the field `again` of the next opening."""
        self._send_gathered()
        self._named = len(self._since_base)
        version, edits = self._base
        return {"version": version, "edits": edits, "hash": hashlib.sha256(self.text.encode()).hexdigest(),
                "made": [*self._since_base]}

    def left_unmade(self) -> list[list[TextChange]]:
        """Return the changes of the edits that no engine has answered."""
        self._send_gathered()
        return self._after(self.answered)

    def _after(self, number: int) -> list[list[TextChange]]:
        """Return the changes of the edits behind a number."""
        return [edit["changes"] for edit in self._since_base[max(0, number - self._base[1]):]]

    def opened_again(self, answer: Line) -> list[list[TextChange]]:
        """Take in the answer to the opening. Return the changes of the edits that weren't carried over; their words are the user's."""
        self._send_gathered()
        edits, unmade = self._since_base, list[list[TextChange]]()
        if "text" in answer:
            unmade = self._after(max(self.answered, answer.get("has", 0)))
        self.version = self._said_version = answer["version"]
        self.is_away, self.cursors = False, []
        self.made = self.answered = answer["edits"]
        self._base, self._since_base = (self.version, self.made), []
        if "text" in answer:
            self._data = bytearray(self.units.encode(answer["text"]))
            self.follow_all()
        else:
            for edit in edits[self._named:]:
                self._gathered, self._more = edit["changes"], {name: value for name, value in edit.items() if name != "changes"}
                self._send_gathered()
        return unmade

    def waits(self) -> bool:
        """Return whether lines must be read before the next key is taken."""
        is_busy = not self.is_away and self.answered < self.made or bool(self._gathered)
        return is_busy and self._since is not None and self._clock() > self._since + UNANSWERED_SECONDS

    def gave_up(self) -> None:
        """Says that this took too long."""
        self._since = self._clock()

    def take(self, line: Line) -> None:
        """Takes in a line of the engine's."""
        if "notice" in line:
            self._send_gathered()
            self._noticed(line)
        elif "error" in line:
            self.words = line["words"]
            if "edits" not in line and "id" not in line:
                self._tell({"do": "text", "edits": self.made})
        if line.get("answer") == "edit" and "edits" in line:
            self.answered = line["edits"]
            if (line.get("version"), self.answered) == (self.version, self.made):
                self._in_step()
            if self.made - self.answered < MOST_UNANSWERED:
                self._send_gathered()

    def _in_step(self) -> None:
        """Note that it shows the engine's text, except for gathered changes."""
        self._base, self._since_base = (self.version, self.made), []

    def _noticed(self, line: Line) -> None:
        kind = line["notice"]
        if kind == "state":
            self.state = line
        elif kind == "says":
            self.words = line["words"]
        elif kind in ("changes", "text", "looks", "cursors") and line["edits"] == self.made:
            self._agreed(kind, line)

    def _agreed(self, kind: str, line: Line) -> None:
        if kind == "cursors":
            self.cursors = line["cursors"]
            return
        if kind == "looks":
            self.looks = line["looks"]
        elif kind == "text":
            self._data = bytearray(self.units.encode(line["text"]))
            self.follow_all()
        else:
            self._make(line["changes"])
        self.version, self.cursor = line["version"], line.get("cursor", self.cursor)
        self._in_step()
        if self.version >= self._said_version + NOTICES:
            self._said_version = self.version
            self._tell({"do": "seen", "version": self.version})

    def _make(self, changes: Sequence[TextChange]) -> None:
        size = self.units.size
        for begin, end, text in changes:
            data = self.units.encode(text)
            self._data[size * begin:size * end] = data
            self.follow(begin, end, data)

    def follow(self, begin: int, end: int, data: bytes) -> None:
        """Follow a change of the text; a subclass does something."""

    def follow_all(self) -> None:
        """Follow a change of the whole text; a subclass does something."""
