"""One editor at an engine: what it is sent, and what the engine knows of it."""
import secrets
import time
from collections.abc import Callable

from share.engine import protocol
from share.engine.coalescing import Coalescing
from share.engine.extents import Extents
from share.engine.formatting import Formatting
from share.engine.gaps import Gap
from share.engine.protocol import Wrong
from share.engine.transform import Transformer
from share.format import presence
from share.program.replay import in_units
from share.program.trace import Traced, trace
from share.program.undo import Undoing
from share.text.change import Change
from share.text.errors import Trouble
from share.text.line import Line
from share.text.looks import told
from share.text.rope import Measured
from share.text.units import UNITS, Units

# The least time between two notices of cursors.
SHOW_CURSORS_SECONDS = 0.05
# The most bytes on their way to an editor that doesn't read, before notices wait, and the most words for its user that do.
MOST_WAITING, MOST_WORDS = 1 << 20, 20
LEFT_MUCH = ("More was changed meanwhile than is kept for an editor that leaves it unread, as one does that asks something. So it is "
             "sent the whole text.")
NOT_OPEN = "The note isn't open: open comes first."


class Peer:
    """An editor. What it is sent goes through one call, and another says how many bytes of that are still on their way. The
    engine's thread alone calls it."""

    # What it called itself, so that it can open again, and whether it did so by another line.
    editor, is_left = "", False
    # Whether it is just opening again, so that it will send edits again that can't be kept now.
    rejoins = False
    # With which version and number of edits it was last noted to be in step, and what notes that.
    in_step_at: tuple[int, int] | None = None
    notes_step: Callable[["Peer"], None] = staticmethod(lambda peer: None)

    def __init__(self, write: Callable[[bytes], None], waiting: Callable[[], int], who: int,
                 clock: Callable[[], float] = time.monotonic):
        self._write, self._waiting, self.who = write, waiting, who
        self.token = secrets.token_bytes(presence.TOKEN_BYTES)
        self.name, self.colour = "", ""
        # Until when it takes another colour where fewer have that; never where its user chose one.
        self.settles = 0.0
        # What it has of the text, from its opening on.
        self._transformer: Transformer | None = None
        self.undoing, self.coalescing, self.extents = Undoing(), Coalescing(clock), Extents()
        # The ids of what it said in the margin, by the numbers that it gave.
        self.said: dict[int, str] = {}
        # Where it deleted something last.
        self.gap: Gap | None = None
        # In bytes: the cursor and the other end of a selection, and where its own undo has put the cursor.
        self.cursor: int | None = None
        self.anchor: int | None = None
        self.jump: int | None = None
        self.closes = False
        # Why nothing is done for it, in words, where nothing is.
        self._refused = ""
        # How many of its requests are still being done.
        self.waits = 0
        self._answers: list[Line] = []
        self._words: list[str] = []
        self._state: Line = {}
        self._cursors: list[Line] = []
        self._cursors_due, self._sends_cursors = 0.0, False
        # Whether no user sees what it shows.
        self.is_script = False
        # Whether it shows looks; which of them it was sent, with which version, and whether it may have dropped these.
        self.sees_looks = False
        self._looks, self._looks_version, self._sends_looks = 0, 0, False
        # Whether it shows what is remarked, and which of that it was told of.
        self.sees_remarks, self._remarks = False, 0
        # Whether cursors are to be sent as soon as they may be.
        self.has_cursors_to_show = False

    def refuse(self, words: str) -> None:
        """Has its first request answered by these words alone."""
        self._refused = words

    def see_that_it_is_served(self) -> None:
        """Leaves one that is refused, with the words of why."""
        if self._refused:
            self.closes = True
            raise Trouble(self._refused)

    @property
    def is_open(self) -> bool:
        """Whether it has opened the note."""
        return self._transformer is not None

    @property
    def transformer(self) -> Transformer:
        """What it has of the text; Wrong where it hasn't opened the note."""
        if self._transformer is None:
            raise Wrong("order", NOT_OPEN)
        return self._transformer

    @transformer.setter
    def transformer(self, transformer: Transformer) -> None:
        self._transformer = transformer

    def leave(self) -> None:
        """Leaves its line: nothing is done any more that came by it."""
        self.closes = self.is_left = True
        self.editor = ""
        self.leave_text()
        self._answers.clear()

    def leave_text(self) -> None:
        """Notes that it hasn't opened the note."""
        self._transformer, self.in_step_at = None, None

    def open(self, units: Units) -> None:
        """Notes that it has the text as that is now."""
        self._transformer = Transformer(units)

    def greet(self, request: Line) -> Units:
        """Takes over what the editor says of itself; the units that it counts in. The text isn't open yet."""
        offered = request.get("units")
        if request.get("protocol") != 1:
            raise Wrong("field", "protocol has to be 1.")
        if not isinstance(offered, list):
            raise Wrong("field", "units has to be a list of utf-8, utf-16 and utf-32.")
        units = next((UNITS[one] for one in offered if isinstance(one, str) and one in UNITS), None)
        if units is None:
            raise Wrong("field", "units has none of utf-8, utf-16 and utf-32.")
        name, colour = request.get("name", ""), request.get("colour", "")
        if not isinstance(name, str) or not isinstance(colour, str) or colour and not protocol.COLOUR.fullmatch(colour):
            raise Wrong("field", "name has to be a string, and colour one as #3366cc.")
        self.name, self.colour = presence.clean_name(name) or self.name, colour or self.colour
        self.sees_looks, self.sees_remarks = request.get("looks") is True, request.get("remarks") is True
        self.is_script, self.editor = request.get("script") is True, protocol.editor_of(request)
        return units

    def moved(self, change: Change) -> None:
        """Moves its places along with a change."""
        if self.cursor is not None:
            self.cursor, self.anchor = change.moved_both(self.cursor, self.anchor)
        self.jump = None if self.jump is None else change.moved(self.jump)
        self.coalescing.moved(change)
        self.extents.changed(change)
        if self.gap:
            self.gap.place = change.moved(self.gap.place)

    @property
    def is_slow(self) -> bool:
        """Whether so much is on its way to it that notices wait."""
        return self._waiting() > MOST_WAITING

    def send(self, line: Line) -> None:
        """Sends a line at once."""
        self._write(protocol.serialize(line))

    def say(self, words: str) -> None:
        """Tells its user something, as soon as it reads."""
        self._words = [*self._words, words][-MOST_WORDS:]
        self._send_words()

    def _send_words(self) -> None:
        if not self.is_slow:
            words, self._words = self._words, []
            for one in words:
                self.send({"notice": "says", "words": one})

    def answer_later(self, line: Line) -> None:
        """Answers after the notices that are due."""
        self._answers.append(line)

    def flush(self, text: Measured) -> None:
        """Sends what has changed for it, and the answers after that."""
        self._send_words()
        if self.is_open and not self.is_slow:
            transformer = self.transformer
            if transformer.is_void:
                if transformer.has_left_much:
                    self.say(LEFT_MUCH)
                transformer.send_text()
                self.notes_step(self)
                self.send({"notice": "text", "version": transformer.version, "edits": transformer.edits, "text": text.text()})
                self._sends_cursors = self._sends_looks = True
                trace(Traced.TEXT_SENT)
            elif transformer.has_news():
                self._send_changes(transformer, text)
            self.jump = None
        answers, self._answers = self._answers, []
        for line in answers:
            self.send(line | self._in_step_after(line))

    def _in_step_after(self, answer: Line) -> Line:
        """What the answer to an edit has where an editor with this version shows the text as it is, once it has it."""
        if answer.get("answer") != "edit" or not self.is_open:
            return {}
        transformer = self.transformer
        if transformer.is_void or transformer.has_news() or answer.get("edits") != transformer.edits:
            return {}
        self.notes_step(self)
        return {"version": transformer.version}

    def _send_changes(self, transformer: Transformer, text: Measured) -> None:
        units = transformer.units
        changes = [[begin, end, units.decode(data)] for begin, end, data in transformer.send()]
        self.notes_step(self)
        line: Line = {"notice": "changes", "version": transformer.version, "edits": transformer.edits, "changes": changes}
        if self.jump is not None:
            line["cursor"] = text.position(self.jump, units)
        self.send(line)
        trace(Traced.CHANGES_SENT, changes=len(changes))

    def show_state(self, state: Line) -> None:
        """Sends a state that it hasn't been sent."""
        if self.is_open and state != self._state and not self.is_slow:
            self._state = state
            self.send({"notice": "state", **state})

    def show_remarks(self, notice: Callable[[], tuple[int, Line]]) -> None:
        """Tells it that something of what is remarked may be otherwise, where it shows that."""
        if self.is_open and self.sees_remarks and not self.is_slow:
            times, line = notice()
            if times != self._remarks:
                self._remarks = times
                self.send({"notice": "remarks", **line})

    def show_again(self, version: int) -> None:
        """Sends cursors again soon, which an edit that was made in this version may have made it drop, and looks that are newer."""
        self._sends_cursors = True
        self._sends_looks = self._sends_looks or version < self._looks_version

    def show_cursors(self, cursors: list[Line]) -> None:
        """Sends others' cursors, where they differ from those that it was sent, or it may have dropped these."""
        if not self.is_open or self.transformer.is_void or not self._sends_cursors and cursors == self._cursors:
            self.has_cursors_to_show = False
            return
        now = time.monotonic()
        self.has_cursors_to_show = now < self._cursors_due
        if not self.has_cursors_to_show and not self.is_slow:
            if cursors or self._cursors:
                self.send({"notice": "cursors", "edits": self.transformer.edits, "cursors": cursors})
            self._cursors, self._sends_cursors = cursors, False
            self._cursors_due = now + SHOW_CURSORS_SECONDS

    def show_looks(self, formatting: Formatting, text: Measured) -> None:
        """Sends the looks of the text, where they are others than it has. They have a version, so that an edit tells
        whether it has dropped them."""
        if not self.is_open or not self.sees_looks or formatting.is_due:
            return
        transformer, times = self.transformer, formatting.times
        if transformer.is_void or transformer.has_news() or self.is_slow:
            return
        if times == self._looks and not (self._sends_looks and times):
            return
        self._looks, self._looks_version, self._sends_looks = times, transformer.send_nothing(), False
        self.notes_step(self)
        found: list[Line] = [{"begin": one.begin, "end": one.end, **told(one.looks)}
                             for one in in_units(text, formatting.stretches, transformer.units)]
        self.send({"notice": "looks", "version": transformer.version, "edits": transformer.edits, "looks": found})
