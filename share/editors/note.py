"""A note that is open at an engine, as the terminal editor has it. Positions count bytes, and stand between characters.

An edit is shown at once, and is on the disk when its call returns.
"""
import re
import socket
import time
from collections.abc import Callable, Sequence

from share.editors.joined_line import WATCH_SECONDS, JoinedLine, Joins
from share.editors.mirror import Mirror, TextChange, new_editor
from share.editors.saying import AWAY, SAID_ONCE, Saying
from share.editors.since import NoteChanges
from share.editors.suggesting import Gathering
from share.editors.threads import NoteThreads
from share.sync.session import SEND_SECONDS, Bar, Status
from share.text.change import Change, boundary, found
from share.text.change import change as difference
from share.text.errors import Trouble
from share.text.line import Line
from share.text.rope import swapped
from share.text.units import UNITS

ENDED = "The note's engine ended before the note was open. Open it again: all that was typed before is kept."
DROPPED = "The note's engine ended, and this may not have been done. Look, and do it again."
NOT_CARRIED = "The note's engine ended, and not all that you typed could be carried over. ^V puts it back."
REFUSED_KEPT = "^V puts back what you typed."
NOT_KEPT = "The note's engine ended and no other one could be started. This is all that you typed since: {}"
# The least time between two messages of where the cursor is.
TELL_CURSOR_SECONDS = 0.1
UTF_8 = UNITS["utf-8"]
# The requests whose answers are waited for; one that wasn't understood is answered without its name.
ANSWERED = ("edit", "undo", "redo", "remark", "suggest", "reply", "resolve", "reopen", "reject", "accept", "revise", "withdraw", "")


class _Mirror(Mirror):
    """The engine's lines, with a note that follows them."""

    def __init__(self, opened: Line, send: Callable[[Line], None], note: "EngineNote"):
        self._note = note
        super().__init__(opened, send, UTF_8)

    def follow(self, begin: int, end: int, data: bytes) -> None:
        self._note.follow(Change(begin, end, swapped(data)))

    def follow_all(self) -> None:
        self._note.show_all(UTF_8.encode(self.text))


class AtEngine:
    """The state of the note, as a session has it."""

    def __init__(self, note: "EngineNote"):
        self._note = note

    def status(self) -> Status:
        """How things are."""
        state = self._note.mirror.state
        offline = state.get("why", "away") if state["log"] == "away" else None
        return Status(state["site"], state["on"], state["unsent"], offline, state["waiting"],
                      AWAY if self._note.mirror.is_away else state.get("trouble"),
                      state["types"], state["log"] != "none", (state["read"], state["of"]) if "of" in state else None,
                      state.get("left_out", []), state.get("renewed"), state.get("unproved", False), state.get("searching", False))

    def close(self) -> None:
        """Closes the note; what isn't sent stays in its file."""
        self._note.close()


def typed_text(characters: str) -> str:
    """Return typed or pasted characters as an engine takes them."""
    return re.sub("\r\n|\r", "\n", characters).encode("utf-8", "ignore").decode()


class ToldCursor:
    """The place of the cursor that the engine knows."""

    def __init__(self) -> None:
        self._places: tuple[int, int | None] = (0, None)
        self._due = 0.0

    def line(self, version: int, at: int, anchor: int | None) -> Line | None:
        """Return the request that tells the engine the cursor's place; None if it knows that, or got another place a moment ago."""
        now = time.monotonic()
        if (at, anchor) == self._places or now < self._due:
            return None
        self._places, self._due = (at, anchor), now + TELL_CURSOR_SECONDS
        line = {"do": "cursor", "version": version, "at": at}
        return line if anchor is None else line | {"anchor": anchor}

    def forget(self) -> None:
        """Has the next engine be told."""
        self._places = (-1, None)


def occurrences(text: bytes, old: str, new: str) -> list[TextChange]:
    """The changes by which words take the place of others in a text, wherever they stand, the last one first."""
    wanted, changes = old.replace("\r", "\n").encode("utf-8", "ignore"), list[TextChange]()
    data, put = swapped(text), new.replace("\r", "\n").encode("utf-8", "ignore").decode()
    place = data.rfind(wanted) if wanted else -1
    while place >= 0:
        changes.append((place, place + len(wanted), put))
        place = data.rfind(wanted, 0, place)
    return changes


class EngineNote:
    """The text as the engine's site shows it."""

    def __init__(self, line: socket.socket, bar: Bar, wake: Callable[[], None], name: str = "", joins: Joins = lambda: None):
        self._line, self._bar = JoinedLine(line, joins, wake), bar
        self._send = self._line.send
        self._open_line: Line = {"do": "open", "id": "open", "protocol": 1, "units": ["utf-8"], "name": name, "remarks": True,
                                 "editor": new_editor()}
        self.text = bytearray()
        self.cursor = self.top = 0
        # The other end of the selection.
        self.anchor: int | None = None
        # A message for the user, and words of the user's that aren't in the note and can be put back.
        self.notice = self.unmade = ""
        # Whether the cursor is where the last edit left it.
        self._goes_on = False
        self._told_cursor = ToldCursor()
        # Answers that nobody has looked at; all lines, as long as the note isn't open.
        self._answers: list[Line] = []
        self._is_open = False
        self.threads, self.changes, self.gathering = NoteThreads(), NoteChanges(), Gathering()
        self.saying = Saying(self._asked, lambda: self._come_again(0.05))
        self._send(self._open_line)
        opened = self._opened()
        self.text[:] = swapped(UTF_8.encode(opened["text"]))
        self.mirror = _Mirror(opened, self._send, self)
        self.session, self._is_open = AtEngine(self), True
        early, self._answers = self._answers, []
        for one in early:
            self._take(one)
        while not self.mirror.state:
            self._receive(WATCH_SECONDS)
        self._line.watch()

    def type(self, characters: str) -> None:
        """Types characters at the cursor. The engine knows which keys are taken back as one."""
        text = typed_text(characters)
        begin, end = self.selected() or (self.cursor, self.cursor)
        self.anchor = None
        if text:
            self._edit([(begin, end, text)])

    def erase(self, begin: int, end: int) -> None:
        """Deletes a stretch."""
        self.anchor = None
        if begin != end:
            self._edit([(begin, end, "")])

    def selected(self) -> tuple[int, int] | None:
        """The stretch that is selected."""
        if self.anchor is None or self.anchor == self.cursor:
            return None
        return min(self.anchor, self.cursor), max(self.anchor, self.cursor)

    def replace(self, old: str, new: str) -> int:
        """Puts words in the place of others, wherever they stand; how often."""
        changes = occurrences(bytes(self.text), old, new)
        self._goes_on = False
        if changes:
            self._edit(changes)
        return len(changes)

    def take_back(self) -> bool:
        """Takes back this editor's last edit that stands, by names: nobody else's is touched. False where there is none."""
        return self._by_names("undo")

    def do_again(self) -> bool:
        """Redo the last undo. Return False if there is nothing to redo."""
        return self._by_names("redo")

    def say(self, what: str, **more: object) -> Line | None:
        """Says something of the text, or accepts; the answer (`changed` is one), None where it was refused, which the notice says."""
        self._goes_on = False
        answer = (self.saying.say if what in SAID_ONCE else self._asked)({"do": what, **more})
        if answer.get("error", "changed") == "changed":
            return answer
        self._say(answer["words"])
        return None

    def _asked(self, request: Line) -> Line:
        """Return the answer to a request."""
        self._send({"id": request["do"], **({"version": self.mirror.version} if "begin" in request else {}), **request})
        return self._until(request["do"])

    def suggest_all(self, changes: Sequence[TextChange]) -> list[str]:
        """Suggests changes of the text as it is, the last one first; what the suggestions are named that were made."""
        answers = [self.saying.say({"do": "suggest", "begin": begin, "end": end, "new": new}) for begin, end, new in changes]
        self.notice, self.mirror.words = next((one["words"] for one in answers if "error" in one), self.notice), ""
        return [one["thread"] for one in answers if "error" not in one]

    def take_in(self) -> bool:
        """Take in the edits of others; return whether the text changed."""
        version: int = self.mirror.version
        self._come_again()
        while self._receive(0):
            pass
        if not self.mirror.is_away:
            for asks in self.threads.ask, self.changes.ask:
                asks(self.mirror.version, self.mirror.answered == self.mirror.made, self._send)
            if line := self._told_cursor.line(self.mirror.version, self.cursor, self.anchor):
                self._send(line)
        if self.mirror.words:
            self.notice, self.mirror.words = self.mirror.words, ""
        return bool(version != self.mirror.version)

    def moved_to(self, position: int) -> None:
        """Puts the cursor at a position. A key that is typed there begins an edit of its own."""
        self.cursor, self._goes_on = position, False

    def find(self, words: str) -> bool:
        """Puts the cursor at the next place of words after it, or from the front on. False where there is none."""
        place = found(self.text, self.cursor, words)
        if place >= 0:
            self.moved_to(place)
        return place >= 0

    def others(self) -> list[tuple[int, str]]:
        """Where others' cursors are, and whose."""
        return [(min(one["at"], len(self.text)), one["name"]) for one in self.mirror.cursors]

    def close(self) -> None:
        """Closes the note, when all is sent or after some seconds."""
        end = time.monotonic() + SEND_SECONDS
        while (self.mirror.is_away or self.mirror.state["log"] == "sending") and time.monotonic() < end:
            self._come_again(0.05)
        words = _inserted_words(self.mirror.left_unmade()) if self.mirror.is_away else self.unmade
        if not self.mirror.is_away:
            while self.mirror.answered < self.mirror.made and not self.mirror.is_away:
                self._receive(WATCH_SECONDS)
            self._send({"do": "close"})
        self._line.close()
        if words:
            raise Trouble(NOT_KEPT.format(words))

    def follow(self, change: Change) -> None:
        """Changes the text, and moves the places with it."""
        change.look(self.text[max(0, change.begin - 1):change.begin], len(self.text))
        self.text[change.begin:change.end] = change.new
        for follow in self.threads.follow, self.changes.follow, self.gathering.follow, self.saying.follow:
            follow(change)
        (cursor, anchor), top = change.moved_both(self.cursor, self.anchor), change.moved(self.top, True)
        self.cursor, self.top = boundary(self.text, cursor), boundary(self.text, top)
        self.anchor = None if anchor is None else boundary(self.text, anchor)

    def show_all(self, data: bytes) -> None:
        """Shows another text, of an editor's bytes."""
        self.follow(difference(self.text, swapped(data)))
        self.anchor = None

    def _edit(self, changes: Sequence[TextChange]) -> None:
        """Makes an edit and waits until it is on the disk, or taken out again."""
        begin, _, text = changes[0]
        self.mirror.edit(changes, **({} if self._goes_on else {"join": False}))
        self._goes_on = len(changes) == 1
        if self._goes_on:
            self.cursor = begin + len(text.encode())
        if not self.mirror.is_away and "error" in (answer := self._until("edit")) and answer["error"] != AWAY:
            self.unmade += _inserted_words([changes])
            self._say(f"{answer['words']} {REFUSED_KEPT}" if self.unmade else answer["words"])

    def _say(self, words: str) -> None:
        """Tells the user something."""
        self.notice, self.mirror.words = words, ""

    def _by_names(self, what: str) -> bool:
        self._goes_on, self.mirror.cursor = False, None
        self._send({"do": what})
        answer = self._until(what)
        if "error" in answer:
            self._say(answer["words"])
            return True
        if self.mirror.cursor is not None:
            self.cursor = boundary(self.text, min(self.mirror.cursor, len(self.text)))
        return bool(answer["done"])

    def _opened(self) -> Line:
        """Return the answer to the opening."""
        while not (found := [line for line in self._answers if line.get("answer") == "open"]):
            self._receive(WATCH_SECONDS)
        self._answers.remove(found[0])
        if "error" in found[0]:
            raise Trouble(found[0]["words"])
        return found[0]

    def _until(self, what: str) -> Line:
        """The answer to the last request of a kind; there is one at a time. Nothing is answered any more where the engine ended."""
        while True:
            for line in self._answers:
                # One that wasn't understood was the last one.
                if line["answer"] in (what, ""):
                    self._answers.remove(line)
                    return line
            if self.mirror.is_away:
                return {"answer": what, "error": AWAY, "words": DROPPED}
            self._receive(WATCH_SECONDS)

    def _receive(self, seconds: float) -> bool:
        """Take in the lines of the next seconds; return whether there were some."""
        was_there = self._line.is_there
        lines = self._line.receive(seconds)
        if lines is None and was_there:
            self._ended()
        for line in lines or ():
            self._take(line)
        return bool(lines) or self._line.has_come()

    def _ended(self) -> None:
        """Goes on without the engine."""
        if not self._is_open:
            raise Trouble(ENDED)
        self.mirror.left()
        self._answers.clear()
        for ended in self.threads.ended, self.changes.ended:
            ended()

    def _come_again(self, seconds: float = 0) -> bool:
        """Open the note again at the next engine, if that is there, and take in the lines of some seconds; return whether it is open."""
        if self.mirror.is_away and not self._line.is_there and self._line.join():
            self._send({**self._open_line, "again": self.mirror.again()})
        if seconds and not self._receive(seconds) and self.mirror.is_away:
            time.sleep(seconds)
        return not self.mirror.is_away

    def _opened_again(self, answer: Line) -> None:
        if "error" in answer:
            self._say(answer["words"])
            self._line.leave()
            return
        if words := _inserted_words(self.mirror.opened_again(answer)):
            self.unmade += words
            self._say(NOT_CARRIED)
        self._goes_on = self._goes_on and "text" not in answer
        self._told_cursor.forget()

    def _take(self, line: Line) -> None:
        if line.get("notice") == "opening":
            self._bar(line["done"], line["of"])
            return
        if not self._is_open:
            self._answers.append(line)
            return
        if line.get("answer") == "open":
            self._opened_again(line)
            return
        if line.get("answer") in ANSWERED:
            self._answers.append(line)
        self.mirror.take(line)
        self.threads.take(line, self.mirror.version, self.mirror.made, self._send)
        self.changes.take(line, self.mirror.made)


def _inserted_words(edits: Sequence[Sequence[TextChange]]) -> str:
    """The words that edits bring."""
    return "".join(text for changes in edits for _, _, text in changes)
