"""What is said of a note, as its clients show it: threads as the engine tells them, whose text moves with the note's."""
from collections.abc import Callable, Iterator
from typing import NamedTuple

from share.engine.thread_lines import ACCEPTED, TAKEN
from share.text.change import Change
from share.text.line import Line

OPEN, SUGGESTION = "open", "suggestion"
# What is said of a thread whose text isn't here, of one whose passage was changed since, and of what was taken back.
ELSEWHERE, CHANGED_SINCE, TAKEN_WORDS = "its text isn't here", "changed since", "taken back"
# How many threads are asked for at once, and how many an editor has at most.
THREADS_AT_ONCE, MOST_THREADS_KEPT = 2_000, 10_000


class PlacedThread(NamedTuple):
    """A thread, and where it is now; None where its text isn't here."""

    begin: int | None
    end: int | None
    line: Line

    @property
    def of(self) -> str:
        """By what it is named."""
        return str(self.line["id"])

    @property
    def is_open(self) -> bool:
        """Whether something is to be done about it."""
        return bool(self.line["state"] == OPEN)

    @property
    def is_suggestion(self) -> bool:
        """Whether it can be accepted."""
        return bool(self.line["kind"] == SUGGESTION)


def speaker(line: Line) -> str:
    """Whose words they are, as that is said, or else by the number."""
    return str(line.get("name") or f"site {line['site']}")


def own_records(thread: Line) -> list[Line]:
    """What somebody wrote of a thread who is told it, and hasn't taken back."""
    return [one for one in (thread, *thread.get("replies", ())) if one.get("own") and not (one.get("taken") or one.get("state") == TAKEN)]


def state_in_words(thread: Line) -> str:
    """How things are with a thread."""
    more = [ELSEWHERE] if thread.get("elsewhere") else []
    return ", ".join([thread["state"], *more, *([CHANGED_SINCE] if thread.get("changed") else [])])


def said_in_lines(thread: Line, passage: str) -> Iterator[str]:
    """What a thread says of a passage: this, or what it was where it gave way to what is suggested; that, the words, and the replies."""
    old = thread.get("text", "") if thread["state"] == ACCEPTED else passage
    yield from replaced_in_lines(old, thread.get("new", "")) if thread["kind"] == SUGGESTION else _marked("| ", old)
    yield from _marked("", thread.get("body", ""))
    for reply in thread.get("replies", []):
        first, *more = (TAKEN_WORDS if reply.get("taken") else reply.get("body", "")).split("\n")
        yield f"{speaker(reply)}: {first}"
        yield from (f"  {line}" for line in more)


def replaced_in_lines(old: str, new: str) -> list[str]:
    """What is suggested in the place of what."""
    return _marked("- ", old) + _marked("+ ", new)


def _marked(mark: str, words: str) -> list[str]:
    return [mark + line for line in words.split("\n")] if words else []


class NoteThreads:
    """The threads of an open note, in an editor's units, as far as they were told."""

    def __init__(self) -> None:
        self.found: list[PlacedThread] = []
        self.many_open = 0
        # Whether something may be otherwise than it was told; and what of it is asked for.
        self._is_due, self._asked = False, False
        self._coming: list[PlacedThread] = []

    def ask(self, version: int, is_settled: bool, send: Callable[[Line], None]) -> None:
        """Asks for the threads where they may be others, and all edits are answered."""
        if self._is_due and not self._asked and is_settled:
            self._is_due, self._asked = False, True
            self._send(version, send)

    def _send(self, version: int, send: Callable[[Line], None]) -> None:
        send({"do": "remarks", "id": "remarks", "version": version, "from": len(self._coming), "most": THREADS_AT_ONCE})

    def take(self, line: Line, version: int, made: int, send: Callable[[Line], None]) -> None:
        """Takes in a line of the engine's."""
        if line.get("notice") == "remarks":
            self.many_open, self._is_due = line["open"], True
        elif line.get("answer") == "remarks":
            if "error" in line or line["edits"] != made:
                # It crossed an edit.
                self._begin_again(self._is_due or line.get("error") != "margin")
                return
            found = [PlacedThread(one.get("begin"), one.get("end"), one) for one in line["threads"]]
            self._coming += found
            if found and len(self._coming) < min(line["of"], MOST_THREADS_KEPT) and not self._is_due:
                self._send(version, send)
            else:
                self.found = self._coming
                self._begin_again(self._is_due)

    def _begin_again(self, is_due: bool) -> None:
        self._coming, self._asked, self._is_due = [], False, is_due

    def ended(self) -> None:
        """Asks again, if something was asked of an engine that ended."""
        self._begin_again(self._is_due or self._asked)

    def follow(self, change: Change) -> None:
        """Moves all along with a change of the text."""
        self.found, self._coming = ([_placed_after(one, change) for one in some] for some in (self.found, self._coming))


def _placed_after(one: PlacedThread, change: Change) -> PlacedThread:
    """A thread where it is after a change."""
    if one.begin is None or one.end is None:
        return one
    begin, end = stretch_after(one.begin, one.end, change)
    return one._replace(begin=begin, end=end)


def stretch_after(begin: int, end: int, change: Change) -> tuple[int, int]:
    """Where a stretch is after a change: a place stays behind its character, and a passage has no more than what was its own."""
    if change.begin > end or change.begin == end and change.begin == change.end:
        return begin, end
    grown, after = len(change.new) - (change.end - change.begin), change.begin + len(change.new)
    if begin < end and begin >= change.end:
        begin += grown
    elif begin > change.begin:
        begin = after if begin < end and begin < change.end else max(change.begin, begin + grown)
    end = end + grown if end >= change.end else change.begin
    return begin, max(begin, end)
