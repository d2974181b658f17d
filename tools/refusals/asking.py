"""Queries around the events of a script, and the answer to each line."""
from __future__ import annotations

from collections.abc import Sequence

QUERIES = {"text", "runs", "front", "where", "names", "since", "past", "pack", "views", "marks", "show"}
EDITS = {"type", "cut", "looks", "recall", "restore", "delete", "save", "key", "click"}
# Events whose line names no text after its verb.
OF_THE_SCREEN = {"close", "move", "scroll", "point", "select", "key", "views", "marks", "show", "click"}
# How the lines of an answer begin that others follow, by the verb; those of an edit are messages.
FOLLOWED = {
    "runs": "run ",
    "front": "front ",
    "where": "shown ",
    "names": "name ",
    "since": "message ",
    "pack": "chunk ",
    "views": "viewer ",
    **dict.fromkeys(EDITS, "send "),
}
LINES_OF_MARKS = 2
TEXTS = range(1, 17)

# The lines that answer one line of a script.
Answer = list[str]


def site_of(line: str) -> str:
    return line.split()[0]


def verb_of(line: str) -> str:
    return (line.split() + ["", ""])[1]


def texts_of(lines: Sequence[str]) -> list[str]:
    """The texts that the lines of a script name; 1 is among them."""
    found = {"1"}
    for line in lines:
        verb, more = verb_of(line), line.split()[2:]
        found |= set(more[1:2] if verb == "open" else [] if verb in OF_THE_SCREEN else more[:1])
        found |= set(more[3:4] if verb == "save" else [])
    return sorted((it for it in found if it.isdigit() and int(it) in TEXTS), key=int)


def queries_for(line: str, texts: Sequence[str], has_screen: bool) -> list[str]:
    """The queries of what an event may change, at its site and at the one that a merge reads."""
    words = line.split()
    sites = [words[0], *(words[3:4] if verb_of(line) == "merge" else [])]
    asked = [f"{site} {query} {text}" for site in sites for text in texts for query in ("text", "runs", "front")]
    screen = ("views", "marks", "show") if has_screen else ("views", "marks")
    return asked + [f"{words[0]} {query}" for query in screen]


class Played:
    """A script with queries around its events: the lines, and where the events are among them."""

    def __init__(self, lines: Sequence[str]) -> None:
        texts, has_screen = texts_of(lines), any(verb_of(line) == "open" for line in lines)
        self.lines: list[str] = []
        self.events: list[int] = []
        asked: list[str] = []
        for line in lines:
            wanted = queries_for(line, texts, has_screen)
            self.lines += [it for it in wanted if it not in asked]
            self.events.append(len(self.lines))
            self.lines += [line, *wanted]
            asked = wanted

    def without(self, at: int) -> list[str]:
        return self.lines[:at] + self.lines[at + 1 :]

    def _asked(self, lines: range, answers: Sequence[Answer]) -> dict[str, Answer]:
        return {self.lines[i]: answers[i] for i in lines if verb_of(self.lines[i]) in QUERIES}

    def before(self, at: int, answers: Sequence[Answer]) -> dict[str, Answer]:
        """The last answer to each query before a line."""
        return self._asked(range(at), answers)

    def after(self, at: int, answers: Sequence[Answer]) -> dict[str, Answer]:
        """The answers to the queries between a line and the next event."""
        end = next((event for event in self.events if at < event), len(self.lines))
        return self._asked(range(at + 1, end), answers)


def length_of(verb: str, told: Sequence[str], at: int, height: int) -> int:
    """How many of the lines that were written from one on answer a line with this verb."""
    if at < len(told) and told[at].startswith("refused "):
        return 1
    if verb == "marks":
        return LINES_OF_MARKS
    if verb == "show":
        return height
    end = at
    while verb in FOLLOWED and end < len(told) and told[end].startswith(FOLLOWED[verb]):
        end += 1
    return end + 1 - at


def answers_in(lines: Sequence[str], height: int, wrote: bytes) -> list[Answer] | None:
    """The answer to each line, or none where what was written isn't that."""
    told = wrote.decode("latin-1").split("\n")
    if told.pop() != "":
        return None
    answers, at = [], 0
    for line in lines:
        end = at + length_of(verb_of(line), told, at, height)
        answers.append(told[at:end])
        at = end
    return answers if at == len(told) else None
