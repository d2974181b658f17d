"""What people who write in editors remark and suggest of words: what is to be there of it, and what engines say that is."""
import contextlib
import json
import os
import pathlib
import subprocess
import threading
from collections.abc import Iterable
from dataclasses import dataclass, field
from typing import Any

from share.review.record import MARGIN
from share.sync.session import Session
from share.tests.editors import Editor
from share.tests.naive_margin import Inserted, naive_threads
from share.tests.support import NOTE
from share.text.line import Line

# What may be said of a thread, and the state that it has then.
STATES = {"resolve": "resolved", "reject": "rejected"}


@dataclass
class Said:
    """A thread about a word, and what is known of it. What was being said as somebody was killed may be there."""

    word: str
    # The word that is suggested for it.
    new: str = ""
    body: str = ""
    is_sure: bool = False
    # The replies, and whether each is there for sure.
    replies: dict[str, bool] = field(default_factory=dict)
    # The states one of which it has, where what is suggested isn't shown.
    states: set[str] = field(default_factory=lambda: {"open"})
    # Whether all have it, and nobody has done something about it since.
    is_free: bool = False

    def faults(self, found: list[Line], text: str) -> list[str]:
        """What is wrong of the threads that engines say this word has."""
        if len(found) != 1:
            return [f"{self.word}: {len(found)} threads"] if self.is_sure or found else []
        (one,) = found
        bodies = [reply["body"] for reply in one.get("replies", [])]
        is_accepted = bool(self.new) and self.new in text
        shown = text[one["begin"]:one["end"]] if "begin" in one else ""
        sure = {reply for reply, is_sure in self.replies.items() if is_sure}
        wanted = {
            "body": one.get("body", "") == self.body, "new": one.get("new", "") == self.new,
            # What is rewritten may leave some of a word's characters.
            "state": one["state"] == "accepted" if is_accepted else one["state"] in self.states or one["state"] == "accepted" and self.new,
            "replies": len({*bodies}) == len(bodies) and sure <= {*bodies} <= {*self.replies},
            "place": shown == self.new if is_accepted else shown == self.word or self.word not in text}
        return [f"{self.word}: {name} of {one}, {self}" for name, is_right in wanted.items() if not is_right]

    def settled(self, found: list[Line]) -> None:
        """Takes over what all have."""
        self.is_sure = self.is_free = bool(found)
        for one in found:
            self.replies = dict.fromkeys((reply["body"] for reply in one.get("replies", [])), True)
            if one["state"] in self.states:
                self.states = {one["state"]}


class Sayings:
    """All that was said, by the words that it is about."""

    def __init__(self) -> None:
        self.all: dict[str, Said] = {}
        # Words that are suggested, about which nothing else is said.
        self.new = set[str]()

    def begins(self, said: Said) -> Said:
        """Notes a thread that somebody begins."""
        self.all[said.word] = said
        self.new |= {said.new} if said.new else set()
        return said

    def faults(self, threads: list[Line], text: str) -> list[str]:
        """What is wrong of the threads that engines say there are."""
        found = [fault for said in [*self.all.values()] for fault in said.faults(of_word(threads, said.word), text)]
        return found + [f"nobody said {one}" for one in threads if one["text"] not in self.all]

    def settled(self, threads: list[Line]) -> None:
        """Takes over what all have."""
        for word, said in [*self.all.items()]:
            said.settled(of_word(threads, word))
            if not said.is_sure:
                del self.all[word]


def of_word(threads: Iterable[Line], word: str) -> list[Line]:
    """The threads about a word."""
    return [one for one in threads if one["text"] == word]


class Told:
    """What a person's engine says is said, to an editor that does nothing else; and what that person's scripts say."""

    def __init__(self, data: pathlib.Path):
        self._data, self._asking, self._editor = data, threading.Lock(), None

    _editor: Editor | None

    def threads(self) -> list[Line]:
        """All threads; once more where the engine was killed meanwhile."""
        with self._asking:
            while True:
                with contextlib.suppress(AssertionError, OSError):
                    self._editor = self._editor or Editor(self._data)
                    answer = self._editor.ask("remarks", version=self._editor.mirror.version)
                    found: list[Line] = answer["threads"]
                    return [{name: value for name, value in one.items() if name != "own"} | {"replies": [
                        {name: value for name, value in reply.items() if name != "own"} for reply in one.get("replies", [])]}
                        for one in found]
                self.close()

    def close(self) -> None:
        """Leaves the engine."""
        editor, self._editor = self._editor, None
        if editor:
            editor.kill()

    def script(self, *words: str) -> bool:
        """Whether a script did what its words say."""
        done = subprocess.run([NOTE, words[0], "note", *words[1:]], capture_output=True, timeout=300, check=False,
                              env={**os.environ, "VIALSHOAL_DATA": str(self._data)})
        return done.returncode == 0

    def does(self, what: str, word: str, more: str) -> bool:
        """Whether a script remarked on a word, suggested another one for it, or did something about the thread there."""
        if what in ("remark", "suggest"):
            return self.script(what, "--on", word, more)
        found = of_word(self.threads(), word)
        return bool(found) and self.script(what, found[0]["id"], *([more] if more else []))


def plainly(session: Session) -> dict[str, Any]:
    """What the plain program says that a margin says."""
    history = session.margin._texts[MARGIN].replica.site.history
    inserted = [Inserted(one.site, one.at, one.stamp, one.data) for run in history[:].runs() for one in run.each() if one.data]
    return {_id(one["first"]): (one["kind"], one["first"]["body"] or "", one["state"] or "taken", [
        (_id(reply), reply["body"] or "") for reply in one["replies"]]) for one in naive_threads(inserted)}


def as_plain(threads: list[Line], plain: dict[str, Any]) -> dict[str, Any]:
    """The same of what an engine says. Whether something is accepted the text says, and not the margin."""
    return {one["id"]: (one["kind"], one.get("body", ""), plain[one["id"]][2] if one["state"] == "accepted" else one["state"], [
        (reply["id"], reply.get("body", "")) for reply in one["replies"]]) for one in threads}


def _id(one: Any) -> str:
    return "{}:{}".format(*one["name"])


def alike(some: Iterable[list[Line]]) -> bool:
    """Whether all say the same."""
    return len({json.dumps(one, sort_keys=True) for one in some}) == 1
