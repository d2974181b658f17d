"""An editor in Python does with lines what the vectors say, in each of the units; and so does the engine with edits that cross, and with
what it is asked about a review."""
import hashlib
import json
import os
import pathlib
import random
import unittest
from collections.abc import Callable
from typing import Any
from unittest import mock

from share.editors.mirror import Mirror
from share.editors.note import EngineNote
from share.editors.saying import Saying
from share.editors.since import NoteChanges
from share.editors.suggesting import Gathered, Gathering, Meant
from share.editors.threads import NoteThreads
from share.format.entry import Plain
from share.tests.crossing import Writer, settled
from share.tests.editors import EngineHere
from share.tests.waiting import wait_for
from share.text.change import Change
from share.text.line import Line
from share.text.rope import swapped
from share.text.units import UNITS, Units

VECTORS = pathlib.Path(__file__).resolve().parents[1] / "engine" / "vectors"


class Placed(Mirror):
    """A mirror with the terminal's places."""

    def __init__(self, opened: Line, send: Callable[[Line], None], units: Units, clock: Callable[[], float]):
        super().__init__(opened, send, units, clock)
        self.note = EngineNote.__new__(EngineNote)
        self.note.threads, self.note.changes, self.note.gathering = NoteThreads(), NoteChanges(), Gathering()
        self.note.saying = Saying(lambda request: request, lambda: True)
        self.note.text, self.note.cursor, self.note.top, self.note.anchor = bytearray(swapped(self.text.encode())), 0, 0, None

    def follow(self, begin: int, end: int, data: bytes) -> None:
        """Moves the places along."""
        before, now = (self.units.decode(part).encode() for part in (data, bytes(self._data)))
        if now.isascii():
            self.note.follow(Change(begin, end, swapped(before)))

    def follow_all(self) -> None:
        """Moves the places along with what differs."""
        self.note.show_all(self.text.encode())

    def place(self) -> list[int]:
        """Where its user is."""
        return [self.note.cursor] + ([] if self.note.anchor is None else [self.note.anchor])


class Vectors(unittest.TestCase):
    """Each case of the files."""

    def test_an_editor_does_with_lines_what_the_vectors_say(self) -> None:
        cases = json.loads((VECTORS / "client.json").read_text(encoding="utf-8"))["cases"]
        for case in cases:
            for units in UNITS.values():
                if case["units"] in (units.name, "any"):
                    with self.subTest(case["name"], units=units.name):
                        self.play(case, units)
        self.assertGreater(len(cases), 20)

    def play(self, case: Line, units: Units) -> None:
        """Plays a case."""
        sent: list[Line] = []
        now = 0.0
        mirror = Placed(case["open"], sent.append, units, lambda: now)
        for step in case["steps"]:
            now = step.get("at", now)
            if "user" in step:
                mirror.edit(step["user"])
            elif "line" in step:
                mirror.take(step["line"])
            elif "place" in step:
                mirror.note.cursor, mirror.note.anchor = (*step["place"], None)[:2]
            elif "key" in step:
                self.assertEqual(mirror.waits(), step["waits"], step)
            elif "patience" in step:
                mirror.gave_up()
            else:
                self.fail(f"{step} is no step")
            if "sends" in step:
                self.assertEqual(sent, step["sends"], step)
                sent.clear()
            has = {"text": mirror.text, "version": mirror.version, "made": mirror.made, "types": mirror.state.get("types"),
                   "words": mirror.words, "cursor": mirror.cursor, "cursors": mirror.cursors,
                   "looks": mirror.looks, "place": mirror.place()}
            then = step.get("then", {})
            self.assertEqual({name: has[name] for name in then}, then, step)

    def test_an_editor_opens_again_as_the_vectors_say(self) -> None:
        cases = json.loads((VECTORS / "again.json").read_text(encoding="utf-8"))["cases"]
        for case in cases:
            for units in UNITS.values():
                with self.subTest(case["name"], units=units.name):
                    self.play_again(case, units)
        self.assertGreater(len(cases), 15)

    def play_again(self, case: Line, units: Units) -> None:
        """Plays a case of an engine that ends."""
        sent: list[Line] = []
        mirror = Placed(case["open"], sent.append, units, lambda: 0.0)
        for step in case["steps"]:
            if "user" in step:
                mirror.edit(step["user"])
            elif "line" in step:
                mirror.take(step["line"])
            elif "away" in step:
                mirror.left()
            elif "opens" in step:
                shown = hashlib.sha256(step["shows"].encode()).hexdigest()
                self.assertEqual(mirror.again(), {**step["opens"], "hash": shown}, step)
            else:
                unmade = mirror.opened_again(step["opened"])
                self.assertEqual(unmade, step.get("unmade", unmade), step)
            if "sends" in step:
                self.assertEqual(sent, step["sends"], step)
                sent.clear()
            has = {"text": mirror.text, "version": mirror.version, "made": mirror.made}
            then = step.get("then", {})
            self.assertEqual({name: has[name] for name in then}, then, step)

    def test_what_is_typed_is_gathered_as_the_vectors_say(self) -> None:
        cases = json.loads((VECTORS / "suggesting.json").read_text(encoding="utf-8"))["cases"]
        for case in cases:
            with self.subTest(case["name"]):
                gathering = Gathering()
                gathering.now = Gathered(*case["gathered"]) if case["gathered"] else None
                before = gathering.now
                done, cursor = gathering.add(Meant(case["from"], case["to"], case["put"], case.get("back", 0)))
                self.assertEqual(done, before if case.get("sends") else None)
                self.assertEqual((gathering.now and [*gathering.now], cursor), (case["then"], case["cursor"]))
        self.assertGreater(len(cases), 20)

    def test_an_editor_shows_what_is_remarked_as_the_vectors_say(self) -> None:
        cases = json.loads((VECTORS / "remarks.json").read_text(encoding="utf-8"))["cases"]
        for case in cases:
            for units in UNITS.values():
                with self.subTest(case["name"], units=units.name):
                    self.play_remarks(case, units)

    def play_remarks(self, case: Line, units: Units) -> None:
        """Plays a case of what is remarked."""
        sent: list[Line] = []
        mirror = Placed(case["open"], sent.append, units, lambda: 0.0)
        threads = mirror.note.threads
        for step in case["steps"]:
            sent.clear()
            if "user" in step:
                mirror.edit(step["user"])
            elif "line" in step:
                mirror.take(step["line"])
                threads.take(step["line"], mirror.version, mirror.made, sent.append)
            elif "asks" in step:
                threads.ask(mirror.version, mirror.answered == mirror.made, sent.append)
                self.assertEqual([(line["do"], line["version"]) for line in sent],
                                 [] if step["asks"] is None else [("remarks", step["asks"])])
            else:
                threads.take({"answer": "remarks", "id": "remarks", **step["answer"]}, mirror.version, mirror.made, sent.append)
            if "then" in step:
                self.assertEqual({one.of: [one.begin, one.end] for one in threads.found if one.begin is not None}, step["then"], step)

    def test_what_is_gathered_moves_with_the_text(self) -> None:
        for gathered, change, wanted in (((5, 8, "x"), Change(5, 5, b"ab"), (7, 10, "x")), ((5, 8, "x"), Change(8, 8, b"ab"), (5, 8, "x")),
                                         ((5, 5, "x"), Change(5, 5, b"ab"), (5, 5, "x")), ((5, 8, "x"), Change(0, 9, b""), (0, 0, "x")),
                                         ((5, 8, ""), Change(0, 9, b""), None)):
            with self.subTest(change):
                gathering = Gathering()
                gathering.now = Gathered(*gathered)
                gathering.follow(change)
                self.assertEqual(gathering.now, wanted)

    def test_an_engine_does_with_edits_that_cross_what_the_vectors_say(self) -> None:
        writer = Writer(Plain(bytes(16)), 1, random.Random(1))
        self.addCleanup(writer.session.close)
        first, second = writer.editors
        for case in json.loads((VECTORS / "transform.json").read_text(encoding="utf-8"))["cases"]:
            with self.subTest(case["name"]):
                first.edit(0, len(first.hand.text), case["text"])
                settled([writer])
                # What the second does was done before it has read what the first did.
                for edit in case["engine"]:
                    first.edits(edit)
                first.asks()
                for edit in case["editor"]:
                    second.edits(edit)
                if "cursor" in case:
                    second.cursor(*case["cursor"])
                second.asks()
                self.assertEqual(settled([writer]), case["gives"])
                if "cursor" in case:
                    self.assertEqual((second.peer.cursor, second.peer.anchor), (*case["at"], None)[:2])


def has(found: Any, wanted: Any) -> bool:
    """Whether something has all that is wanted, and nothing of what is to be missing."""
    if isinstance(wanted, dict):
        return isinstance(found, dict) and all(has(found.get(name), one) for name, one in wanted.items())
    if isinstance(wanted, list):
        return isinstance(found, list) and len(found) == len(wanted) and all(map(has, found, wanted))
    return bool(found == wanted)


def named(value: Any, names: dict[str, str]) -> Any:
    """A value of a vector, with ids in the place of their names."""
    if isinstance(value, dict):
        return {name: named(one, names) for name, one in value.items()}
    if isinstance(value, list):
        return [named(one, names) for one in value]
    return names[value[1:]] if isinstance(value, str) and value.startswith("$") else value


class OfReviews(EngineHere):
    """An engine that is asked what one case of the vectors says."""

    case: Line = {}

    def setUp(self) -> None:
        form = mock.patch.dict(os.environ, VIALSHOAL_FORM=str(self.case.get("form", 2)), VIALSHOAL_ZERO_BITS="0")
        form.start()
        self.addCleanup(form.stop)
        super().setUp()

    def play(self) -> None:
        """Plays the case."""
        first, second = (one[1] for one in self.editors)
        first.edit([(0, 0, self.case["text"])])
        self.meet()
        names, is_unread = dict[str, str](), False
        for step in self.case["steps"]:
            if "ask" in step:
                answer = self.asked(named(step["ask"], names), is_unread)
                names |= {step["as"]: answer.get("thread", answer.get("record"))} if "as" in step else {}
                self.assertTrue(has(answer, named(step["answer"], names)), (step, answer))
            is_unread = "unread" in step
            if "edit" in step:
                first.edit(step["edit"])
            elif is_unread:
                second.edit([second_units(change, first.text) for change in step["unread"]])
                peer, _, _, asked = self.editors[1]
                self.engine.take(peer, asked)
            if not is_unread:
                self.meet()
            if "then" in step:
                self.assertEqual((first.text, second.text), (step["then"],) * 2, step)

    def asked(self, request: Line, is_unread: bool) -> Line:
        """What the first editor's request is answered."""
        _, mirror, _, asked = self.editors[0]
        if not is_unread:
            self.meet()
        asked.append(json.dumps({"version": mirror.version, **request, "id": 1}).encode())

        def answered() -> Line | None:
            return next((line for line in self.meet()[0] if line.get("answer") == request["do"]), None)
        found: Line = wait_for(answered, f"an answer to {request}")
        return found


def second_units(change: Any, text: str) -> tuple[int, int, str]:
    """A change of the second editor's, which counts bytes."""
    begin, end = (len(text[:place].encode()) for place in change[:2])
    return begin, end, change[2]


class Reviews(unittest.TestCase):
    """Each case of what is asked about a review."""

    def test_an_engine_answers_what_the_vectors_say(self) -> None:
        cases = json.loads((VECTORS / "review.json").read_text(encoding="utf-8"))["cases"]
        for case in cases:
            with self.subTest(case["name"]):
                played = OfReviews("play")
                played.case = case
                result = played.run()
                self.assertEqual([words for _, words in [*result.errors, *result.failures]] if result else ["not run"], [])
        asked = {step["ask"]["do"] for case in cases for step in case["steps"] if "ask" in step}
        self.assertLessEqual({"remark", "reply", "resolve", "suggest", "accept", "reject", "remarks", "changed"}, asked)


if __name__ == "__main__":
    unittest.main()
