"""Reviews as editors have them: remarks follow their passages, suggestions are accepted once, and who wrote what stays his."""
import json
import os
import unittest
from collections.abc import Mapping
from typing import Any
from unittest import mock

from share.engine import thread_lines
from share.engine.by_name import ByName
from share.engine.margins import Stood
from share.engine.protocol import serialize
from share.engine.spots import Spot
from share.review.margin import Remark, Thread
from share.review.record import Anchor, MarginKind, MarginState
from share.tests.editors import EngineHere, accepted
from share.tests.support import TOP
from share.tests.waiting import wait_for
from share.text.line import Line
from share.text.rope import Measured
from share.text.units import UNITS

PAGE = TOP / "docs" / "REVIEW.md"


def second_form(case: unittest.TestCase) -> None:
    """Has a test make notes of the second form."""
    second = mock.patch.dict(os.environ, VIALSHOAL_FORM="2", VIALSHOAL_ZERO_BITS="0")
    second.start()
    case.addCleanup(second.stop)


class Reviewed(EngineHere):
    """An engine in this process, whose note has a margin, with two editors."""

    def setUp(self) -> None:
        second_form(self)
        super().setUp()

    def ask(self, what: str, number: int = 0, **more: Any) -> Line:
        """What an editor's request about its text of now is answered."""
        self.meet()
        version = self.editors[number][1].version
        self.editors[number][3].append(json.dumps({"do": what, "id": 1, "version": version, **more}).encode())

        def answered() -> Line | None:
            # Some requests are answered by another thread.
            return next((line for line in self.meet()[number] if line.get("answer") == what), None)
        found: Line = wait_for(answered, f"an answer to {what}")
        return found

    def type(self, begin: int, end: int, text: str, number: int = 0) -> None:
        """An editor replaces a stretch."""
        self.editors[number][1].edit([(begin, end, text)])
        self.meet()

    def on(self, words: str, number: int = 0) -> Line:
        """The stretch of some words."""
        units = self.editors[number][1].units
        begin = self.text.index(words)
        return {name: units.count(units.encode(self.text[:at])) for name, at in (("begin", begin), ("end", begin + len(words)))}

    @property
    def text(self) -> str:
        """What the first editor shows."""
        text: str = self.editors[0][1].text
        return text

    def threads(self, **more: Any) -> list[Line]:
        """The threads of an answer."""
        answer = self.ask("remarks", **more)
        self.assertNotIn("error", answer)
        found: list[Line] = answer["threads"]
        return found

    def one(self, **more: Any) -> Line:
        """The only thread."""
        (found,) = self.threads(**more)
        return found

    def passage(self, one: Line) -> str | None:
        """The text that a thread is shown at."""
        return self.text[one["begin"]:one["end"]] if "begin" in one else None

    def remark(self, words: str, body: str = "why?") -> str:
        """Remarks on some words; the thread."""
        answer = self.ask("remark", **self.on(words), body=body)
        self.assertNotIn("error", answer)
        thread: str = answer["thread"]
        return thread

    def suggest(self, words: str, new: str) -> str:
        """Suggests other words for some; the thread."""
        answer = self.ask("suggest", **self.on(words), new=new)
        self.assertNotIn("error", answer)
        thread: str = answer["thread"]
        return thread


class Remarks(Reviewed):
    """What is remarked."""

    def test_a_remark_and_what_answers_it(self) -> None:
        self.type(0, 0, "one two three\n")
        thread = self.remark("two")
        one = self.one()
        self.assertEqual({name: one[name] for name in ("id", "kind", "state", "text", "body", "own")},
                         {"id": thread, "kind": "remark", "state": "open", "text": "two", "body": "why?", "own": True})
        self.assertEqual(self.passage(one), "two")
        record = self.ask("reply", to=thread, body="because")["record"]
        self.assertEqual([(reply["id"], reply["body"]) for reply in self.one()["replies"]], [(record, "because")])
        for what, state in ("resolve", "resolved"), ("reopen", "open"), ("reject", "rejected"):
            self.assertNotIn("error", self.ask(what, to=thread))
            self.assertEqual(self.one()["state"], state)
        self.assertEqual(self.threads(open=True), [])
        self.ask("revise", to=record, body="since it is so")
        self.ask("revise", to=thread, body="why, really?")
        one = self.one()
        self.assertEqual((one["body"], one["revised"], one["replies"][0]["body"]), ("why, really?", True, "since it is so"))
        self.ask("withdraw", to=record)
        self.assertEqual(self.one()["replies"][0]["taken"], True)
        self.ask("withdraw", to=thread)
        one = self.one()
        self.assertEqual((one["state"], "body" in one), ("taken", False))

    def test_its_stretch_follows_its_characters(self) -> None:
        self.type(0, 0, "one two three\n")
        self.remark("two three")
        for word, new, passage in (("one", "zero one", "two three"), (" two", " xtwo", "two three"), ("tw", "w", "wo three"),
                                   ("hr", "h and r", "wo th and ree"), ("wo t", "t", "th and ree"), ("ee\n", "ee!\n", "th and ree"),
                                   ("ee!", "!", "th and r"), ("d r", "d ", "th")):
            begin = self.text.index(word)
            # As a key does it: what stays isn't typed anew.
            same = len(os.path.commonprefix([word, new]))
            end = len(os.path.commonprefix([word[same:][::-1], new[same:][::-1]]))
            self.type(begin + same, begin + len(word) - end, new[same:len(new) - end])
            self.assertEqual(self.passage(self.one()), passage, self.text)

    def test_what_is_deleted_is_gone_and_comes_back(self) -> None:
        self.type(0, 0, "one two three\n")
        self.remark("two ")
        self.type(4, 8, "")
        one = self.one()
        self.assertEqual((one["begin"], one["end"], one["gone"], one["text"]), (4, 4, True, "two "))
        self.type(2, 2, "x")
        self.type(6, 6, "y")
        self.assertEqual(self.one()["begin"], 5)
        self.type(0, 5, "")
        self.assertEqual((self.one()["begin"], self.text), (0, "tyhree\n"))
        for _ in range(4):
            self.ask("undo")
        one = self.one()
        self.assertEqual((self.passage(one), "gone" in one, self.text), ("two ", False, "one two three\n"))

    def test_a_place(self) -> None:
        self.type(0, 0, "one two\n")
        for place in 0, 3, 8:
            self.assertNotIn("error", self.ask("remark", begin=place, end=place, body=str(place)))
        self.type(3, 3, ", ")
        self.type(0, 0, "zero ")
        self.assertEqual([(one["body"], one["begin"], one["end"]) for one in self.threads()], [("0", 0, 0), ("3", 8, 8), ("8", 15, 15)])
        self.type(6, 8, "")
        self.assertEqual([one["begin"] for one in self.threads()], [0, 6, 13])

    def test_those_within_a_stretch(self) -> None:
        self.type(0, 0, "one two three four five\n")
        for words in "one two three", "two", "four", "five":
            self.remark(words, words)
        self.type(5, 5, "x" * 50)

        def within(begin: int, end: int) -> list[str]:
            return [one["body"] for one in self.threads(begin=begin, end=end)]
        self.assertEqual(within(20, 21), ["one two three", "two"])
        self.assertEqual(within(30, 30), ["one two three", "two"])
        self.assertEqual(within(0, 2), ["one two three"])
        self.assertEqual(within(64, 68), ["four"])
        self.assertEqual(within(68, 68), ["four"])
        self.assertEqual(within(0, 74), ["one two three", "two", "four", "five"])
        self.type(0, 64, "")
        self.assertEqual(within(0, 1), ["one two three", "two", "four"])
        answer = self.ask("remarks", most=2)
        self.assertEqual(([one["body"] for one in answer["threads"]], answer["of"]), (["one two three", "two"], 4))
        answer = self.ask("remarks", **{"from": 2, "most": 2})
        self.assertEqual([one["body"] for one in answer["threads"]], ["four", "five"])

    def test_no_more_are_shown_than_there_is_room_for(self) -> None:
        with mock.patch("share.engine.margins.MOST_THREADS", 3):
            self.type(0, 0, "one two three\n")
            made = [self.remark("two", f"remark {number}") for number in range(5)]
            self.assertEqual((self.ask("remarks")["of"], [one["id"] for one in self.threads()]), (3, made[:3]))
            # What is said of another one is kept, and typing goes on.
            self.assertNotIn("error", self.ask("resolve", to=made[4]))
            self.type(0, 0, "zero ")
            self.shows("zero one two three\n")
        self.session().margin.forget()
        self.assertEqual([(one["id"], one["state"]) for one in self.threads()[3:]], [(made[3], "open"), (made[4], "resolved")])

    def test_line_ends_and_characters_of_several_bytes(self) -> None:
        self.type(0, 0, "ä\n🍰 é\n")
        self.remark("🍰 é\n")
        one = self.one()
        self.assertEqual((one["begin"], one["end"], one["text"]), (2, 7, "🍰 é\n"))
        (other,) = self.ask("remarks", number=1)["threads"]
        self.assertEqual((other["begin"], other["end"]), (3, 11))

    def test_what_is_wrong_is_said(self) -> None:
        self.type(0, 0, "one two\n")
        thread = self.remark("two")
        tries: list[tuple[str, Line, str]] = [
            ("remark", {"begin": 0, "end": 3, "body": " "}, "field"), ("remark", {"begin": 3, "end": 2, "body": "x"}, "outside"),
            ("remark", {"begin": 0, "end": 99, "body": "x"}, "outside"), ("suggest", {"begin": 3, "end": 3, "new": ""}, "field"),
            ("suggest", {"begin": 0, "end": 3, "new": "x" * 8_001}, "long"), ("reply", {"to": "1:99", "body": "x"}, "thread"),
            ("reply", {"to": "x", "body": "x"}, "field"), ("accept", {"to": thread}, "thread"),
            ("remark", {"begin": 0, "end": 3, "body": "x" * 100_001}, "long"), ("withdraw", {"to": "1:99"}, "thread"),
            ("remarks", {"begin": 0}, "field"), ("resolve", {"to": "70000:1"}, "thread")]
        for what, more, error in tries:
            self.assertEqual(self.ask(what, **more).get("error"), error, (what, more))
        self.assertEqual(self.one()["id"], thread)


class Suggestions(Reviewed):
    """What is suggested."""

    def test_accepted_and_undone(self) -> None:
        self.type(0, 0, "one two three\n")
        thread = self.suggest("two", "2 and\n")
        one = self.one()
        self.assertEqual((one["kind"], one["state"], one["text"], one["new"], self.passage(one)),
                         ("suggestion", "open", "two", "2 and\n", "two"))
        self.shows("one two three\n")
        self.assertEqual(self.ask("accept", to=thread)["done"], True)
        self.shows("one 2 and\n three\n")
        one = self.one()
        self.assertEqual((one["state"], self.passage(one)), ("accepted", "2 and\n"))
        self.assertEqual(self.ask("accept", to=thread)["done"], False)
        self.ask("undo")
        self.shows("one two three\n")
        self.assertEqual((self.one()["state"], self.passage(self.one())), ("open", "two"))
        self.ask("redo")
        self.shows("one 2 and\n three\n")
        self.ask("undo")
        # The replacement was never an edit of this editor.
        self.ask("undo")
        self.shows("")

    def test_what_was_accepted_is_settled_when_its_text_is_deleted_later(self) -> None:
        for at, new in ("two ", "2 and "), ("two ", ""), ("", "and "):
            with self.subTest(at=at, new=new):
                self.type(0, len(self.text), "one two three\n")
                begin = self.text.index("two")
                thread = self.ask("suggest", begin=begin, end=begin + len(at), new=new)["thread"]

                def state() -> tuple[str, int]:
                    answer = self.ask("remarks", open=True)
                    return next(one["state"] for one in self.threads() if one["id"] == thread), answer["of"]
                self.assertEqual(state(), ("open", 1))
                self.ask("accept", to=thread)
                self.assertEqual(state(), ("accepted", 0))
                self.type(0, len(self.text) - 1, "all is new")
                self.assertEqual(state(), ("accepted" if at and not new else "resolved", 0))
                self.ask("undo")
                self.assertEqual(state(), ("accepted", 0))
                for _ in range(2):
                    self.ask("undo")
                    self.shows("one two three\n")
                    self.assertEqual(state(), ("open", 1))
                    self.ask("redo")
                    self.assertEqual(state(), ("accepted", 0))
                self.ask("undo")
                # What was said before is so again, and what is said since stays.
                self.ask("reject", to=thread)
                self.ask("accept", to=thread)
                self.assertEqual(state(), ("accepted", 0))
                self.ask("undo")
                self.assertEqual(state(), ("rejected", 0))
                self.ask("redo")
                self.ask("resolve", to=thread)
                self.ask("undo")
                self.assertEqual(state(), ("resolved", 0))

    def test_what_is_taken_back_is_open_before_others_see_its_text(self) -> None:
        self.type(0, 0, "one two three\n")
        site, _, at = self.suggest("two", "2").partition(":")
        self.ask("accept", to=f"{site}:{at}")
        make, states = ByName.make, list[MarginState | None]()

        def makes(*given: Any, **more: Any) -> Any:
            states.append(self.session().margin.said.thread((int(site), int(at))).state)
            return make(*given, **more)
        with mock.patch.object(ByName, "make", makes):
            self.ask("undo")
            self.ask("redo")
        self.assertEqual(states, [MarginState.OPEN] * 2)

    def test_an_acceptance_of_which_nothing_is_left_stays(self) -> None:
        self.type(0, 0, "one two\n")
        thread = self.ask("suggest", begin=4, end=4, new="and ")["thread"]
        self.ask("accept", to=thread)
        self.type(4, 8, "", number=1)
        # That takes back what this one typed, since nothing else is left.
        self.ask("undo")
        self.shows("")
        self.assertEqual(self.one()["state"], "resolved")

    def test_what_would_insert_or_delete(self) -> None:
        self.type(0, 0, "one two three\n")
        deletes = self.suggest("two ", "")
        begin = self.text.index("three")
        inserts = self.ask("suggest", begin=begin, end=begin, new="and ")["thread"]
        self.assertEqual(self.ask("accept", to=inserts)["done"], True)
        self.shows("one two and three\n")
        self.assertEqual(self.ask("accept", to=deletes)["done"], True)
        self.shows("one and three\n")
        self.assertEqual({one["id"]: (one["state"], self.passage(one)) for one in self.threads()},
                         {deletes: ("accepted", ""), inserts: ("accepted", "and ")})

    def test_what_is_shown_before_it_is_accepted_is_what_comes(self) -> None:
        self.type(0, 0, "Second\n")
        thread = self.suggest("Second", "Third")
        self.type(2, 2, "rr")
        wants: list[dict[str, Any]] = [{}, {"becomes": "Third"}]
        for wanted in wants:
            answer = self.ask("accept", to=thread, **wanted)
            self.assertEqual({name: answer.get(name) for name in ("error", "was", "now", "new", "becomes")},
                             {"error": "changed", "was": "Second", "now": "Serrcond", "new": "Third", "becomes": answer["becomes"]})
            self.shows("Serrcond\n")
        shown = answer["becomes"]
        # Another one types there before this one has answered.
        self.type(3, 3, "s")
        answer = self.ask("accept", to=thread, becomes=shown)
        self.assertEqual((answer["error"], len(answer["becomes"])), ("changed", len(shown) + 1))
        self.assertEqual(self.ask("accept", to=thread, becomes=answer["becomes"])["done"], True)
        self.shows(f"{answer['becomes']}\n")

    def test_what_would_become_too_long_to_be_shown_is_not_accepted(self) -> None:
        self.type(0, 0, "Second\n")
        thread = self.suggest("Second", "Third")
        self.type(2, 2, "r" * 100_000)
        answer = self.ask("accept", to=thread)
        self.assertEqual((answer["error"], "becomes" in answer), ("long", False))
        self.shows(f"Se{'r' * 100_000}cond\n")

    def test_what_has_changed_is_accepted_once_what_it_becomes_was_shown(self) -> None:
        self.type(0, 0, "one two three\n")
        thread = self.suggest("two three", "2 3")
        self.type(6, 6, "xx")
        self.assertTrue(self.one()["changed"])
        answer = self.ask("accept", to=thread)
        self.assertEqual({name: answer.get(name) for name in ("error", "was", "now", "new", "becomes")},
                         {"error": "changed", "was": "two three", "now": "twxxo three", "new": "2 3", "becomes": "xx2 3"})
        self.assertEqual(self.ask("accept", to=thread, becomes="xx2 3")["done"], True)
        self.shows("one xx2 3\n")

    def test_what_is_typed_beside_the_passage_stays_beside_the_replacement(self) -> None:
        for words in "two three", "2":
            with self.subTest(words):
                self.type(0, len(self.text), f"one {words} end\n")
                thread = self.suggest(words, "new words")
                self.type(4, 4, "before,")
                begin = self.on(words)["end"]
                self.type(begin, begin, ",after")
                self.ask("accept", to=thread)
                self.shows("one before,new words,after end\n")

    def test_what_was_typed_where_the_replacement_would_stand_is_told(self) -> None:
        self.type(0, 0, "one two\n")
        inserts = self.ask("suggest", begin=3, end=3, new=", and")["thread"]
        self.type(3, 3, "s")
        answer = self.ask("accept", to=inserts)
        self.assertEqual({name: answer.get(name) for name in ("error", "was", "now", "new", "becomes")},
                         {"error": "changed", "was": "", "now": "s", "new": ", and", "becomes": "s, and"})
        self.shows("ones two\n")
        self.assertEqual(self.ask("accept", to=inserts, becomes="s, and")["done"], True)
        self.shows("ones, and two\n")
        self.ask("undo")
        self.shows("ones two\n")

    def test_all_is_done_or_nothing(self) -> None:
        self.type(0, 0, "one two three\n")
        thread = self.suggest("two", "2")
        # There is room for the message that hides, and none for the other one.
        many = len(self.session().site.history) + self.session().site.beside() + 1
        with mock.patch("share.program.site.MOST_MESSAGES", many):
            answer = self.ask("accept", to=thread)
            self.assertEqual((answer.get("error"), answer.get("number")), ("refused", 21))
            self.shows("one two three\n")
        self.assertEqual(self.one()["state"], "open")
        self.assertEqual(self.ask("accept", to=thread)["done"], True)
        self.shows("one 2 three\n")

    def test_overlapping_ones(self) -> None:
        self.type(0, 0, "one two three four\n")
        first, second = self.suggest("two three", "2 3"), self.suggest("three four", "3 4")
        self.ask("accept", to=first)
        self.shows("one 2 3 four\n")
        self.assertEqual(self.ask("accept", to=second)["error"], "changed")
        accepted(self.ask, to=second)
        self.shows("one 2 33 4\n")
        self.ask("undo")
        self.shows("one 2 3 four\n")

    def test_rejected(self) -> None:
        self.type(0, 0, "one two\n")
        thread = self.suggest("two", "2")
        self.ask("reject", to=thread)
        self.assertEqual(self.one()["state"], "rejected")
        self.ask("accept", to=thread)
        self.assertEqual(self.one()["state"], "accepted")
        self.shows("one 2\n")

    def test_the_history_has_a_replacement_once_it_is_shown(self) -> None:
        self.type(0, 0, "abc")
        thread = self.suggest("c", "d")
        self.type(3, 3, "e")

        def steps() -> list[tuple[int, ...]]:
            return [tuple(step[name] for name in ("begin", "end", "typed", "deleted", "restored")) for step in self.ask("history")["steps"]]
        self.assertEqual(steps(), [(0, 4, 4, 0, 0)])
        self.ask("accept", to=thread)
        self.shows("abde")
        # Of a message each: what was typed, what was hidden, what was typed on, what is deleted, what is shown.
        self.assertEqual(steps()[-1], (5, 6, 0, 0, 1))
        self.ask("undo")
        self.assertEqual([step[2] for step in steps()][:1], [4])

    def test_nothing_else_has_a_replacement_as_long_as_it_is_hidden(self) -> None:
        self.type(0, 0, "abc")
        before = self.ask("history")["length"]
        thread = self.suggest("b", "HIDDEN")
        for at in range(before, self.ask("history")["length"] + 1):
            self.assertEqual(self.ask("past", at=at)["text"], "abc", at)
            changed = self.ask("changed", since={"at": before}, until=at)
            self.assertEqual((changed["came"], changed["went"]), ([], []), at)
        self.assertEqual([(one["begin"], one["end"]) for one in self.ask("who", begin=0, end=3)["stretches"]], [(0, 3)])
        # What is taken back is what was typed; the suggestion stays.
        self.assertTrue(self.ask("undo")["done"])
        self.shows("")
        self.assertEqual((self.one()["id"], self.one()["new"], self.one()["state"]), (thread, "HIDDEN", "open"))


class Unseen(Reviewed):
    """What was typed meanwhile, and whoever asks hasn't seen, is no part of what is said of a passage."""

    def asked(self, what: str, words: str, typed: tuple[int, int, str], **more: Any) -> Line:
        """What is answered that the first editor asks of words that it shows, as the second one just typed there."""
        self.type(0, 0, "one two\n")
        stretch = self.on(words) | {"version": self.editors[0][1].version}
        self.editors[1][1].edit([typed])
        peer, _, _, asked = self.editors[1]
        self.engine.take(peer, asked)
        return self.ask(what, **stretch, **more)

    def ask(self, what: str, number: int = 0, **more: Any) -> Line:
        """The same, of the version that is given."""
        if "version" not in more:
            return super().ask(what, number, **more)
        self.editors[number][3].append(json.dumps({"do": what, "id": 1, **more}).encode())
        return wait_for(lambda: next((line for line in self.meet()[number] if line.get("answer") == what), {}), f"an answer to {what}")

    def test_before_the_passage(self) -> None:
        self.asked("remark", "one", (0, 0, "zero "), body="why?")
        self.assertEqual((self.text, self.passage(self.one()), self.one()["text"]), ("zero one two\n", "one", "one"))

    def test_within_the_passage(self) -> None:
        thread = self.asked("suggest", "one two", (3, 3, " and a half"), new="1 2")["thread"]
        self.assertEqual((self.one()["text"], self.one()["changed"]), ("one two", True))
        self.assertEqual(self.ask("accept", to=thread)["error"], "changed")
        accepted(self.ask, to=thread)
        self.assertEqual(self.text.replace("1 2", ""), " and a half\n")

    def test_the_passage_is_deleted(self) -> None:
        self.asked("remark", "two", (4, 7, ""), body="why?")
        self.assertEqual((self.one()["begin"], self.one()["end"]), (4, 4))


class Notices(Reviewed):
    """What editors are told that show remarks."""

    def test_only_who_asks_is_told(self) -> None:
        peer = self.editors[1][0]
        peer.sees_remarks = True

        def told() -> list[list[Line]]:
            return [[{name: line[name] for name in ("all", "open")} for line in lines if line.get("notice") == "remarks"]
                    for lines in self.meet()]
        self.assertEqual(told(), [[], [{"all": 0, "open": 0}]])
        self.type(0, 0, "one two\n")
        self.assertEqual(told(), [[], []])
        self._sends("remark", begin=0, end=3, body="why?")
        self.assertEqual(told(), [[], [{"all": 1, "open": 1}]])
        thread = self.one()["id"]
        self._sends("resolve", to=thread)
        self.assertEqual(told(), [[], [{"all": 1, "open": 0}]])
        self._sends("suggest", begin=4, end=7, new="2")
        self.assertEqual(told(), [[], [{"all": 2, "open": 1}]])
        suggestion = self.threads(open=True)[0]["id"]
        self._sends("accept", to=suggestion)
        self.assertEqual(told(), [[], [{"all": 2, "open": 0}]])
        self._sends("undo")
        self.assertEqual(told(), [[], [{"all": 2, "open": 1}]])

    def test_who_sees_remarks_is_told_that_a_passage_may_be_another(self) -> None:
        self.editors[1][0].sees_remarks = True
        self.type(0, 0, "one two\n")
        self.meet()
        self._sends("suggest", begin=0, end=3, new="1")
        self.meet()
        # Within the passage, and away from it; and what was typed within it goes.
        for change, is_told, is_changed in (((1, 1, "x"), True, True), ((8, 8, "!"), False, True), ((1, 2, ""), True, False)):
            self.editors[0][1].edit([change])
            told = [line for line in self.meet()[1] if line.get("notice") == "remarks"]
            self.assertEqual((bool(told), self.one().get("changed", False)), (is_told, is_changed), change)

    def _sends(self, what: str, **more: Any) -> None:
        mirror, asked = self.editors[0][1], self.editors[0][3]
        asked.append(json.dumps({"do": what, "version": mirror.version, **more}).encode())


class OnThePage(Reviewed):
    """What an editor is told, as the page of reviews has it."""

    def test_the_page_has_lines_that_go_so(self) -> None:
        recorded = [line[4:] for line in PAGE.read_text(encoding="utf-8").split("## As lines")[1].splitlines() if line.startswith("    ")]
        peer, _, _, asked = self.editors[0]
        peer.sees_remarks = True
        self.type(0, 0, "one two three\n")
        self.meet()
        # By the ids on the page those of now.
        got, ids = list[Line](), dict[str, str]()
        for line in recorded:
            wanted = json.loads(line[2:])
            if line[0] == ">":
                self.assertEqual(got, [])
                asked.append(json.dumps(_named(wanted, ids)).encode())
                got = self.meet()[0]
            else:
                found = got.pop(0)
                ids |= {wanted[name]: found[name] for name in ("thread", "record") if name in wanted}
                self.assertEqual(_without_moment(found), _without_moment(_named(wanted, ids)))
        self.assertEqual(got, [])


def _named(value: Any, ids: Mapping[str, str]) -> Any:
    """A value with other ids."""
    if isinstance(value, dict):
        return {name: _named(each, ids) for name, each in value.items()}
    if isinstance(value, list):
        return [_named(each, ids) for each in value]
    return ids.get(value, value) if isinstance(value, str) else value


def _without_moment(value: Any) -> Any:
    """A value without what is otherwise each time."""
    if isinstance(value, dict):
        return {name: None if name in ("site", "time") else _without_moment(each) for name, each in value.items()}
    return [*map(_without_moment, value)] if isinstance(value, list) else value


class Long(unittest.TestCase):
    """An answer has no more than a line may have."""

    def test_very_many_replies_without_words(self) -> None:
        told = thread_lines.ToldTo(Measured(b""), UNITS["utf-8"], lambda _: True, lambda _: None)
        remark = Remark((60_000, 2**24 - 1), (1, 1), "\U0001d54f" * 40, 2**53 - 1, "", True)
        thread = Thread(remark, MarginKind.REMARK, MarginState.OPEN, Anchor((), (0, 0), {}, "", ""), (), (remark,) * 100)
        found = [Stood(thread, Spot())] * 100
        lines = thread_lines.thread_lines(found, told, 100_000)
        self.assertTrue(lines)
        self.assertLess(len(serialize({"threads": lines})), 200_000)
        self.assertEqual(len(thread_lines.thread_lines(found, told)), 100)


class FirstForm(EngineHere):
    """A note of the first form has no margin."""

    def test_it_says_so(self) -> None:
        for what in "remarks", "remark", "suggest", "reply", "resolve", "revise", "withdraw", "accept":
            answer = self.asks(0, what, version=0, begin=0, end=0, body="x", new="x", to="1:1")
            self.assertEqual(answer.get("error"), "margin", what)
            self.assertIn("--form 2", answer["words"])


if __name__ == "__main__":
    unittest.main()
