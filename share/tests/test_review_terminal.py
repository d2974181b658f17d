"""Remarks and suggestions in a terminal: a real one, of tmux, with bin/note in it."""
import os
import signal
import unittest
from unittest import mock

from share.editors.mirror import Mirror
from share.editors.since import NoteChanges
from share.editors.terminal.layout import AsideRow, asides
from share.editors.threads import MOST_THREADS_KEPT, NoteThreads, PlacedThread, said_in_lines
from share.tests.editors import Editor
from share.tests.support import Case, engine_of, wait_for
from share.tests.terminals import HEIGHT, Terminal
from share.text.change import Change
from share.text.line import Line

SECOND = {"VIALSHOAL_FORM": "2", "VIALSHOAL_ZERO_BITS": "0"}


class ReviewTerminals(Case):
    """What users see."""

    def setUp(self) -> None:
        super().setUp()
        second = mock.patch.dict(os.environ, SECOND)
        second.start()
        self.addCleanup(second.stop)

    def opened_with(self, text: str) -> tuple[Terminal, Editor]:
        """A terminal and another editor of a note that has a text."""
        other = Editor(self.folder / "data", "diary", opens=False)
        self.addCleanup(other.close)
        other.mirror = Mirror(other.ask("open", protocol=1, units=["utf-32"], name="Bob", remarks=True), other.send)
        other.gets_number()
        other.type(text)
        other.settle()
        terminal = Terminal(self, "data", "diary")
        terminal.sees(text.split("\n", maxsplit=1)[0])
        return terminal, other

    @staticmethod
    def begins(one: Terminal, *lines: str) -> None:
        """Waits until a screen begins with these lines, but for marks at their ends: it may be drawn in parts."""
        try:
            wait_for(lambda: [line.rstrip("*+- ") for line in one.lines()[:len(lines)]] == [*lines], "")
        except AssertionError:
            raise AssertionError(f"waited for {lines}, and saw {one.lines()}") from None

    def threads(self, other: Editor) -> list[Line]:
        """What is said of the note."""
        found: list[Line] = other.ask("remarks", version=other.mirror.version)["threads"]
        return found

    def test_a_remark_is_made_and_answered(self) -> None:
        one, other = self.opened_with("tea\njam and honey\nmilk\n")
        one.press("Down", "C-Space", "Right", "Right", "Right", "C-t")
        one.sees("Remark:")
        one.type("which?")
        # What others type before it while the question stands moves its passage.
        other.edit((0, 0, "so: "))
        other.settle()
        one.sees("so: tea")
        one.press("Enter")
        one.sees("Remarked.")
        (found,) = self.threads(other)
        self.assertEqual((found["begin"], found["end"], found["body"], found["kind"]), (8, 11, "which?", "remark"))
        # A mark at the line's end, and how many are open.
        wait_for(lambda: one.lines()[1] == "jam and honey".ljust(69) + "*", "the mark")
        one.press("C-n")
        one.sees("remarks: open")
        self.begins(one, "so: tea", "jam and honey", f"  | site {found['site']} remarks: open", "  | | jam", "  | which?", "milk")
        one.type("r")
        one.sees("Reply to")
        one.type("fig")
        one.press("Enter")
        one.sees(f"  | site {found['site']}: fig")
        one.type("d")
        one.sees("remarks: resolved")
        wait_for(lambda: self.threads(other)[0]["state"] == "resolved", "it to be resolved")
        wait_for(lambda: not one.lines()[1].endswith("*"), "the mark to go")
        one.press("Escape")
        one.shows("so: tea", "jam and honey", "milk")
        one.type("x")
        one.sees("xjam and honey")

    def test_a_key_right_after_escape_is_done_however_late_both_are_read(self) -> None:
        one, other = self.opened_with("tea\njam\n")
        other.ask("remark", version=other.mirror.version, begin=0, end=3, body="which?")
        one.shows("tea".ljust(69) + "*", "jam")
        one.press("C-n")
        one.sees("  | which?")
        (editor,) = one.commands()
        os.kill(editor, signal.SIGSTOP)
        try:
            one.press("Escape", "C-f")
            one.type("jam\n")
        finally:
            os.kill(editor, signal.SIGCONT)
        one.shows("tea".ljust(69) + "*", "jam")
        one.cursor_is(0, 1)

    def test_suggestions(self) -> None:
        one, other = self.opened_with("tea\njam\n")
        one.press("C-Space", "End", "C-u")
        # The passage is selected: what is typed takes its place.
        one.sees("Suggest instead: [tea]")
        one.type("toast")
        one.press("Enter")
        one.sees("Suggested.")
        one.shows("tea".ljust(69) + "*", "jam")
        one.press("C-n")
        for words in "  | - tea", "  | + toast":
            one.sees(words)
        one.type("a")
        one.sees("suggests: accepted")
        one.press("Escape")
        one.shows("toast", "jam")
        one.press("C-z")
        one.sees("tea")
        # What is suggested by others is rejected, and replaced by another suggestion.
        other.ask("suggest", version=other.mirror.version, begin=4, end=7, new="fig")
        one.press("C-End", "Down", "C-o")
        one.sees("> line ")
        one.sees("Bob  suggests  - jam  + fig")
        one.press("Down", "Down", "Enter")
        one.sees("  | + fig")
        one.type("x")
        one.sees("suggests: rejected")
        one.type("s")
        one.sees("Suggest instead: [jam]")
        one.press("Escape", "Escape")
        self.assertEqual([line["state"] for line in self.threads(other)], ["open", "rejected"])

    def test_a_list_of_open_ones_or_of_ones_of_an_author(self) -> None:
        one, other = self.opened_with("tea\njam\n")
        thread = other.ask("remark", version=other.mirror.version, begin=0, end=3, body="first")["thread"]
        other.ask("resolve", to=thread)
        other.ask("remark", version=other.mirror.version, begin=4, end=7, body="second")
        one.press("C-Space", "Right", "C-t")
        one.sees("Remark:")
        one.type("third")
        one.press("Enter")
        one.sees("Remarked.")

        def lists(*wanted: str) -> None:
            """Waits for a list of these, of which one is chosen."""
            def is_so() -> bool:
                rows = [line for line in one.lines() if line.startswith(("  line", "> line"))]
                return [row.split()[-1] for row in rows] == [*wanted] and any(row.startswith(">") for row in rows)
            wait_for(is_so, f"a list of {wanted}")
        one.press("C-o")
        lists("first", "third", "second")
        one.type("o")
        lists("third", "second")
        one.type("b")
        lists("second")
        one.type("b")
        lists("third")
        one.type("b")
        lists("third", "second")
        # What nobody says any more is in no list, and one that would be empty has all.
        one.type("b")
        lists("second")
        other.ask("resolve", to=self.threads(other)[-1]["id"])
        lists("first", "third", "second")
        one.press("Escape")
        one.shows("tea".ljust(69) + "*", "jam")

    def test_what_was_changed_since_is_asked_about(self) -> None:
        one, other = self.opened_with("tea and jam\n")
        other.ask("suggest", version=other.mirror.version, begin=0, end=11, new="fig")
        other.edit((4, 7, "or"))
        other.settle()
        one.sees("tea or jam")
        one.press("C-n")
        one.sees("changed since")
        one.type("a")
        one.sees("would be 'figor'. Accept this")
        one.type("no")
        one.press("Enter")
        one.type("a")
        one.sees("Accept this")
        one.type("yes")
        one.press("Enter")
        one.sees("suggests: accepted")
        self.assertEqual(self.threads(other)[0]["state"], "accepted")

    def test_what_is_ones_own_is_edited_and_taken_back(self) -> None:
        one, other = self.opened_with("tea\njam\n")
        thread = other.ask("remark", version=other.mirror.version, begin=0, end=3, body="first\nsecond")["thread"]
        wait_for(lambda: one.lines()[0].endswith("*"), "the mark")
        one.press("C-n")
        one.sees("  | second")
        # It was written under this person's number.
        one.type("e")
        one.sees("Say instead: first·second")
        one.type("s")
        one.press("Enter")
        one.sees("  | seconds")
        one.type("r")
        one.type("green")
        one.press("Enter")
        site = thread.partition(":")[0]
        one.sees(f"  | site {site}: green")
        one.type("e")
        one.sees("Which of yours (1 first·seconds, 2 green): 2")
        one.press("Enter")
        one.sees("Say instead: green")
        one.type("er")
        one.press("Enter")
        one.sees(f"  | site {site}: greener")
        (found,) = self.threads(other)
        self.assertEqual((found["body"], [reply["body"] for reply in found["replies"]]), ("first\nseconds", ["greener"]))
        one.type("w")
        one.sees("Which of yours")
        one.press("BSpace", "1", "Enter")
        one.sees("Take back first·seconds (yes or no)")
        one.type("no")
        one.press("Enter")
        one.type("w")
        one.sees("Which of yours")
        one.press("Enter")
        one.sees("Take back greener (yes or no)")
        one.type("yes")
        one.press("Enter")
        one.sees(": taken back")
        one.type("w")
        one.sees("Take back first·seconds (yes or no)")
        one.type("y")
        one.press("Enter")
        wait_for(lambda: self.threads(other)[0]["state"] == "taken", "it to be taken back")
        self.assertEqual(self.threads(other)[0]["id"], thread)

    def test_what_is_typed_at_once_after_a_key_is_for_what_that_began(self) -> None:
        one, other = self.opened_with("tea\njam\n")
        for begin in 0, 4:
            other.ask("remark", version=other.mirror.version, begin=begin, end=begin + 3, body="which?")
        wait_for(lambda: one.lines()[1].endswith("*"), "the mark")
        one.press("C-n")
        one.sees("| | tea")
        one.send(b"rdone\r")
        wait_for(lambda: [reply["body"] for line in self.threads(other) for reply in line.get("replies", ())] == ["done"], "the reply")
        one.send(b"nd")
        wait_for(lambda: [line["state"] for line in self.threads(other)] == ["open", "resolved"], "the second one to be resolved")

    def test_all_of_a_thread_at_the_end_of_the_screen_is_seen(self) -> None:
        lines = "".join(f"line {number}\n" for number in range(HEIGHT - 2))
        one, other = self.opened_with(lines + "end")
        other.ask("suggest", version=other.mirror.version, begin=len(lines), end=len(lines) + 3, new="fig")
        wait_for(lambda: any(line.endswith("*") for line in one.lines()), "the mark")
        one.press("C-n")
        one.sees("  | - end")
        one.sees("  | + fig")

    def test_keys_for_what_is_gone_are_none_of_the_text(self) -> None:
        one, other = self.opened_with("tea\njam\n")
        thread = other.ask("remark", version=other.mirror.version, begin=0, end=3, body="which?")["thread"]
        one.shows("tea".ljust(69) + "*", "jam")
        one.press("C-n")
        one.sees("  | which?")
        engine = engine_of(self.folder / "data", "diary")
        os.kill(engine, signal.SIGSTOP)
        try:
            other.send({"do": "withdraw", "to": thread})
            one.type("d")
            one.sees("Waiting for")
            one.send(b"x\ry")
        finally:
            os.kill(engine, signal.SIGCONT)
        one.sees("isn't there any more")
        one.shows("tea", "jam")
        one.type("n")
        one.sees("ntea")

    def suggested(self, other: Editor) -> list[tuple[int, int, str]]:
        """What is suggested, and open."""
        return [(one["begin"], one["end"], one.get("new", "")) for one in self.threads(other) if one["state"] == "open"]

    def test_what_is_typed_is_suggested(self) -> None:
        one, other = self.opened_with("tea and jam\nmilk\n")
        one.press("M-u")
        one.sees("What you type and delete is suggested now")
        # A word is deleted, and another one typed.
        one.press("End", "BSpace", "BSpace", "BSpace")
        one.type("honeyx")
        one.press("BSpace")
        one.sees("  | + honey")
        self.begins(one, "tea and jam", "  | - jam", "  | + honey", "milk")
        # Others' text moves it.
        other.edit((0, 0, "so: "))
        other.settle()
        one.sees("so: tea and jam")
        self.assertEqual(self.suggested(other), [])
        # It is sent where one goes elsewhere, and what is typed there is another one.
        one.press("Down", "Home", "Delete", "Delete")
        wait_for(lambda: self.suggested(other) == [(12, 15, "honey")], "the first one")
        one.sees("  | - mi")
        one.press("M-u")
        wait_for(lambda: self.suggested(other) == [(12, 15, "honey"), (16, 18, "")], "the second one")
        one.sees("What you type is done again.")
        one.type("x")
        one.sees("mixlk")
        self.assertEqual(other.ask("text", edits=other.mirror.made)["answer"], "text")
        wait_for(lambda: (other.read(0.02), other.text == "so: tea and jam\nmixlk\n")[1], "the text")

    def test_a_suggestion_is_sent_after_a_rest_or_as_one_quits(self) -> None:
        with mock.patch.dict(os.environ, VIALSHOAL_PAUSE="0.5"):
            two = Terminal(self, "data", "diary")
        one, other = self.opened_with("tea\n")
        two.press("M-u")
        two.type("so")
        wait_for(lambda: [new for _, _, new in self.suggested(other)] in (["so"], ["s", "o"]), "it after a rest")
        one.press("M-u", "End")
        one.type("s")
        one.sees("  | + s")
        one.press("C-q")
        one.sees("status 0")
        self.assertEqual(self.suggested(other)[-1], (3, 3, "s"))

    def test_a_suggestion_is_taken_back(self) -> None:
        one, other = self.opened_with("tea and tea\n")
        one.press("M-u")
        one.type("x")
        one.sees("  | + x")
        one.press("C-z")
        wait_for(lambda: one.lines()[:2] == ["tea and tea", ""], "it to go")
        one.press("C-r")
        one.sees("Replace:")
        one.type("tea")
        one.press("Enter")
        one.type("fig")
        one.press("Enter")
        one.sees("Suggested 2 times.")
        self.assertEqual(self.suggested(other), [(0, 3, "fig"), (8, 11, "fig")])
        one.press("C-z")
        wait_for(lambda: self.suggested(other) == [(8, 11, "fig")], "one to be taken back")
        one.press("C-z", "C-z")
        one.sees("You have suggested nothing here that could be taken back.")
        self.assertEqual(self.suggested(other), [])
        self.assertEqual(other.text, "tea and tea\n")

    def test_what_is_suggested_in_vain_is_kept(self) -> None:
        with mock.patch.dict(os.environ, VIALSHOAL_FORM="1"):
            one = Terminal(self, "data", "old")
        one.type("tea")
        one.press("M-u")
        one.type("pot")
        one.sees("  | + pot")
        one.press("C-q")
        one.sees("has no margin")
        one.press("M-u", "C-v")
        one.sees("teapot")
        one.press("C-q")
        one.sees("status 0")

    def test_line_ends_stay_in_what_is_suggested(self) -> None:
        one, other = self.opened_with("tea\njam\n")
        one.press("C-Space", "Down", "End", "C-u")
        one.sees("Suggest instead: [tea·jam]")
        one.press("End")
        one.sees("Suggest instead: tea·jam")
        one.type("s")
        one.press("Enter")
        one.sees("Suggested.")
        self.assertEqual(self.threads(other)[0]["new"], "tea\njams")

    def test_words_are_data(self) -> None:
        one, other = self.opened_with("tea\n")
        hostile = "x\x1b[2J\x9b31m\u202e\ny\r\0" + "long " * 200
        other.ask("remark", version=other.mirror.version, begin=0, end=3, body=hostile)
        wait_for(lambda: one.lines()[0].endswith("*"), "the mark")
        one.press("C-n")
        one.sees("Bob remarks: open")
        one.sees("x·[2J·31m·")
        self.assertTrue(one.lines()[0].startswith("tea"))
        self.assertNotIn("31m", one.looks().replace("·31m", ""))
        one.press("C-o")
        one.sees("> line 1  open  Bob  x·[2J")
        one.resize(30, HEIGHT)
        one.sees("> line ")
        one.press("Escape")
        one.sees("tea")

    def test_what_changed_is_marked(self) -> None:
        one, other = self.opened_with("tea\njam and honey\nmilk\n")
        one.press("C-q")
        one.sees("status 0")
        other.edit((4, 8, ""))
        other.edit((18, 18, " \U0001f370"))
        other.settle()
        one = Terminal(self, "data", "diary")
        one.sees("milk")
        one.press("F8")
        one.sees("2 changes since you looked, ")
        wait_for(lambda: [line[-1:] for line in one.lines()[:3]] == ["a", "-", "+"], "the marks")
        one.press("F8")
        one.sees("1 of 2 changes")
        self.begins(one, "tea", "and honey", "  | Bob deleted this", "  | - jam")
        # Others' text before them moves them.
        other.edit((0, 0, "so: \n"))
        other.settle()
        one.sees("so:")
        one.press("F8")
        one.sees("2 of 2 changes")
        one.sees("  | Bob typed this")
        one.press("F8")
        one.sees("1 of 2 changes")
        one.send(b"\x1b[19;2~")
        one.sees("2 of 2 changes")
        one.press("Escape")
        wait_for(lambda: not [line for line in one.lines()[:-3] if line.endswith(("+", "-"))], "the marks to go")
        one.press("F8")
        one.sees("3 changes since you looked")

    def test_nothing_changed(self) -> None:
        one, _ = self.opened_with("tea\n")
        one.press("F8")
        one.sees("1 change since the note began")
        one.press("C-q")
        one.sees("status 0")
        one = Terminal(self, "data", "diary")
        one.press("F8")
        one.sees("Nothing has changed since you looked, ")
        one.type("x")
        one.sees("xtea")

    def test_a_note_of_the_first_form(self) -> None:
        with mock.patch.dict(os.environ, VIALSHOAL_FORM="1"):
            one = Terminal(self, "data", "old")
        one.type("tea")
        one.press("C-o")
        one.sees("Nothing is remarked on here")
        one.press("C-t")
        one.type("hm")
        one.press("Enter")
        one.sees("has no margin")
        one.press("Home")
        one.type("so: ")
        one.sees("so: tea")
        # What wasn't taken isn't lost.
        one.press("C-t")
        one.type("why?")
        one.press("Enter")
        one.sees("has no margin")
        one.sees("^V puts what you wrote.")
        one.press("C-t", "C-v")
        one.sees("Remark: why?")
        one.press("Escape")
        wait_for(lambda: "Remark:" not in one.lines()[-1], "the question to go")
        one.press("C-v")
        one.sees("so: why?tea")


class ThreadPlaces(unittest.TestCase):
    """Threads of an editor, and their places."""

    def test_places_follow_changes(self) -> None:
        for begin, end, change, wanted in (
                (5, 8, Change(5, 5, b"ab"), (7, 10)), (5, 8, Change(8, 8, b"ab"), (5, 8)), (5, 8, Change(6, 6, b"ab"), (5, 10)),
                (5, 8, Change(2, 6, b""), (2, 4)), (5, 8, Change(7, 12, b"abc"), (5, 7)), (5, 8, Change(0, 20, b"abc"), (3, 3)),
                (5, 5, Change(5, 5, b"ab"), (5, 5)), (5, 5, Change(4, 4, b"ab"), (7, 7)), (5, 5, Change(3, 8, b""), (3, 3)),
                (5, 8, Change(9, 9, b"ab"), (5, 8))):
            with self.subTest(change):
                threads = NoteThreads()
                threads.found = [PlacedThread(begin, end, {}), PlacedThread(None, None, {})]
                threads.follow(change)
                self.assertEqual(threads.found[0][:2], wanted)
                self.assertEqual(threads.found[1][:2], (None, None))

    def test_they_are_asked_for_again_where_an_answer_crossed_an_edit(self) -> None:
        threads, sent = NoteThreads(), list[Line]()
        line = {"id": "7:0", "begin": 1, "end": 2, "kind": "remark", "state": "open"}
        threads.ask(0, True, sent.append)
        self.assertEqual(sent, [])
        threads.take({"notice": "remarks", "all": 1, "open": 1}, 0, 0, sent.append)
        threads.ask(0, False, sent.append)
        self.assertEqual(sent, [])
        threads.ask(3, True, sent.append)
        self.assertEqual((len(sent), sent[0]["version"]), (1, 3))
        threads.take({"answer": "remarks", "edits": 0, "threads": [line], "of": 1}, 3, 1, sent.append)
        self.assertEqual(threads.found, [])
        threads.ask(4, True, sent.append)
        threads.take({"answer": "remarks", "edits": 1, "threads": [line], "of": 2}, 4, 1, sent.append)
        self.assertEqual(sent[-1]["from"], 1)
        threads.take({"answer": "remarks", "edits": 1, "threads": [line], "of": 2}, 4, 1, sent.append)
        self.assertEqual([one.of for one in threads.found], ["7:0", "7:0"])
        self.assertEqual(threads.many_open, 1)
        # A note without a margin isn't asked again; who says that there is no end is asked no further than an editor keeps.
        threads.take({"notice": "remarks", "all": 0, "open": 0}, 0, 0, sent.append)
        threads.ask(4, True, sent.append)
        threads.take({"answer": "remarks", "error": "margin", "words": "none"}, 4, 1, sent.append)
        many = len(sent)
        threads.ask(4, True, sent.append)
        self.assertEqual(len(sent), many)
        threads.take({"notice": "remarks", "all": 0, "open": 0}, 0, 0, sent.append)
        threads.ask(4, True, sent.append)
        threads.take({"answer": "remarks", "edits": 1, "threads": [line] * MOST_THREADS_KEPT, "of": 10**9}, 4, 1, sent.append)
        self.assertEqual((len(sent), len(threads.found)), (many + 1, MOST_THREADS_KEPT))


class Changed(unittest.TestCase):
    """What changed, and its places."""

    def test_they_follow_changes_and_are_asked_for_again(self) -> None:
        changes, sent = NoteChanges(), list[Line]()
        changes.ask(0, True, sent.append)
        self.assertEqual(sent, [])
        changes.want()
        changes.ask(0, False, sent.append)
        changes.ask(3, True, sent.append)
        changes.ask(3, True, sent.append)
        self.assertEqual([(line["do"], line["version"]) for line in sent], [("changed", 3)])
        line: Line = {"answer": "changed", "edits": 0, "since": 7, "came": [{"begin": 5, "end": 8, "site": 9}],
                      "went": [{"at": 2, "text": "x", "site": 9, "by": {"site": 9}}]}
        changes.take(line, 1)
        self.assertIsNone(changes.found)
        changes.ask(4, True, sent.append)
        changes.take({**line, "edits": 1}, 1)
        self.assertEqual((changes.since, len(sent)), (7, 2))
        for change, wanted in ((Change(0, 0, b"ab"), [(4, 4), (7, 10)]), (Change(8, 9, b""), [(4, 4), (7, 9)]),
                               (Change(0, 20, b"a"), [(0, 0)])):
            changes.follow(change)
            self.assertEqual([one[:2] for one in changes.found or ()], wanted)
        changes.drop()
        self.assertIsNone(changes.found)


class Asides(unittest.TestCase):
    """Rows that are none of the text."""

    def test_rows(self) -> None:
        rows = asides(["a", "", "漢字" * 10, "\x1b\udc80"], 20)
        self.assertEqual(["".join(cell for _, cell, _ in row.cells) for row in rows], ["a", "", "漢字" * 5, "漢字" * 5, "·\ufffd"])
        for row in rows:
            self.assertIsInstance(row, AsideRow)
            self.assertFalse(row.begin <= 0 <= row.end)

    def test_what_a_thread_says(self) -> None:
        thread: Line = {"kind": "suggestion", "state": "open", "new": "c\nd", "body": "why", "site": 7,
                        "replies": [{"name": "Bob", "site": 8, "body": "e\nf"}, {"site": 9, "taken": True}]}
        self.assertEqual([*said_in_lines(thread, "a\nb")],
                         ["- a", "- b", "+ c", "+ d", "why", "Bob: e", "  f", "site 9: taken back"])


if __name__ == "__main__":
    unittest.main()
