"""The verbs for remarks and suggestions, by the real command."""
import io
import json
import os
import random
import shutil
import subprocess
import sys
import unittest
from html.parser import HTMLParser
from typing import Any
from unittest import mock

from share.cli import main, output
from share.cli.critic import read
from share.cli.html import InMargin, page
from share.format.second.key_link import link_of
from share.store import notes, read_only
from share.tests.editors import Editor
from share.tests.support import NOTE, Case
from share.tests.test_critic import some_text
from share.tests.waiting import PATIENCE
from share.text.errors import Refused, Trouble
from share.text.looks import Run

TEXT = "tea\njam and honey\n"
ROUNDS = int(os.environ.get("SHARE_ROUNDS", "5"))


class ReviewCase(Case):
    """A note of the second form, which has a margin, and the command."""

    said = ""

    def setUp(self) -> None:
        super().setUp()
        second = mock.patch.dict(os.environ, VIALSHOAL_FORM="2", VIALSHOAL_ZERO_BITS="0", VIALSHOAL_NAME="Ada")
        second.start()
        self.addCleanup(second.stop)

    def note(  # type: ignore[override]
            self, *words: str, data: str = "data", given: str = "", status: int = 0, name: str = "Ada", form: int = 2) -> str:
        """What a command prints that ends with this status; it is run in this process, which takes a tenth of the time."""
        environment = {"VIALSHOAL_DATA": str(self.folder / data), "VIALSHOAL_NAME": name, "VIALSHOAL_FORM": str(form)}
        written = io.BytesIO(), io.BytesIO()
        out, told = (io.TextIOWrapper(one, encoding="utf-8", write_through=True) for one in written)
        stdin = io.TextIOWrapper(io.BytesIO(given.encode()))
        with mock.patch.dict(os.environ, environment), mock.patch.multiple(sys, stdin=stdin, stdout=out, stderr=told):
            try:
                found = main.done([*words])
            except SystemExit as why:
                found = why.code if isinstance(why.code, int) else 1
            except (Trouble, Refused, OSError) as why:
                output.report([str(why)])
                found = 2
        self.said = written[1].getvalue().decode()
        self.assertEqual(found, status, (words, self.said))
        return written[0].getvalue().decode()

    def run_note(self, *words: str, given: str = "", name: str = "Ada") -> str:
        """What the real command prints."""
        environment = {"VIALSHOAL_DATA": str(self.folder / "data"), "VIALSHOAL_NAME": name}
        done = subprocess.run([NOTE, *words], capture_output=True, input=given.encode(), timeout=PATIENCE, check=False,
                              env={**os.environ, **environment})
        self.assertEqual(done.returncode, 0, (words, done.stderr))
        return done.stdout.decode()

    def made(self, text: str = TEXT, name: str = "note", **more: Any) -> None:
        """Makes a note."""
        self.note("import", name, "-", "--new", given=text, **more)

    def remarks(self, *words: str, **more: Any) -> list[dict[str, Any]]:
        """What the command lists as data."""
        found: list[dict[str, Any]] = json.loads(self.note("remarks", *(words or ("note",)), "--json", **more))["remarks"]
        return found


class Threads(ReviewCase):
    """What is said of a note."""

    def test_a_remark_and_what_becomes_of_it(self) -> None:
        self.run_note("import", "note", "-", "--new", given=TEXT)
        one = self.run_note("remark", "note", "--on", "jam", "which?").strip()
        self.run_note("reply", "note", one, "-", given="fig\nor plum\n", name="Bob")
        (found,) = json.loads(self.run_note("remarks", "note", "--json"))["remarks"]
        self.assertEqual({name: found[name] for name in ("note", "line", "column", "now", "kind", "state", "name", "body", "id")},
                         {"note": "note", "line": 2, "column": 1, "now": "jam", "kind": "remark", "state": "open", "name": "Ada",
                          "body": "which?", "id": one})
        self.assertEqual([(reply["name"], reply["body"]) for reply in found["replies"]], [("Bob", "fig\nor plum")])
        for verb, state in ("resolve", "resolved"), ("reopen", "open"), ("resolve", "resolved"):
            self.run_note(verb, "note", one)
            self.assertEqual(json.loads(self.run_note("remarks", "note", "--json"))["remarks"][0]["state"], state)
        self.assertEqual(json.loads(self.run_note("remarks", "note", "--open", "--json"))["remarks"], [])
        # What was typed before it moves its place.
        self.run_note("replace", "note", "tea\n", "tea\nmilk\n")
        wanted = rf"(?s)^note:3:1  {one}  resolved  Ada  remarks  \d.*\n  \| jam\n  which\?\n  Bob: fig\n    or plum\n$"
        self.assertRegex(self.run_note("remarks", "note"), wanted)

    def test_suggestions(self) -> None:
        self.made()
        fig = self.note("suggest", "note", "--on", "honey", "fig", "dearer").strip()
        gone = self.note("suggest", "note", "--on", "jam and ", "").strip()
        milk = json.loads(self.note("suggest", "note", "--at", "1:4", "-", "--json", given=", milk"))["suggestion"]
        self.assertEqual(self.note("cat", "note"), TEXT)
        found = [(one["id"], one["line"], one["column"], one["now"], one.get("new", ""), one.get("body", "")) for one in self.remarks()]
        self.assertEqual(found, [(milk, 1, 4, "", ", milk", ""), (gone, 2, 1, "jam and ", "", ""), (fig, 2, 9, "honey", "fig", "dearer")])
        for one in milk, fig:
            self.note("accept", "note", one)
        self.note("reject", "note", gone)
        self.assertEqual(self.note("cat", "note"), "tea, milk\njam and fig\n")
        self.assertEqual({one["id"]: one["state"] for one in self.remarks()}, {milk: "accepted", gone: "rejected", fig: "accepted"})

    def test_the_log_has_a_replacement_once_it_is_shown(self) -> None:
        self.note("append", "plan", "jam", "--new")
        thread = self.note("suggest", "plan", "--on", "jam", "tea").strip()
        typed = self.note("log", "plan").splitlines()
        self.assertEqual([line.split()[-2:] for line in typed], [["typed", "'jam\\n'"]])
        length = json.loads(self.note("log", "plan", "--json"))["length"]
        begin = int(typed[0].split()[0])
        self.assertEqual(length, begin + 2)
        for at in range(begin, length + 1):
            self.assertEqual(self.note("history", "plan", "--at", str(at)), "jam\n")
            self.assertIn("Nothing changed.", self.note("changed", "plan", "--since", str(begin), "--until", str(at)))
        self.note("accept", "plan", thread)
        self.assertIn("accepted  Ada", self.note("remarks", "plan"))
        self.assertIn("- jam\n  + tea", self.note("remarks", "plan"))
        did = [line.split()[2] for line in self.note("log", "plan").splitlines()]
        self.assertEqual((did.count("typed"), did.count("restored"), self.note("cat", "plan")), (2, 1, "tea\n"))

    def test_what_was_changed_since_is_told(self) -> None:
        self.made()
        one = self.note("suggest", "note", "--on", "jam and honey", "fig").strip()
        self.note("replace", "note", "and", "or")
        self.assertTrue(self.remarks()[0]["changed"])
        self.note("accept", "note", one, status=2)
        for words in "'jam and honey'", "'jam or honey'", "'figor'":
            self.assertIn(words, self.said)
        self.assertEqual(self.note("cat", "note"), TEXT.replace("and", "or"))
        self.note("accept", "note", one, "--anyway")
        self.assertEqual(self.note("cat", "note"), TEXT.replace("jam and honey", "figor"))

    def test_what_is_ones_own_is_revised_and_taken_back(self) -> None:
        self.made()
        one = self.note("remark", "note", "--on", "jam", "which?").strip()
        answer = self.note("reply", "note", one, "fig").strip()
        self.note("revise", "note", one, "which one?")
        self.assertEqual(json.loads(self.note("revise", "note", answer, "-", "--json", given="-plum\n")),
                         {"note": "note", "revise": answer, "sent": True})
        (found,) = self.remarks()
        self.assertEqual((found["body"], found["revised"], found["replies"][0]["body"]), ("which one?", True, "-plum"))
        self.note("revise", "note", answer, "-fig")
        self.assertIn("  which one?\n  Ada: -fig\n", self.note("remarks", "note"))
        self.note("withdraw", "note", answer)
        self.assertIn("  which one?\n  Ada: taken back\n", self.note("remarks", "note"))
        self.note("withdraw", "note", one)
        self.assertEqual([(found["state"], found.get("body")) for found in self.remarks()], [("taken", None)])
        # What was taken back stays so, and blanks are no words.
        for words, said in (((one, "again"), "That was taken back"), ((answer, "again"), "That was taken back"),
                            ((one, " "), "has to have words")):
            self.note("revise", "note", *words, status=2)
            self.assertIn(said, self.said)
        self.note("withdraw", "note", one)
        self.assertEqual([(found["state"], found.get("body")) for found in self.remarks()], [("taken", None)])

    def test_what_others_wrote_stays(self) -> None:
        self.made(data="others")
        self.note("renew", "note", "--log", str(self.folder / "log"), "--yes", data="others")
        one = self.note("remark", "note", "--on", "jam", "which?", data="others", name="Bob").strip()
        (self.folder / "link").write_text(self.note("link", "note", data="others"), encoding="utf-8")
        for words in ("revise", "note", one, "mine"), ("withdraw", "note", one):
            self.note(*words, "--link-file", str(self.folder / "link"), status=2)
            self.assertIn("Somebody else wrote that", self.said)
        self.assertEqual([(found["name"], found["body"]) for found in self.remarks()], [("Bob", "which?")])

    def test_places_that_are_none(self) -> None:
        self.made()
        for words, said in ((("--on", "a"), "'a' is in the note 3 times, first at 1:3"), (("--on", "zebra"), "'zebra' isn't in the note"),
                            (("--on", ""), "--on needs some words"), (("--at", "9"), "The note has 3 lines, and no line 9"),
                            (("--at", "1:5"), "Line 1 has 3 characters, and no column 5"), (("--at", "0"), "no line"), ((), "required")):
            with self.subTest(words):
                self.note("remark", "note", *words, "x", status=2)
                self.assertIn(said, self.said)
        self.note("remark", "note", "--on", "jam", "\udc80", status=2)
        self.note("suggest", "note", "--on", "jam", "-", "-", status=2)
        for verb in "resolve", "reopen", "accept", "reject", "withdraw":
            self.note(verb, "note", "7:7", status=2)
        self.note("revise", "note", "7:7", "x", status=2)
        self.note("remark", "elsewhere", "--on", "jam", "x", status=2)
        self.assertIn("There is no note elsewhere here", self.said)
        self.assertEqual(self.remarks(), [])

    def test_reading_takes_no_number(self) -> None:
        self.made(data="others")
        self.note("renew", "note", "--log", str(self.folder / "log"), "--yes", data="others")
        self.note("remark", "note", "--on", "jam", "which?", data="others", name="Bob")
        link = self.note("link", "note", data="others")
        (self.folder / "link").write_text(link, encoding="utf-8")
        for words in ("--format", "critic"), ("--format", "html", "--remarks"):
            self.assertIn("which?", self.note("export", "note", "-", *words, "--link-file", str(self.folder / "link")))
        with mock.patch.dict(os.environ, VIALSHOAL_DATA=str(self.folder / "data")):
            self.assertFalse(notes.is_here("note"))
            notes.open_note("note", None, link_of(link.strip())).close()
            self.assertEqual([(one["line"], one["name"], one.get("own"), one["body"]) for one in self.remarks()],
                             [(2, "Bob", None, "which?")])
            self.assertEqual(read_only.own_sites(notes.path_of("note")), set())
            # What the log had is kept, so it is here without it.
            (self.folder / "log").unlink()
            self.assertEqual([one["body"] for one in self.remarks("note", status=3)], ["which?"])
            self.assertIn("The log can't be read", self.said)
            self.assertEqual([one["body"] for one in self.remarks("--open")], ["which?"])

    def test_what_was_deleted_is_where_it_was(self) -> None:
        self.made()
        for words in "jam", "honey":
            self.note("remark", "note", "--on", words, f"{words}?")
        self.note("remark", "note", "--at", "2:1", "here")
        for old, new in ("jam and ", ""), ("honey", "figs"):
            self.note("replace", "note", old, new)
        self.assertEqual([(one["line"], one["column"], one["body"], one.get("gone", False)) for one in self.remarks()],
                         [(2, 1, "jam?", True), (2, 1, "honey?", True), (2, 1, "here", False)])

    def test_words_that_begin_with_a_hyphen(self) -> None:
        self.made("a -b c\n")
        self.note("suggest", "note", "--on", "-b", "-d", "-e")
        self.assertEqual([(one["now"], one["new"], one["body"]) for one in self.remarks()], [("-b", "-d", "-e")])

    def test_a_note_of_the_first_form_has_no_margin(self) -> None:
        self.made(form=1)
        for words in (("remarks", "note"), ("remark", "note", "--on", "jam", "x"), ("suggest", "note", "--on", "jam", "x"),
                      ("reply", "note", "1:0", "x"), ("accept", "note", "1:0"), ("export", "note", "-", "--format", "critic")):
            with self.subTest(words):
                self.note(*words, status=2)
                self.assertIn("has no margin", self.said)
        # Of all notes it is passed over.
        self.made(name="other")
        self.note("remark", "other", "--on", "jam", "x")
        self.assertEqual([one["note"] for one in self.remarks("--open")], ["other"])

    def test_of_all_notes_and_of_some(self) -> None:
        for name in "one", "two":
            self.made(name=name)
            self.note("remark", name, "--on", "tea", "x")
            self.note("remark", name, "--on", "jam", "y", name="Bob")
        first = self.remarks("one", "--author", "ada")[0]
        self.note("resolve", "one", first["id"])
        self.assertEqual([(one["note"], one["name"]) for one in self.remarks("--open")], [("one", "Bob"), ("two", "Ada"), ("two", "Bob")])
        self.assertEqual(self.remarks("--open"), json.loads(self.note("remarks", "--json"))["remarks"])
        self.assertEqual(len(self.remarks("two", "one")), 4)
        self.assertEqual([one["state"] for one in self.remarks("one", "two", "--author", "ADA")], ["resolved", "open"])
        (self.folder / "data" / "notes" / "two.note").write_bytes(b"no note")
        self.assertEqual([one["note"] for one in self.remarks("--open", status=3)], ["one"])

    def test_words_are_data(self) -> None:
        """What people say begins no line of the list, and no sequence of a terminal."""
        self.made()
        hostile = "x\n\x1b[2Jnote:1:1  1:0  open\r\u202e\x9b31m"
        one = self.note("remark", "note", "--on", "jam", hostile).strip()
        self.note("suggest", "note", "--on", "honey", hostile, hostile)
        self.note("reply", "note", one, hostile)
        listed = self.note("remarks", "note")
        self.assertEqual(len([line for line in listed.split("\n") if line.startswith("note:")]), 2)
        for control in "\x1b", "\r", "\u202e", "\x9b":
            self.assertNotIn(control, listed)
        self.assertEqual(self.remarks()[0]["body"], hostile)

    def test_by_the_engine_that_has_it_open(self) -> None:
        self.made()
        editor = Editor(self.folder / "data")
        self.addCleanup(editor.close)
        one = self.note("remark", "note", "--on", "jam", "x").strip()
        self.note("suggest", "note", "--on", "tea", "y", name="Bob")
        editor.gets_number()
        self.assertEqual(one.partition(":")[0], str(editor.state["site"]))
        editor.edit((0, 0, "milk\n"))
        editor.settle()
        self.assertEqual([(found["name"], found["line"]) for found in self.remarks()], [("Bob", 2), ("Ada", 3)])


class CriticFiles(ReviewCase):
    """CriticMarkup of notes."""

    def test_out_and_in(self) -> None:
        self.made()
        one = self.note("remark", "note", "--on", "jam", "which?").strip()
        self.note("reply", "note", one, "fig", name="Bob")
        self.note("suggest", "note", "--on", "honey", "{++plum++}", name="Bob")
        self.note("suggest", "note", "--at", "1", "green ")
        done = self.note("remark", "note", "--on", "tea", "done").strip()
        self.note("resolve", "note", done)
        written = self.note("export", "note", "-", "--format", "critic")
        self.assertEqual(written, "{++green ++}{>>Ada:<<}tea\n{==jam==}{>>Ada: which?<<}{>>Bob: fig<<} and "
                                  "{~~honey~>{\\++plum++\\}~~}{>>Bob:<<}\n")
        self.assertIn("{==tea==}{>>Ada (resolved): done<<}", self.note("export", "note", "-", "--format", "critic", "--all"))
        # Nothing is said twice, whoever says it.
        for name in "Ada", "Bob", "Cid":
            self.note("import", "note", "-", "--format", "critic", given=written, name=name)
        self.assertEqual(self.note("export", "note", "-", "--format", "critic"), written)
        self.made(data="other", name="copy")
        came = self.note("import", "copy", "-", "--format", "critic", "--json", given=written, data="other")
        self.assertEqual(json.loads(came)["made"], 3)
        self.assertEqual(self.note("export", "copy", "-", "--format", "critic", data="other"),
                         written.replace("Bob: fig", "Ada: Bob: fig").replace("{>>Bob:<<}", "{>>Ada: Bob:<<}"))
        self.assertEqual(self.note("cat", "copy", data="other"), TEXT)

    @unittest.skipUnless(shutil.which("pandoc"), "pandoc isn't here")
    def test_pandoc_keeps_all_marks(self) -> None:
        self.made()
        self.note("reply", "note", self.note("remark", "note", "--on", "jam", "*which* one?").strip(), "fig", name="Bob")
        self.note("suggest", "note", "--on", "honey", "fig & plum")
        self.note("suggest", "note", "--on", "and ", "")
        self.note("suggest", "note", "--at", "1", "green ")
        written = self.note("export", "note", "-", "--format", "critic")
        self.assertEqual([written.count(mark) for mark in ("{++", "{--", "{~~", "{==", "{>>")], [1, 1, 1, 1, 5])
        read = subprocess.run(["pandoc", "-f", "commonmark", "-t", "plain", "--wrap=preserve"], input=written.encode(),
                              capture_output=True, check=True)
        self.assertEqual(read.stdout.decode(), written.replace("*which*", "which"))

    def test_of_another_text(self) -> None:
        self.made()
        for text, said in (("tea\njam und honey\n", "Line 2, column 5: the note has 'and honey\\n', and the file 'und honey\\n'"),
                           (TEXT + "x", "Line 3, column 1: the note has nothing more, and the file 'x'"),
                           ("{++tea++}", "Line 1, column 1: the note has 'tea\\njam and honey\\n', and the file nothing more"),
                           ("tea{++", "Line 1, column 4: {++ isn't followed by ++}")):
            with self.subTest(text):
                self.note("import", "note", "-", "--format", "critic", given=text, status=2)
                self.assertIn(said, self.said)
        self.note("import", "note", "-", "other", "-", "--format", "critic", status=2)
        self.assertEqual(self.remarks(), [])

    def test_states_come_again(self) -> None:
        self.made()
        self.note("resolve", "note", self.note("remark", "note", "--on", "tea", "x").strip())
        self.note("reject", "note", self.note("suggest", "note", "--on", "jam", "y").strip())
        self.note("accept", "note", self.note("suggest", "note", "--on", "honey", "z").strip())
        written = self.note("export", "note", "-", "--format", "critic", "--all")
        text = self.note("cat", "note")
        self.assertEqual(read(written)[0], text)
        self.made(text, name="copy")
        self.note("import", "copy", "-", "--format", "critic", given=written)
        self.assertEqual([(one["now"], one["state"]) for one in self.remarks("copy")][:2], [("tea", "resolved"), ("jam", "rejected")])
        self.assertEqual(self.note("export", "copy", "-", "--format", "critic"), text)

    def test_round_trips_at_random(self) -> None:
        for seed in range(ROUNDS):
            choice = random.Random(seed)
            text = "".join(some_text(choice, 40).split("\0")) + "end"
            self.made(text, name=f"note-{seed}")
            for _ in range(4):
                line = choice.randrange(text.count("\n") + 1)
                column = choice.randrange(len(text.split("\n")[line]) + 1)
                self.note("suggest", f"note-{seed}", "--at", f"{line + 1}:{column + 1}", "-", "b" + some_text(choice).replace("\0", ""),
                          given="n" + some_text(choice))
            self.note("remark", f"note-{seed}", "--on", "end", "r" + some_text(choice).replace("\0", ""))
            written = self.note("export", f"note-{seed}", "-", "--format", "critic")
            self.made(text, name=f"copy-{seed}")
            self.note("import", f"copy-{seed}", "-", "--format", "critic", given=written)
            self.assertEqual(self.note("export", f"copy-{seed}", "-", "--format", "critic"), written, seed)


class Words(HTMLParser):
    """What a page shows, and by which tags."""

    def __init__(self, page_of: str):
        super().__init__()
        self.tags, self.text = list[str](), ""
        self.feed(page_of)

    def handle_starttag(self, tag: str, attrs: list[tuple[str, str | None]]) -> None:
        self.tags.append(tag)

    def handle_data(self, data: str) -> None:
        self.text += data


class Margins(ReviewCase):
    """Pages with what is said in the margin."""

    def test_a_page(self) -> None:
        self.made()
        self.note("remark", "note", "--on", "jam", "<b>which?</b>\x1b")
        self.note("suggest", "note", "--on", "honey", "fig & plum")
        found = self.note("export", "note", "-", "--format", "html", "--remarks")
        for words in ('<mark>jam</mark><span class="said"><b>Ada</b>: &lt;b&gt;which?&lt;/b&gt;·</span>',
                      "<del>honey</del><ins>fig &amp; plum</ins>"):
            self.assertIn(words, found)
        self.assertNotIn("said", self.note("export", "note", "-", "--format", "html"))
        self.note("export", "note", "-", "--remarks", status=2)
        if shutil.which("pandoc"):
            plain = subprocess.run(["pandoc", "-f", "html", "-t", "markdown"], input=found.encode(), capture_output=True, check=True)
            self.assertIn("fig & plum", plain.stdout.decode())

    def test_stretches_that_overlap(self) -> None:
        text = "näher am Rand".encode()
        runs = [Run("a", 1, 0, 4), Run("a", 2, 0, len(text) - 4)]
        said = [InMargin(0, 6, {"kind": "remark", "state": "open", "name": "A", "body": "1"}),
                InMargin(3, 9, {"kind": "suggestion", "state": "open", "name": "B", "new": "2"}),
                InMargin(9, 9, {"kind": "remark", "state": "resolved", "name": "C", "body": "3",
                                "replies": [{"name": "D", "taken": True}]})]
        found = page("t", text, runs, said)
        words = Words(found)
        self.assertEqual(words.text[words.text.index("\nn"):].strip(), "näherA: 1 am2B: C (resolved): 3\nD: taken back Rand")
        self.assertEqual((words.tags.count("mark"), words.tags.count("del"), words.tags.count("ins")), (3, 3, 1))
        self.assertEqual(page("t", text, runs), page("t", text, runs, []))


if __name__ == "__main__":
    unittest.main()
