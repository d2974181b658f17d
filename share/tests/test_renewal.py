"""Notes that begin anew with their text, without the history and without what some have typed; and what those are told who
have the old one."""
import contextlib
import functools
import json
import os
import pty
import subprocess
from unittest import mock

from share.admission.judges import judge_of
from share.format.history import Messages
from share.program.site import Site
from share.store import nicknames, notes, renewal
from share.store.read_only import found_in
from share.tests.editors import Editor
from share.tests.note import Note
from share.tests.support import NOTE, Case, Person, type_at_the_end, wait_for, written
from share.tests.waiting import PATIENCE
from share.text.errors import Trouble
from share.text.looks import Looks

REFUSED = r"refused \(21\).*bin/note renew NAME --fresh"


class Renewing(Case):
    """A note of three, of whom one is shut out."""

    def setUp(self) -> None:
        super().setUp()
        self.ann = self.person("ann")

    def run_as(self, person: Person, *words: str, status: int = 0) -> str:
        """What bin/note prints for somebody, with this status."""
        done = subprocess.run([NOTE, *words], capture_output=True, timeout=PATIENCE, check=False, stdin=subprocess.DEVNULL,
                              env={**os.environ, "VIALSHOAL_DATA": str(person.data), "VIALSHOAL_NAME": "Ann"})
        self.assertEqual(done.returncode, status, (words, done.stdout, done.stderr))
        self.said = done.stderr.decode()
        return done.stdout.decode()

    said = ""

    @staticmethod
    def stands_in(note: Note, words: str) -> bool:
        """Whether words have come to a note."""
        note.take_in()
        return words.encode() in note.text

    def written(self, url: str | None = None) -> dict[str, int]:
        """Has Mallory write a line, and Ann and Bob between its words, behind it and within what each other wrote; the
        numbers by the names."""
        notes = dict(zip(("mallory", "ann", "bob"), self.together(url or self.file_log(), "mallory", "ann", "bob")))
        for name, after, words in (("mallory", "", "SPAM SPAM. "), ("ann", "SPAM ", "one "), ("bob", "SPAM. ", "two three "),
                                   ("ann", "two ", "and "), ("mallory", "two", "SPAM"), ("bob", "and ", "so ")):
            note = notes[name]
            wait_for(functools.partial(self.stands_in, note, after), "what it stands after")
            note.moved_to(note.text.index(after.encode()) + len(after))
            note.type(words)
            written(note, "")
        notes["ann"].moved_to(0)
        notes["ann"].type("zero ")
        written(notes["ann"], "")
        text = self.assert_meet(*notes.values())
        self.assertEqual(text, b"zero SPAM one SPAM. twoSPAM and so three ")
        for note in notes.values():
            note.session.close()
        return {name: note.session.number for name, note in notes.items()}

    def test_all_that_the_others_wrote_is_there_in_its_order(self) -> None:
        numbers = self.written()
        with self.ann.here():
            nicknames.remember("note", {numbers["mallory"]: "Mallory", numbers["bob"]: "Bob"})
        self.run_as(self.ann, "renew", "note", "--without", str(numbers["mallory"]), status=2)
        self.assertIn("--yes", self.said)
        told = self.run_as(self.ann, "renew", "note", "--without", str(numbers["mallory"]), "--yes")
        self.assertIn("Its history begins there", told)
        self.assertIn(f"Not in it: 15 characters of Mallory (site {numbers['mallory']}).", told)
        with self.ann.here():
            self.assertEqual(nicknames.known("note"), {numbers["bob"]: "Bob"})
        note = self.opened(self.ann)
        self.assert_comes_to(note, b"zero one two and so three ")
        # Who wrote what is known as before, and nothing of the history is there.
        found = json.loads(self.run_as(self.ann, "log", "note", "--json"))
        self.assertEqual([(step["site"], step["text"]) for step in found["steps"]],
                         [(numbers["ann"], "zero one "), (numbers["bob"], "two "), (numbers["ann"], "and "),
                          (numbers["bob"], "so three ")])
        self.assertNotIn(b"SPAM", b"".join(entry.spelled for entry in found_in(self.ann.path()).entries))
        # It can be joined and gone on with.
        bob = self.opened(self.person("bob"), "new", link=self.ann.link())
        written(note, "four")
        self.assertEqual(self.assert_meet(note, bob), b"zero one two and so three four")

    def test_one_is_asked_at_a_terminal(self) -> None:
        note = self.opened(self.ann)
        written(note, "one ")
        note.session.close()
        for answer, last in ("n\n", "Nothing was done."), ("y\n", "note.old-1"):
            child, terminal = pty.fork()
            if not child:
                os.environ.update(VIALSHOAL_DATA=str(self.ann.data), TERM="xterm")
                os.execv(NOTE, [NOTE, "renew", "note", "--fresh"])
            shown = b""
            while last.encode() not in shown:
                shown += os.read(terminal, 65_536)
                if shown.endswith(b"(y or n)? "):
                    self.assertIn(b"Its history begins there", shown)
                    os.write(terminal, answer.encode())
            with contextlib.suppress(OSError):
                while os.read(terminal, 65_536):
                    pass
            os.close(terminal)
            os.waitpid(child, 0)
            self.assertEqual(self.ann.path("note.old-1").exists(), answer == "y\n")

    def test_looks_and_any_bytes_are_kept(self) -> None:
        with contextlib.closing(Site(7)) as one, contextlib.closing(Site(9)) as two:
            messages = one.insert(0, "é漢🎉 ".encode() * 2_000).messages
            two.take(messages)
            messages += two.insert(3, b"\xff\x00\r" * 10).messages
            one.take(messages)
            for looks, at in (Looks("Oberon12b.Scn.Fnt", 5, -3), 0), (Looks(None, 3, None), 20):
                messages += one.look(looks, one.names(at, at + 25)).messages
            made = renewal.fresh(Messages(messages), frozenset())
            self.assertEqual({*made.sizes}, {7, 9})
            with contextlib.closing(Site(1, made.messages)) as new:
                self.assertEqual((new.text(), new.runs()), (one.text(), one.runs()))
                self.assertEqual([names.site for names in new.names(0, 60)], [names.site for names in one.names(0, 60)])
            self.assertLess(len(made.messages), 20)

    def test_a_note_that_is_full_goes_on(self) -> None:
        note = self.opened(self.ann)
        for number in range(10):
            type_at_the_end(note, f"{number}")
        with mock.patch("share.program.site.MOST_MESSAGES", 10):
            note.type("!")
            self.assertRegex(note.notice, REFUSED)
            note.session.close()
            # A copy with the history would be full, too.
            with self.ann.here(), self.assertRaisesRegex(Trouble, "has 10 messages.*bin/note renew note --fresh"):
                notes.renew("note", None, None)
            self.assertFalse(self.ann.path("note.old-1").exists())
            with self.ann.here():
                notes.renew("note", None, None, begins=lambda messages: renewal.fresh(messages, frozenset()).messages)
            note = self.opened(self.ann)
            type_at_the_end(note, "!")
            self.assertEqual((bytes(note.text), note.notice), (b"0123456789!", ""))

    def test_that_a_note_is_nearly_full_is_told_once(self) -> None:
        with mock.patch("share.program.site.MOST_MESSAGES", 21):
            note = self.opened(self.ann)
            for number in range(18):
                type_at_the_end(note, "x")
            note.take_in()
            self.assertEqual(note.notice, "")
            for number in range(2):
                type_at_the_end(note, "x")
            note.take_in()
            self.assertRegex(note.notice, "has 20 messages.*nearly full. bin/note renew note --fresh")
            note.notice = ""
            type_at_the_end(note, "x")
            note.take_in()
            self.assertEqual(note.notice, "")
            self.assertEqual(bytes(note.text), b"x" * 21)

    def test_those_who_have_the_old_one_are_told(self) -> None:
        server = self.redis()
        note = self.opened(self.ann, url=server.url)
        written(note, "one ")
        link = self.ann.link()
        note.session.close()
        bob = Editor(self.folder / "bob", link=link)
        self.addCleanup(bob.close)
        bob.shows("one ")
        number = note.session.number
        self.assertNotIn("renewed", bob.wait_for(lambda: bob.notices("state"), "the state")[-1])
        self.run_as(self.ann, "renew", "note")
        by = {"site": number, "own": False, "name": "Ann"}
        bob.wait_for(lambda: bob.notices("state")[-1].get("renewed") == by, "the state to say so")
        words = f"This note was renewed by Ann (site {number}): ask for the new link."
        bob.wait_for(lambda: words in [line["words"] for line in bob.notices("says")], "a word")
        bob.close()
        self.run_as(self.person("bob"), "cat", "note", status=3)
        self.assertIn(words, self.said)
        self.run_as(self.ann, "cat", "note.old-1", status=3)
        self.assertIn("You have renewed this note", self.said)
        self.run_as(self.ann, "cat", "note")

    def test_nobody_says_so_in_the_name_of_another(self) -> None:
        note = self.opened(self.ann)
        written(note, "one ")
        with contextlib.closing(self.ann.disk()) as disk:
            form, (client, *_) = disk.form, disk.own.clients()
            rows = [row.entry for row in disk.entries.rows()]
        stranger = form.new_author()
        judge = judge_of(form, [*rows, form.renewed("Ann", client.site, stranger), form.renewed("Ann", 9, stranger)])
        self.assertIsNone(renewal.renewed_by(judge, set()))
        judge.add(form.renewed("A\x1b[31m" + "n" * 300, client.site, client.author))
        said = renewal.renewed_by(judge, set())
        assert said
        self.assertEqual((said["site"], said["own"], len(said["name"])), (client.site, False, 40))
        self.assertEqual(judge.count().messages, judge_of(form, rows).count().messages)


if __name__ == "__main__":
    import unittest
    unittest.main()
