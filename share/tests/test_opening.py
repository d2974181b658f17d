"""Notes are made, joined by their links, copied under new keys, and brought back from what is left of them."""
import contextlib
import os
import pty
import random
import shutil
import subprocess
import unittest
from collections.abc import Callable

from share.format.second.key_link import link_of
from share.store import notes
from share.store.guarded import Unkept
from share.sync.session import Session
from share.tests.note import Note
from share.tests.servers import Hostile, RedisServer
from share.tests.forms import link_begin
from share.tests.support import NOTE, Case, Person, change, raws_of, type_at_the_end, wait_for, written
from share.tests.terminals import Answering
from share.text.errors import Trouble

INCOMPLETE = 3
CTRL_Q = b"\x11"


class Opening(Case):
    """Tests with people who run bin/note."""

    def run_as(self, person: Person, *words: str, **environment: str) -> subprocess.CompletedProcess[str]:
        """A run of bin/note of somebody."""
        return self.note(*words, VIALSHOAL_DATA=str(person.data), **environment)

    def assert_ends(self, run: subprocess.CompletedProcess[str], *parts: str, status: int = 0) -> None:
        """That a command ended so, and printed these parts."""
        self.assertEqual(run.returncode, status, run.stdout + run.stderr)
        for part in parts:
            self.assertIn(part, run.stdout)

    def made(self, name: str, url: str | None = None, words: str = "one ") -> Person:
        """Somebody who has a note with words."""
        person = self.person(name)
        note = person.open(url=url)
        written(note, words)
        note.session.close()
        return person

    def terminal(self, person: Person, *words: str, typed: bytes, until: Callable[[], object]) -> bytes:
        """What bin/note writes to a terminal in which this is typed, until something is so."""
        child, terminal = pty.fork()
        if not child:
            os.environ.update(VIALSHOAL_DATA=str(person.data), TERM="xterm-256color")
            os.execv(NOTE, [NOTE, *words])
        shown = b""
        try:
            os.set_blocking(terminal, False)

            def asked() -> bool:
                nonlocal shown
                with contextlib.suppress(OSError):
                    shown += os.read(terminal, 65_536)
                return b"Link: " in shown

            wait_for(asked, "the link to be asked for")
            os.write(terminal, typed)
            wait_for(lambda: (asked(), until())[1], "the note")
            os.write(terminal, CTRL_Q)
        finally:
            with contextlib.suppress(OSError):
                while wait_for(lambda: os.waitpid(child, os.WNOHANG)[0] == 0 or None, "the end"):
                    asked()
            os.close(terminal)
        return shown


class Links(Opening):
    """Links and passwords."""

    def test_a_link_is_printed_from_the_disk_alone(self) -> None:
        ann = self.made("ann", self.file_log())
        shutil.rmtree(self.folder / "shared")
        run = self.run_as(ann, "link", "note")
        self.assert_ends(run, link_begin("p"))
        self.assertEqual(link_of(run.stdout).url, self.file_log())

    def test_a_note_without_a_log_has_none(self) -> None:
        self.assert_says(self.run_as(self.made("ann"), "link", "note"), "on this machine alone", "bin/note renew note")
        self.assert_says(self.run_as(self.person("bob"), "link", "note"), "There is no note note here")

    def test_a_link_of_a_file_or_a_variable(self) -> None:
        link = self.made("ann", self.file_log()).link()
        (self.folder / "link").write_text(f"\n{link}\n")
        bob = self.person("bob")
        self.assert_ends(self.run_as(bob, "note", "--print", "--link-file", str(self.folder / "link")), "one ")
        self.assert_ends(self.run_as(bob, "note", "--print", VIALSHOAL_LINK=link), "one ")
        self.assert_says(self.run_as(bob, "note", "--print", VIALSHOAL_LINK=link[:-len(self.file_log()) - 5]),
                         "isn't a note's link")
        self.assert_says(self.run_as(bob, "note", "--print", "--link-file", "/nowhere/link"), "can't be read")
        self.assertFalse(bob.data.exists())

    def test_a_link_that_is_asked_for(self) -> None:
        link, bob = self.made("ann", self.file_log()).link(), self.person("bob")
        shown = self.terminal(bob, "note", typed=link.encode() + b"\n",
                              until=lambda: bob.path().exists() and bob.text() == b"one ")
        self.assertNotIn(link.encode()[:30], shown)
        self.assertEqual(bob.link(), link)

    def test_a_link_of_another_note(self) -> None:
        ann = self.made("ann", self.file_log())
        other = self.person("bob")
        note = other.open(url=str(self.folder / "other.log"))
        note.session.close()
        run = self.run_as(ann, "note", "--print", VIALSHOAL_LINK=other.link())
        self.assert_says(run, "another one than the link's")

    def test_a_link_that_names_another_log(self) -> None:
        server, asked = self.redis(), list[bytes]()
        ann, bob, file = self.made("ann", server.url), self.person("bob"), self.folder / "link"
        other = Hostile(lambda words: asked.append(words) or b"-ERR no\r\n")
        self.addCleanup(other.close)
        right, wrong = ann.link(), link_of(ann.link())._replace(url=other.url).spelled()
        cut = link_of(right)._replace(url="redis://127.0.0.1:1")
        with bob.here(), contextlib.closing(notes.open_note("note", None, cut)):
            pass
        words = "append", "note", "two ", "--link-file", str(file)
        for link, answer, status in (wrong, "", 2), (wrong, "n", 2), (right, "y", 0):
            file.write_text(link)
            if not answer:
                self.assert_says(self.run_as(bob, *words), cut.url, other.url, "Nothing was sent", f"--log {other.url}")
                continue
            with Answering(bob.data, *words) as run:
                run.sees(cut.url, link_of(link).url, "Go on with")
                run.type(f"{answer}\n")
                self.assertEqual(run.status(), status, run.shown)
            self.assertEqual(bob.link() == right, answer == "y")
        self.assertEqual(asked, [])
        self.assert_ends(self.run_as(ann, "cat", "note"), "one two \n")

    def test_a_password_of_a_file_or_a_variable(self) -> None:
        server = RedisServer(self.folder / "redis", "--requirepass", "open sesame")
        self.addCleanup(server.close)
        (self.folder / "password").write_text("open sesame\n")
        ann = self.person("ann")
        with ann.here():
            note = Note(Session(notes.open_note("note", server.url, None), "open sesame"))
        written(note, "one ")
        note.session.close()
        bob, link = self.person("bob"), ann.link()
        ways: list[tuple[list[str], dict[str, str]]] = [
            (["--password-file", str(self.folder / "password")], {}), ([], {"VIALSHOAL_PASSWORD": "open sesame"})]
        for more, environment in ways:
            run = self.run_as(bob, "note", "--print", *more, VIALSHOAL_LINK=link, **environment)
            self.assert_ends(run, "one ")
        for environment in dict[str, str](), {"VIALSHOAL_PASSWORD": "else"}:
            run = self.run_as(bob, "note", "--print", VIALSHOAL_LINK=link, **environment)
            self.assert_ends(run, status=INCOMPLETE)
            self.assertIn("password", run.stderr)
            self.assertNotIn("sesame", run.stderr)

    def test_verbs_and_notes_of_their_names(self) -> None:
        ann = self.made("ann")
        self.assert_ends(self.run_as(ann, "open", "note", "--print"), "one ")
        for verb in "link", "renew", "recover", "open":
            run = self.run_as(ann, verb, "--print")
            self.assert_says(run, verb)
            self.assertFalse(ann.path(verb).exists())
            self.assert_says(self.run_as(ann, "open", verb, "--print"), f"There is no note {verb} here")

    def test_names_that_are_none(self) -> None:
        for name in "a/b", "..", "x" * 65, ".x", "\x1b[31m":
            self.assert_says(self.note("--print", name), "can't be a note's name", "Use up to 64 letters")

    def test_a_folder_that_can_not_be_written(self) -> None:
        (self.folder / "data").write_text("no folder")
        with self.person().here(), self.assertRaisesRegex((Trouble, Unkept), "Not a directory|File exists"):
            notes.open_note("note", None, None)


class Moved(Opening):
    """A note whose log is at another place."""

    def test_a_log_that_moved_has_all(self) -> None:
        ann = self.made("ann", self.file_log())
        moved = str(self.folder / "moved.log")
        note = self.opened(ann, url=moved)
        written(note, "two ")
        with contextlib.closing(ann.log()) as log:
            self.assertEqual(len(raws_of(log)), 3)
        self.assertEqual(link_of(ann.link()).url, moved)
        bob = self.opened(self.person("bob"), link=ann.link())
        self.assertEqual(self.assert_meet(note, bob), b"one two ")

    def test_a_server_that_moved(self) -> None:
        one, two = RedisServer(self.folder / "one"), RedisServer(self.folder / "two")
        self.addCleanup(one.close)
        self.addCleanup(two.close)
        ann = self.made("ann", one.url)
        bob = self.person("bob")
        bob.open(link=ann.link()).session.close()
        notes = [self.opened(person, url=two.url) for person in (ann, bob)]
        written(notes[0], "two ")
        self.assert_comes_to(notes[1], b"one two ")
        written(notes[1], "three ")
        self.assertEqual(self.assert_meet(*notes), b"one two three ")

    def test_nothing_plain_goes_to_a_server(self) -> None:
        ann = self.made("ann", self.file_log())
        server = self.redis()
        with ann.here(), self.assertRaisesRegex(Trouble, "isn't sealed.*bin/note renew note --log redis"):
            notes.open_note("note", server.url, None)
        self.assertEqual(link_of(ann.link()).url, self.file_log())


class Renewed(Opening):
    """Notes that are copied under a new key."""

    def test_a_new_key_and_the_same_text(self) -> None:
        server = self.redis()
        ann = self.made("ann", server.url)
        before = ann.link()
        bob = self.opened(self.person("bob"), link=before)
        self.assert_ends(self.run_as(ann, "renew", "note"), "note is a new note", "which is note.old-1 now")
        self.assertNotEqual(ann.link(), before)
        self.assertEqual(ann.link("note.old-1"), before)
        note = self.opened(ann)
        written(note, "two ")
        carol = self.opened(self.person("carol"), link=ann.link())
        self.assertEqual(self.assert_meet(note, carol), b"one two ")
        bob.take_in()
        self.assert_comes_to(bob, b"one ")
        self.assertEqual(ann.text("note.old-1"), b"one ")

    def test_from_one_machine_to_a_server(self) -> None:
        ann, server = self.made("ann"), self.redis()
        self.assert_ends(self.run_as(ann, "renew", "note", "--log", server.url))
        self.assertTrue(ann.link().startswith(link_begin("s")))
        bob = self.opened(self.person("bob"), link=ann.link())
        written(self.opened(ann), "two ")
        wait_for(lambda: (bob.take_in(), bytes(bob.text) == b"one two ")[1], "all to be there")

    def test_a_note_that_is_open(self) -> None:
        ann = self.made("ann")
        note = self.opened(ann)
        written(note, "two ")
        self.assert_says(self.run_as(ann, "renew", "note"), "is open", "Quit its editors first")
        self.assertEqual([path.name for path in ann.path().parent.glob("*.note")], ["note.note"])

    def test_what_is_missing_is_told(self) -> None:
        ann = self.made("ann", words="one ")
        written(two := self.opened(ann), "two ")
        two.session.close()
        change(ann.path(), "UPDATE entry SET raw = x'00' WHERE place = 2")
        run = self.run_as(ann, "renew", "note")
        self.assert_ends(run, "note is a new note", status=INCOMPLETE)
        self.assertIn("An entry of the file isn't spelled as one", run.stderr)
        self.assertIn("1 message lacks", run.stderr)


class Recovered(Opening):
    """Notes of which nothing but some people's damaged files is left."""

    def test_one_persons_file(self) -> None:
        ann = self.made("ann", self.file_log(), "one two ")
        shutil.rmtree(self.folder / "shared")
        bob = self.person("bob")
        run = self.run_as(bob, "recover", str(ann.data))
        self.assert_ends(run, "note: 1 messages of 1 sites")
        self.assertEqual(bob.text(), b"one two ")
        # Ann's file says where its log is, and nothing is made there because of that.
        self.assertIn(f"Its log was the file {self.file_log()}, which isn't gone on with unless you name it", run.stdout)
        note = bob.open()
        type_at_the_end(note, "three ")
        note.session.close()
        self.assertFalse((self.folder / "shared").exists())
        written(self.opened(bob, url=self.file_log()), "four ")
        self.assertEqual(bob.link(), ann.link())
        # One's own file is believed.
        ann.path().rename(ann.path().with_name("note.note.damaged-1"))
        self.assertNotIn("Its log was", self.run_as(ann, "recover", str(ann.data)).stdout)
        self.assertEqual(bob.link(), ann.link())

    def test_a_file_that_names_a_server(self) -> None:
        server = self.redis()
        ann, bob = self.made("ann", server.url), self.person("bob")
        self.assert_ends(self.run_as(bob, "recover", str(ann.data)), "note: 1 messages of 1 sites")
        self.assertEqual(bob.link(), ann.link())

    def test_several_damaged_folders(self) -> None:
        chance = random.Random(7)
        notes = self.together(self.file_log(), "ann", "bob", "carol")
        for number in range(30):
            type_at_the_end(notes[number % 3], f"word{number} ")
        text = self.assert_meet(*notes)
        for note in notes:
            note.session.close()
        shutil.rmtree(self.folder / "shared")
        people = [self.person(name) for name in ("ann", "bob", "carol")]
        with contextlib.closing(people[0].disk()) as disk:
            hashes = chance.sample(sorted(row.entry.hash for row in disk.entries.rows()), 15)
        for number, person in enumerate(people):
            # Each entry is damaged in one file.
            for of in hashes[number::3]:
                change(person.path(), "UPDATE entry SET raw = CAST(raw || x'00' AS BLOB) WHERE hash = ?", of)
            self.assertNotEqual(person.text(), text)
        people[2].path().rename(people[2].path().with_name("note.note.damaged-1"))
        dave = self.person("dave")
        run = self.run_as(dave, "recover", *(str(person.data) for person in people))
        self.assert_ends(run, "is damaged")
        self.assertEqual(dave.text(), text)
        self.assertEqual(len(list(dave.data.rglob("*.note"))), 1)

    def test_rubbish_beside_them(self) -> None:
        ann = self.made("ann")
        folder = ann.path().parent
        (folder / "words.note").write_text("These are words.\n" * 100)
        (folder / "empty.note").touch()
        (folder / "cut.note").write_bytes(ann.path().read_bytes()[:300])
        shutil.copy(ann.path(), folder / "1 (copy).note")
        run = self.run_as(self.person("bob"), "recover", str(ann.data))
        self.assert_ends(run, "words.note", "empty.note", "cut.note", "1 messages")
        (made,) = (self.person("bob").data / "notes").glob("*.note")
        self.assertEqual(self.person("bob").text(made.stem), b"one ")

    def test_another_note_of_the_name(self) -> None:
        ann, bob = self.made("ann", words="ann's "), self.made("bob", words="bob's ")
        self.assert_ends(self.run_as(bob, "recover", str(ann.data)), "note.2: 1 messages")
        self.assertEqual((bob.text(), bob.text("note.2")), (b"bob's ", b"ann's "))

    def test_folders_with_nothing(self) -> None:
        self.assert_says(self.note("recover", "/nowhere"), "/nowhere isn't there")
        (self.folder / "none").mkdir()
        self.assert_ends(self.note("recover", str(self.folder / "none")), "No note's file was found")

    def test_a_damaged_file_is_told(self) -> None:
        ann = self.made("ann")
        ann.path().write_bytes(b"words")
        with ann.here(), self.assertRaisesRegex(Trouble, "bin/note recover .*join the note again"):
            notes.open_note("note", None, None)


if __name__ == "__main__":
    unittest.main()
