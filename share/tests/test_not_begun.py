"""Notes whose log lacks what they begin with, as one that was renewed, or made, while its log was away: whoever joins is told, and can't
type until that is there."""
import contextlib
import os
import shutil
import unittest
from collections.abc import Collection
from typing import cast
from unittest import mock

from share.program.claim_search import ClaimSearch
from share.store import notes
from share.store.note_file import SECOND
from share.sync import errand
from share.sync.replicator import Replicator
from share.tests.editors import Editor
from share.tests.note import Note
from share.tests.servers import RedisServer
from share.tests.support import Case, Person, change, type_at_the_end, wait_for, written
from share.tests.terminals import Terminal
from share.text.errors import BEGIN_LOST, BEGUN, NOT_BEGUN, Trouble

INCOMPLETE = 3


class Joining(Case):
    """Ann has a note, and Bob joins it before she opens it again."""

    def setUp(self) -> None:
        super().setUp()
        second = mock.patch.dict(os.environ, VIALSHOAL_FORM="2", VIALSHOAL_ZERO_BITS="0")
        second.start()
        self.addCleanup(second.stop)
        self.ann = self.person("ann")

    def written(self, url: str | None = None) -> int:
        """Has Ann write a word in a note, and close it; her number."""
        note = self.ann.open(url=url)
        type_at_the_end(note, "one ")
        note.session.close()
        return note.session.number

    def types(self, note: Note) -> bool:
        """Whether something can be typed into a note by now."""
        note.take_in()
        return note.session.can_type

    def test_who_joins_a_renewed_note_has_its_text_before_it_is_opened(self) -> None:
        for url in self.file_log(), self.redis().url:
            self.ann = self.person(f"ann-{len(url)}")
            self.written(url)
            for form in "1", "2":
                with self.subTest(url, form=form):
                    run = self.note("renew", "note", "--form", form, VIALSHOAL_DATA=str(self.ann.data))
                    self.assertEqual((run.returncode, run.stderr), (0, ""))
                    bob = self.opened(self.person(f"bob-{form}-{len(url)}"), link=self.ann.link())
                    self.assert_comes_to(bob, b"one ")
                    written(bob, "")
                    bob.session.close()

    def away(self, server: RedisServer, is_renewed: bool) -> str:
        """The link of a note of Ann's that she renewed, or made, while its server was away, which is back now."""
        if is_renewed:
            self.written()
        server.kill()
        if is_renewed:
            run = self.note("renew", "note", "--log", server.url, VIALSHOAL_DATA=str(self.ann.data))
            self.assertEqual(run.returncode, 0)
            self.assertRegex(run.stderr, "log couldn't be given the new note .*bin/note sync note")
        else:
            self.written(server.url)
        server.start()
        return self.ann.link()

    def test_nothing_can_be_typed_into_what_its_log_lacks(self) -> None:
        for is_renewed in True, False:
            with self.subTest(is_renewed=is_renewed):
                self.ann = self.person(f"ann-{is_renewed}")
                server = RedisServer(self.folder / f"redis-{is_renewed}")
                self.addCleanup(server.close)
                link = self.away(server, is_renewed)
                bob = Editor(self.folder / f"bob-{is_renewed}", link=link)
                self.addCleanup(bob.close)
                self.is_told(bob)
                self.a_script_is_told(link, f"cy-{is_renewed}")
                ann = self.opened(self.ann)
                bob.shows("one ")
                bob.gets_number()
                self.assertEqual([words for words in self.said(bob) if words in (NOT_BEGUN, BEGUN)], [NOT_BEGUN, BEGUN])
                self.assertNotIn("trouble", bob.state)
                bob.type("two ")
                self.assertNotIn("error", bob.settle())
                self.assert_comes_to(ann, b"one two ")

    def said(self, editor: Editor) -> list[str]:
        """What an editor was told."""
        return [line["words"] for line in editor.notices("says")]

    def is_told(self, editor: Editor) -> None:
        """That an editor is told why nothing can be typed, and types in vain."""
        editor.wait_for(lambda: NOT_BEGUN in self.said(editor), "a word")
        state = editor.wait_for(lambda: editor.notices("state"), "the state")[-1]
        self.assertEqual((state["types"], state["trouble"]), (False, NOT_BEGUN))
        editor.type("lost")
        answer = editor.settle()
        self.assertEqual((answer["error"], answer["words"]), ("number", NOT_BEGUN))
        editor.shows("")

    def a_script_is_told(self, link: str, name: str) -> None:
        """That scripts of somebody who joins type nothing, and say that nothing is printed."""
        as_cy = {"VIALSHOAL_DATA": str(self.folder / name), "VIALSHOAL_LINK": link}
        self.assert_says(self.note("append", "note", "lost", **as_cy), NOT_BEGUN)
        run = self.note("cat", "note", **as_cy)
        self.assertEqual((run.returncode, run.stdout, run.stderr), (INCOMPLETE, "", f"note: {NOT_BEGUN}\n"))

    def test_a_terminal_says_so(self) -> None:
        server = self.redis()
        link = self.away(server, True)
        # A sentence that is longer than the line begins there.
        words = NOT_BEGUN[:40]
        terminal = Terminal(self, "bob", "note", begins=words, link=link)
        # Of keys the terminal takes first those that came first.
        terminal.type("lost")
        terminal.press("C-f")
        terminal.sees("Find")
        terminal.press("Escape")
        self.opened(self.ann)
        terminal.sees("one")
        terminal.sees(BEGUN)
        # These words stay for seconds, and until a key is pressed. Only then it shows whether there is a number; nothing is typed before.
        wait_for(lambda: (terminal.press("End"), "site " in terminal.lines()[-1])[1], "a number")
        terminal.type("two ")
        terminal.shows("one two")

    def test_what_a_note_alone_began_with_is_damaged(self) -> None:
        self.written()
        with self.ann.here():
            notes.renew("note", None, None, form_number=SECOND)
        change(self.ann.path(), "UPDATE entry SET raw = x'00' WHERE place = 2")
        note = self.opened(self.ann)
        self.assertEqual((bytes(note.text), self.types(note), note.session.status().trouble), (b"", False, BEGIN_LOST))
        with self.assertRaisesRegex(Trouble, "bin/note recover FOLDER"):
            note.session.insert(0, b"lost")

    def test_what_was_typed_is_as_it_was_once_what_the_note_began_with_is_back(self) -> None:
        number = self.written()
        shutil.copytree(self.ann.data, self.folder / "copy")
        change(self.ann.path(), "UPDATE entry SET raw = x'00' WHERE place = 1")
        for _ in range(2):
            note = self.ann.open()
            self.assertEqual((bytes(note.text), self.types(note), note.session.status().trouble), (b"", False, BEGIN_LOST))
            self.assertNotIn("Made anew", " ".join(note.told))
            note.session.close()
        with self.ann.here():
            notes.recover([self.folder / "copy"])
        note = self.opened(self.ann)
        self.assertEqual((bytes(note.text), note.session.number), (b"one ", number))
        with contextlib.closing(self.ann.disk()) as disk:
            self.assertEqual([row.entry.site for row in disk.entries.rows() if row.entry.kind.has_messages], [number])

    def test_a_number_that_was_copied_is_never_kept(self) -> None:
        url, number = self.file_log(), self.written()
        with self.ann.here():
            notes.renew("note", url, None, form_number=SECOND)
        searches = list[Collection[int]]()

        def begin(note: bytes, author: bytes, taken: Collection[int], zero_bits: int) -> ClaimSearch:
            searches.append(taken)
            # The first one finds the number that was copied.
            return ClaimSearch(note, author, {*range(1, 65_529)} - {number} if len(searches) == 1 else taken, zero_bits)

        with mock.patch("share.sync.number_search.ClaimSearch", begin):
            bob = self.opened(self.person("bob"), link=self.ann.link())
            search = bob.session._numbers.search
            assert search
            wait_for(lambda: (bob.take_in(), search._found)[1], "a number to be found")
            self.assertEqual(bob.session.status().trouble, NOT_BEGUN)
            with contextlib.closing(self.person("bob").disk()) as disk:
                self.assertEqual(disk.own.clients(), [])
            self.opened(self.ann)
            wait_for(lambda: self.types(bob), "a number")
        self.assertNotEqual(bob.session.number, number)
        self.assertIn(number, searches[1])
        self.assert_comes_to(bob, b"one ")

    def numbers(self, person: Person) -> list[int]:
        """The numbers of somebody that weren't given up."""
        with contextlib.closing(person.disk()) as disk:
            return [one.site for one in disk.own.clients() if not one.retired]

    def found_and_closed(self, bob: Person, number: int) -> None:
        """Has Bob join, and close the note once this number was found, before its begin is in the log."""
        def begin(note: bytes, author: bytes, _: Collection[int], zero_bits: int) -> ClaimSearch:
            return ClaimSearch(note, author, {*range(1, 65_529)} - {number}, zero_bits)

        with mock.patch("share.sync.number_search.ClaimSearch", begin):
            note = bob.open(link=self.ann.link())
            search = note.session._numbers.search
            assert search
            wait_for(search.is_ready, "a number to be found")
            note.session.close()

    def test_a_number_that_was_kept_before_it_was_known_to_be_anothers_is_given_up(self) -> None:
        for is_copied in True, False:
            for is_known in False, True:
                with self.subTest(is_copied=is_copied, is_known=is_known):
                    name = f"{is_copied}-{is_known}"
                    self.ann, bob = self.person(f"ann-{name}"), self.person(f"bob-{name}")
                    copied = self.written()
                    with self.ann.here():
                        notes.renew("note", str(self.folder / f"{name}.log"), None, form_number=SECOND)
                    number = copied if is_copied else self.numbers(self.ann)[0]
                    self.found_and_closed(bob, number)
                    self.assertEqual(self.numbers(bob), [number])
                    if is_known:
                        self.ann.reads()
                    note = self.opened(bob)
                    if not is_known:
                        self.assertEqual((note.session.number, note.session.status().trouble), (number, NOT_BEGUN))
                        self.ann.reads()
                    wait_for(lambda one=note: self.types(one), "another number")
                    self.assertNotIn(number, self.numbers(bob))
                    self.assert_comes_to(note, b"one ")
                    written(note, "two ")

    def test_a_log_is_given_a_long_note_as_long_as_it_takes_more_of_it(self) -> None:
        class Slow:
            """A replicator that gives an entry in twenty seconds."""

            given, stops = 0, 100

            def next_to_give(self) -> int | None:
                self.given = min(self.given + 1, self.stops)
                return self.given

            def has_read(self) -> bool:
                return True

            def is_up_to_date(self) -> bool:
                return self.given >= 100

            def offline(self) -> str | None:
                return None

            def progress(self) -> tuple[int, int] | None:
                return None

            def reading(self) -> int:
                return 1

            def unsent(self) -> int:
                return 0

        for stops in 100, 50:
            slow, clock = Slow(), iter(range(0, 10_000, 20))
            slow.stops = stops
            with mock.patch("share.sync.errand.time.monotonic", lambda: next(clock)):
                self.assertEqual(errand._until_done(cast(Replicator, slow), mock.Mock()) is None, stops == 100)


if __name__ == "__main__":
    unittest.main()
