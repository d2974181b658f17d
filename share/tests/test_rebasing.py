"""What fails as edits are rebased: nothing of them is lost or comes twice, what others type comes in meanwhile, and it is tried again ever
more rarely."""
import unittest
from collections.abc import Callable
from contextlib import suppress
from typing import Any
from unittest import mock

from share.store.guarded import Damaged
from share.store.own import OwnTables
from share.sync.backoff import Turns
from share.sync.numbers import Numbers
from share.sync.rebase import rebase
from share.tests import test_numbers
from share.tests.note import Note
from share.tests.support import Case, type_at_the_end, wait_for, written
from share.text.errors import Refused, Trouble

# How often it fails.
TIMES = 3
# As the program says it, and what nobody has thought of.
FAULTS = Trouble("The program ended and couldn't be started again."), Refused(21), Refused(10), ValueError("a fault")


class Failing(Case):
    """Two of whom one is a copy, who typed offline: the edits of one of them have to be made anew."""

    begun, copied, away, back, form = (getattr(test_numbers.Numbers, name)
                                       for name in ("begun", "copied", "away", "back", "form"))

    def setUp(self) -> None:
        super().setUp()
        self.url, self.anna = self.file_log(), self.person("anna")
        for name, seconds in (("share.sync.rebasing.REBASE_AGAIN_SECONDS", 0.1), ("share.sync.backoff.MOST_REBASE_SECONDS", 0.1)):
            quick = mock.patch(name, seconds)
            quick.start()
            self.addCleanup(quick.stop)

    def forked(self) -> list[Note]:
        """They have typed, and will meet; and a third one."""
        link = self.begun()
        notes = [self.opened(self.anna), self.opened(self.copied())]
        self.away()
        for note, words in zip(notes, ("F ", "S ")):
            wait_for(lambda one=note: one.session.status().offline, "the log to be away")
            type_at_the_end(note, words)
        self.back()
        return [*notes, self.opened(self.person("third"), link=link)]

    def take_in(self, *notes: Note) -> None:
        """Has them take in what came, as an engine has it, which goes on after any fault."""
        for note in notes:
            with suppress(Trouble, ValueError, Damaged):
                note.take_in()

    def until(self, condition: Callable[[], Any], what: str, *notes: Note) -> None:
        """Has them take in what came until something is so."""
        wait_for(lambda: (self.take_in(*notes), condition())[1], what)

    def assert_all_is_there(self, notes: list[Note], words: bytes) -> None:
        """That all come to show these words, each of them once."""
        self.until(lambda: len({note.text.count(b" ") for note in notes}) == 1 and len(notes[0].text.split()) == len(words.split()),
                   f"{words!r} to be shown", *notes)
        self.assertEqual(sorted(self.assert_meet(*notes).split()), sorted(words.split()))
        self.assertEqual([note.session.status().trouble for note in notes], [None] * len(notes))

    def test_it_fails_after_something_was_made(self) -> None:
        for number, fault in enumerate(FAULTS):
            with self.subTest(repr(fault)):
                if number:
                    self.doCleanups()
                    self.setUp()
                self.fail_with(fault)

    def fail_with(self, fault: Exception) -> None:
        """That all is there once what fails so goes on."""
        tried = list[bool]()

        def failing(*given: Any) -> Any:
            tried.append(True)
            rebase(*given)
            raise fault

        notes = self.forked()
        with mock.patch("share.sync.rebasing.rebase", failing):
            self.until(lambda: len(tried) >= TIMES, "it to be tried again", *notes)
            written(notes[2], "third ")
            self.until(lambda: all(b"third" in note.text for note in notes), "what another one typed to come", *notes)
            if isinstance(fault, Trouble | Refused):
                self.assertIn(True, [str(fault) in (note.session.status().trouble or "") for note in notes])
        self.assert_all_is_there(notes, b"one two three F S third")

    def test_a_number_that_is_full_gives_way(self) -> None:
        notes, full = self.forked(), list[Numbers]()
        take = Numbers.take_another_when_full

        def failing(*given: Any) -> Any:
            if not full:
                raise Refused(10)
            return rebase(*given)

        def taken(numbers: Numbers, length: int) -> bool:
            full.extend([numbers] * numbers.is_full)
            return take(numbers, length)

        with mock.patch("share.sync.rebasing.rebase", failing), mock.patch.object(Numbers, "take_another_when_full", taken):
            self.assert_all_is_there(notes, b"one two three F S")
        self.assertTrue(full)

    def test_the_file_is_damaged_as_it_is_looked_what_others_rebased(self) -> None:
        notes, anew, tried = self.forked(), OwnTables.anew, list[bool]()

        def damaged(tables: OwnTables) -> Any:
            tried.append(True)
            if len(tried) <= 2 * TIMES:
                raise Damaged("the file can't be read")
            return anew(tables)

        with mock.patch.object(OwnTables, "anew", damaged):
            for note in notes:
                self.until(lambda: len(tried) > 2 * TIMES, "it to be read", note)
        self.assert_all_is_there(notes, b"one two three F S")


class Rests(unittest.TestCase):
    """How long what can't be rebased rests."""

    def test_it_is_tried_ever_more_rarely(self) -> None:
        turns, tries, now = Turns(), list[float](), 10_000.0
        with mock.patch("share.sync.backoff.time.monotonic", lambda: now):
            turns.found(own=True, others=True)
            while len(tries) < 12:
                if turns.is_own_due():
                    tries.append(now)
                    turns.failed()
                turns.found(own=True, others=True)
                now += 1
            pauses = [later - before for before, later in zip(tries, tries[1:])]
            self.assertEqual(pauses, [4, 8, 16, 32, 64, 128, 256, 300, 300, 300, 300])
            # What was made goes on as ever.
            now += 1_000
            turns.made(own=True)
            turns.found(own=True, others=False)
            now += 2
            self.assertTrue(turns.is_own_due())


if __name__ == "__main__":
    unittest.main()
