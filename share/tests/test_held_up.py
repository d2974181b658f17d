"""What would hold up a user without end is given up soon: a program that stands still, and files that have none."""
import contextlib
import os
import signal
import sqlite3
import subprocess
import unittest
from unittest import mock

from share.program.patience import BETWEEN_LOOKS_SECONDS, Patience, seen
from share.store import contents, notes
from share.tests.support import Case, python, wait_for, written
from share.text.errors import Trouble

# Who reads it never comes to its end.
ENDLESS_VIEW = """CREATE VIEW entry AS WITH RECURSIVE more (place) AS (SELECT 1 UNION ALL SELECT place + 1 FROM more)
                  SELECT place, NULL AS hash, x'00' AS raw, NULL AS body, 0 AS sum, 0 AS made, 0 AS offered, 0 AS mark FROM more"""
# As long as this a key may wait for a program that stands still.
MOST_SECONDS = 2


class StandsStill(unittest.TestCase):
    """A program that somebody stopped."""

    def test_it_is_given_up_after_two_seconds(self) -> None:
        program = subprocess.Popen([python(), "-c", "while True: pass"])
        self.addCleanup(program.wait)
        self.addCleanup(program.kill)
        os.kill(program.pid, signal.SIGSTOP)
        wait_for(lambda: not seen(program.pid).works, "it to stand still")
        patience, looks = Patience(program.pid), 1
        while not patience.is_over():
            self.assertTrue(patience.is_still())
            looks += 1
            self.assertLess(looks, 100)
        self.assertLessEqual(looks * BETWEEN_LOOKS_SECONDS, MOST_SECONDS)


class WithoutEnd(Case):
    """A log, or a note's own file, in which somebody has put a view without end."""

    def setUp(self) -> None:
        super().setUp()
        self.ann = self.person("ann")
        note = self.ann.open(url=self.file_log())
        written(note, "one ")
        note.session.close()
        few = mock.patch("share.log.sqlite_file.MOST_TICKS", 1)
        few.start()
        self.addCleanup(few.stop)

    def spoil(self, path: str) -> None:
        """Puts a view in the place of the entries."""
        with contextlib.closing(sqlite3.connect(path)) as file:
            file.executescript(f"ALTER TABLE entry RENAME TO before; {ENDLESS_VIEW}")

    def test_a_log_is_printed_around_and_renewed_without(self) -> None:
        self.spoil(self.file_log())
        with self.ann.here():
            text, missing = contents.text_of_note("note", None, None, None)
            self.assertEqual(text, b"one ")
            self.assertIn("The log can't be read", " ".join(missing))
            self.assertIn("The log can't be read", " ".join(notes.renew("note", None, None).missing))
            self.assertEqual(contents.text_of_note("note", None, None, None).text, b"one ")

    def test_a_file_is_told_damaged(self) -> None:
        self.spoil(str(self.ann.path()))
        with self.ann.here():
            self.assertIn("interrupted", " ".join(contents.text_of_note("note", None, None, None).missing))
            with self.assertRaisesRegex(Trouble, "lacks some of its tables. bin/note recover"):
                notes.renew("note", None, None)


if __name__ == "__main__":
    unittest.main()
