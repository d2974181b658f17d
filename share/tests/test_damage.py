"""Another program writes to a note's file, or to SQLite's log beside it, at the moment at which an editor writes there; and after a crash
that log isn't what was committed: all is seen and told, and nothing that was typed is lost without a word."""
import contextlib
import os
import pathlib
import random
import shutil
import signal
import sqlite3
import subprocess
import unittest
from collections.abc import Callable, Iterator, Sequence
from functools import partial
from typing import Any
from unittest import mock

from share.log.sqlite_file import _Transaction
from share.store import unchanged
from share.store.guarded import LOG_BYTES
from share.store.unchanged import Ahead, FileWatch
from share.tests.note import Note
from share.tests.support import TOP, Case, Person, python, written
from share.tests.test_losses import FRAME, HEAD, PAGE, beside, write_over
from share.tests.waiting import wait_for

TOLD = "written anew"
Damage = Callable[[pathlib.Path], object]


def log_of(path: pathlib.Path) -> pathlib.Path:
    """The log beside a note's file."""
    return beside(path, "-wal")


def frame(path: pathlib.Path, part: float) -> int:
    """Where a page of a log that never began anew begins, with what is before it."""
    return HEAD + int(((log_of(path).stat().st_size - HEAD) // FRAME - 1) * part) * FRAME


# What is written to the log while it is written to here.
TO_THE_LOG: dict[str, Damage] = {
    "zeros in place of its head": lambda path: write_over(log_of(path), 0, bytes(HEAD)),
    "a head of before": lambda path: write_over(log_of(path), 0, older_head(log_of(path).read_bytes()[:HEAD])),
    "letters over the first page": lambda path: write_over(log_of(path), HEAD + 100, b"\x55" * 99),
    "zeros before the page that was just written": lambda path: write_over(log_of(path), frame(path, 1.0), bytes(24)),
}
# What is written to the file itself.
A_LETTER = "a letter of a word"
TO_THE_FILE: dict[str, Damage] = {
    "zeros in place of its head": lambda path: write_over(path, 0, bytes(16)),
    "zeros over a page": lambda path: write_over(path, path.stat().st_size // 2 // PAGE * PAGE, bytes(PAGE)),
    A_LETTER: lambda path: write_over(path, path.read_bytes().index(b"x" * 40) + 20, b"y"),
}
# What is written to the file's first page, which is written anew, and so mended, where pages are moved there.
TO_THE_FIRST_PAGE: dict[str, Damage] = {
    "a letter of a column's name": lambda path: write_over(path, path.read_bytes().index(b"secret BLOB") + 5, b"\xa0"),
}
# What is written within the page that was just written to the log.
JUST_WRITTEN: dict[str, Damage] = {
    "a bit of what was just written": lambda path: write_over(log_of(path), frame(path, 1.0) + 2_000, b"\x55" * 3),
}
# When something is written within an own write: as it begins, before it is committed, after it is, or once what was written was noted.
STEPS = "begins", "commits", "committed", "ends"
# Types words, prints the number of the site, and is killed.
KILLED = """
import os, signal
from share.store import notes
from share.sync.session import Session
from share.tests.note import Note
from share.tests.support import written
note = Note(Session(notes.open_note("note", None, None)))
for words in "two ", "three ", "four ":
    written(note, words)
print(note.session.number, flush=True)
os.kill(os.getpid(), signal.SIGKILL)
"""
# What of a log is found after a crash.
AFTER_A_CRASH: dict[str, Damage] = {
    "zeros in place of its head": TO_THE_LOG["zeros in place of its head"],
    "letters over the first page": TO_THE_LOG["letters over the first page"],
    "zeros before a page": lambda path: write_over(log_of(path), frame(path, 0.5), bytes(24)),
    "nothing": lambda path: os.truncate(log_of(path), 0),
    "no file": lambda path: log_of(path).unlink(),
}


def typed(note: Note, words: str) -> str:
    """Types words at the end; what the user was told since the last time."""
    note.moved_to(len(note.text))
    note.type(words)
    return told(note)


def told(note: Note) -> str:
    """What the user was told since the last time."""
    words, note.notice = " ".join([note.notice, *note.session.notices()]), ""
    return words


def older_head(head: bytes) -> bytes:
    """The head of a log as it was before it began anew, with the right sums."""
    from share.store.unchanged import LOG_HEAD, ORDERS, SUMMED_HEAD, _summed
    begins, *words = LOG_HEAD.unpack(head)[:6]
    words[3] -= 1
    before = LOG_HEAD.pack(begins, *words, 0, 0)[:SUMMED_HEAD]
    one, other = _summed(before, (0, 0), ORDERS[begins])
    return before + one.to_bytes(4, "big") + other.to_bytes(4, "big")


class WithinAnOwnWrite(Case):
    """Damage between the look before an edit and the end of its writing."""

    def begun(self, name: str) -> tuple[Person, Note]:
        """A note of which something is in the file, and something in the log beside it."""
        person = self.person(name)
        note = person.open()
        typed(note, "x" * 40_000 + "\n")
        note.session.close()
        note = self.opened(person)
        typed(note, "one ")
        return person, note

    @contextlib.contextmanager
    def spoilt(self, path: pathlib.Path, spoil: Damage, step: str) -> Iterator[None]:
        """Has the next writing be damaged at one of its steps."""
        begins, commits, ends = FileWatch.begin_writing, _Transaction.__exit__, FileWatch.end_writing
        left = [spoil]

        def at(now: str) -> None:
            if now == step and left:
                left.pop()(path)

        def begun(watch: FileWatch) -> tuple[bool, int]:
            found = begins(watch)
            at("begins")
            return found

        def committed(one: _Transaction, kind: Any, why: Any, where: Any) -> None:
            at("commits")
            commits(one, kind, why, where)
            at("committed")

        def ended(watch: FileWatch, *found: Any) -> None:
            ends(watch, *found)
            at("ends")

        with mock.patch.object(FileWatch, "begin_writing", begun), mock.patch.object(_Transaction, "__exit__", committed), \
                mock.patch.object(FileWatch, "end_writing", ended):
            yield
        self.assertEqual(left, [])

    def assert_seen_at_once(self, spoils: dict[str, Damage], *steps: str) -> None:
        """That each damage at each of some steps is told with the next key, and nothing is lost."""
        for number, (what, spoil) in enumerate(spoils.items()):
            for step in steps:
                with self.subTest(what=what, step=step):
                    person, note = self.begun(f"{number}{step}")
                    with self.spoilt(person.path(), spoil, step):
                        self.assertNotIn(TOLD, typed(note, "two "))
                    self.assertIn(TOLD, typed(note, "three "))
                    self.assert_kept(person, note)

    def assert_seen_soon(self, spoils: dict[str, Damage], *steps: str) -> None:
        """That each damage at each of some steps is told without a key, and nothing is lost."""
        for number, (what, spoil) in enumerate(spoils.items()):
            for step in steps:
                with self.subTest(what=what, step=step):
                    person, note = self.begun(f"{number}{step}")
                    with self.spoilt(person.path(), spoil, step):
                        words = [typed(note, "two ")]
                    wait_for(lambda one=note, known=words: (one.take_in(), known.append(told(one)), TOLD in " ".join(known))[2],
                             "the damage to be told")
                    typed(note, "three ")
                    self.assert_kept(person, note)

    def test_of_the_log_is_seen_before_the_next_key(self) -> None:
        just_written = {what: spoil for what, spoil in TO_THE_LOG.items() if "just written" in what}
        self.assert_seen_at_once({what: spoil for what, spoil in TO_THE_LOG.items() if what not in just_written}, "begins", "committed")
        self.assert_seen_at_once(just_written, "committed")

    def test_of_the_file_is_seen_before_the_next_key(self) -> None:
        self.assert_seen_at_once(TO_THE_FILE | TO_THE_FIRST_PAGE, *STEPS)

    def test_of_what_was_just_written_is_seen_soon(self) -> None:
        self.assert_seen_soon(JUST_WRITTEN, "committed")

    @mock.patch.object(unchanged, "LOG_PAGES", 1)
    def test_of_the_file_as_pages_are_moved_there_is_seen_soon(self) -> None:
        self.assert_seen_soon(TO_THE_FILE, "begins", "committed")

    @mock.patch.object(unchanged, "LOG_PAGES", 1)
    def test_of_the_file_is_seen_as_it_is_closed(self) -> None:
        person, note = self.begun("data")
        with mock.patch("share.store.note_file.Disk.look_at_unseen", return_value=False):
            with self.spoilt(person.path(), TO_THE_FILE[A_LETTER], "committed"):
                typed(note, "two three ")
            note.session.close()
        self.assert_kept(person, note)
        self.assertTrue(beside(person.path(), ".damaged-1").exists())

    def test_of_any_page_of_the_file_costs_nothing(self) -> None:
        person, note = self.begun("data")
        damaged(self, person, note, PAGE, STEPS)

    def test_in_the_moment_of_an_own_write_when_clocks_show_nothing(self) -> None:
        person, note = self.begun("data")
        with mock.patch.object(Ahead, "changed", return_value=1), mock.patch("share.store.unchanged.time.monotonic", return_value=5.0):
            typed(note, "two ")
            TO_THE_LOG["letters over the first page"](person.path())
            self.assertIn(TOLD, typed(note, "three "))
        self.assert_kept(person, note)

    def assert_kept(self, person: Person, note: Note) -> None:
        """That the file alone has all that was typed."""
        self.assertTrue(note.text.endswith(b"one two three "))
        self.assertEqual(person.text(), bytes(note.text))

    def test_what_is_moved_into_the_file_is_looked_at_before(self) -> None:
        person, note = self.begun("data")
        log = log_of(person.path())
        while log.stat().st_size <= LOG_BYTES:
            typed(note, "x" * 20_000 + "\n")
        write_over(log, frame(person.path(), 1.0) + 2_000, b"\x55" * 99)
        note.session.tidy()
        self.assertNotIn(b"\x55" * 99, person.path().read_bytes())
        self.assertIn(TOLD, typed(note, "one two three "))
        self.assert_kept(person, note)

    def test_a_long_log_is_moved_into_the_file_while_there_is_time(self) -> None:
        person, note = self.begun("data")
        log = log_of(person.path())
        while log.stat().st_size <= LOG_BYTES:
            typed(note, "x" * 20_000 + "\n")
            head = log.read_bytes()[:HEAD]
        note.session.tidy()
        self.assertNotIn(TOLD, typed(note, "one two three "))
        self.assertNotEqual(log.read_bytes()[:HEAD], head)
        self.assert_kept(person, note)

    def test_nothing_is_told_where_nothing_is_wrong(self) -> None:
        person, note = self.begun("data")
        other = self.opened(person)
        words = [typed((note, other)[number % 2], f"{number} ") for number in range(300)]
        self.assertNotIn(TOLD, " ".join(words))
        self.assertEqual([*person.path().parent.glob("*damaged*")], [])


class Compared(Case):
    """What is compared for each key."""

    def test_what_was_cut_off_is_seen_before_anything_is_read(self) -> None:
        path = self.folder / "file"
        with contextlib.closing(sqlite3.connect(path, isolation_level=None)) as file:
            for statement in ("PRAGMA journal_mode = WAL", "CREATE TABLE one (bytes BLOB)"):
                file.execute(statement)
            watch = FileWatch(path).use()
            self.addCleanup(watch.let_go)
            for end in "", "-shm":
                one, data = beside(path, end), beside(path, end).read_bytes()
                self.assertIsNone(watch.fault())
                for size, words in (len(data) - 1, "cut off"), (0, "emptied"):
                    os.truncate(one, size)
                    self.assertEqual(watch.fault(), f"{one.name} was {words}")
                # SQLite has it in memory.
                write_over(one, 0, data)

    def test_who_opens_a_file_while_nothing_is_written_has_damaged_nothing(self) -> None:
        path = self.folder / "file"
        with contextlib.closing(sqlite3.connect(path, isolation_level=None)) as file:
            for statement in ("PRAGMA journal_mode = WAL", "CREATE TABLE one (bytes BLOB)"):
                file.execute(statement)
            watch = FileWatch(path).use()
            self.addCleanup(watch.let_go)
            begin = os.stat(log_of(path)).st_ctime_ns

            def opened() -> bool:
                # As SQLite does it that is run by root.
                os.chown(log_of(path), os.geteuid(), os.getegid())
                return os.stat(log_of(path)).st_ctime_ns != begin

            with watch.written():
                wait_for(opened, "the clock to go on")
            self.assertIsNone(watch.fault_of_log())

    def test_a_log_that_was_found_right_is_looked_at_again_once_it_changed(self) -> None:
        with contextlib.closing(sqlite3.connect(self.folder / "file", isolation_level=None)) as file:
            for statement in ("PRAGMA journal_mode = WAL", "PRAGMA wal_autocheckpoint = 0", "CREATE TABLE one (bytes BLOB)"):
                file.execute(statement)
            ahead = Ahead(self.folder / "file")
            self.addCleanup(ahead.close)
            wait_for(lambda: ahead.is_there() and ahead._is_settled, "nothing more to be looked at")
            with mock.patch.object(Ahead, "_is_as_seen") as looked:
                self.assertTrue(ahead.is_there())
            self.assertFalse(looked.called)
            write_over(log_of(self.folder / "file"), HEAD + 100, b"else")
            self.assertFalse(ahead.is_there())


def damaged(case: WithinAnOwnWrite, person: Person, note: Note, stride: int, steps: Sequence[str]) -> int:
    """Has a byte of a note's file be another one at one of an own write's steps, again and again, the next time this many bytes later: the
    file has all that was typed as soon as the next key is answered. How many were told."""
    chance, at, many = random.Random(1), 0, 0
    while at < person.path().stat().st_size:
        for step in steps:
            place = min(at + chance.randrange(stride), person.path().stat().st_size - 1)
            other = bytes([person.path().read_bytes()[place] ^ 1 << chance.randrange(8)])
            with case.spoilt(person.path(), partial(write_over, at=place, data=other), step):
                typed(note, f"{place}.")
            many += TOLD in typed(note, " ")
            case.assertEqual(person.text(), bytes(note.text), (place, step))
        at += stride
    return many


class AfterACrash(Case):
    """A note whose engine was killed, and whose log SQLite reads as far as it is right, or not at all."""

    def killed(self, **more: str) -> tuple[Person, int]:
        """A person whose engine was killed; the number under which it wrote."""
        person = self.person()
        note = person.open(**more)
        written(note, "one ")
        note.session.close()
        with person.here():
            run = subprocess.run([python(), "-B", "-c", KILLED], cwd=TOP, stdout=subprocess.PIPE, text=True, check=False)
        self.assertEqual(run.returncode, -signal.SIGKILL)
        folder = person.path().parent
        if more:
            shutil.copytree(self.folder / "shared", self.folder / "shared then")
        shutil.copytree(folder, self.folder / "bytes")
        shutil.copytree(folder, self.folder / "files", copy_function=os.link)
        return person, int(run.stdout)

    def put_back(self, person: Person) -> None:
        """Has all files be those that the kill left."""
        folder = person.path().parent
        shutil.rmtree(folder)
        shutil.copytree(self.folder / "files", folder, copy_function=os.link)
        for one in (self.folder / "bytes").glob("note.*"):
            if one.is_file():
                shutil.copyfile(one, folder / one.name)

    def test_a_whole_log_is_gone_on_with(self) -> None:
        person, number = self.killed()
        note = self.opened(person)
        self.assertEqual((bytes(note.text), note.session.number), (b"one two three four ", number))
        self.assertEqual(told(note), "")

    def test_what_is_lost_is_told_and_the_number_isnt_gone_on_with(self) -> None:
        person, number = self.killed()
        for what, spoil in AFTER_A_CRASH.items():
            with self.subTest(what=what):
                self.put_back(person)
                spoil(person.path())
                run = self.note("cat", "note", VIALSHOAL_DATA=str(person.data))
                self.assertEqual(run.returncode, 3)
                self.assertRegex(run.stderr, r"The file has lost \d entr")
                note = self.opened(person)
                self.assertLess(len(note.text), len(b"one two three four "))
                self.assertNotEqual(note.session.number, number)
                self.assertRegex(told(note), r"has lost \d entr.*written anew\. What was there is .*damaged-1")
                typed(note, "five ")
                note.session.close()
                # It is told once.
                again = self.opened(person)
                self.assertEqual((bytes(again.text), told(again)), (bytes(note.text), ""))
                again.session.close()

    def test_what_was_sent_comes_back(self) -> None:
        person, number = self.killed(url=self.file_log())
        for what, spoil in AFTER_A_CRASH.items():
            with self.subTest(what=what):
                self.put_back(person)
                spoil(person.path())
                # What reads the log alone brings nothing to the places of what was lost.
                self.assertIn("has lost", self.note("cat", "note", VIALSHOAL_DATA=str(person.data)).stderr)
                note = self.opened(person)
                self.assertRegex(told(note), r"has lost \d entr")
                self.assert_comes_to(note, b"one two three four ")
                self.assertNotEqual(note.session.number, number)
                written(note, "five ")
                self.assertEqual(person.text(), b"one two three four five ")
                note.session.close()
                # Each has the log as it was.
                shutil.copytree(self.folder / "shared then", self.folder / "shared", dirs_exist_ok=True)


if __name__ == "__main__":
    unittest.main()
