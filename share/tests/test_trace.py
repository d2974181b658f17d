"""VIALSHOAL_TRACE: what an engine and its replicator do is written down, in order, and nothing of the note's text."""
import contextlib
import os
import pathlib
import re
import unittest
from unittest import mock

from share.program.trace import VARIABLE, Trace, Traced, trace
from share.store.guarded import Unkept
from share.store.note_file import Disk
from share.tests import test_copies
from share.tests.editors import Engines
from share.tests.forms import is_second_form
from share.tests.support import Case, change, type_at_the_end, wait_for, written
from share.text.errors import Trouble

LINE = re.compile(r"(\d+\.\d{6}) (\d+) ([a-z_]+)((?: [a-z_]+=(?:\d+|[a-z]+))*)")


class Kept:
    """A trace that is kept in a file."""

    def __init__(self, folder: pathlib.Path):
        self.path = folder / "trace"

    def here(self) -> contextlib.AbstractContextManager[object]:
        """Has this process write it."""
        return mock.patch("share.program.trace._trace", Trace(str(self.path)))

    def lines(self) -> list[re.Match[str]]:
        """Its lines, each of which has the form of one."""
        found = []
        # It comes with the first event.
        text = self.path.read_text() if self.path.exists() else ""
        for line in text.rpartition("\n")[0].splitlines():
            match = LINE.fullmatch(line)
            assert match, line
            found.append(match)
        return found

    def events(self) -> list[Traced]:
        """What happened, in order."""
        return [Traced[line[3].upper()] for line in sorted(self.lines(), key=lambda line: float(line[1]))]

    def has(self, *events: Traced) -> bool:
        """Whether these events are there in this order, others between them."""
        found = iter(self.events())
        return all(event in found for event in events)


class Sharing(Case):
    """Somebody who types and shares."""

    def setUp(self) -> None:
        super().setUp()
        self.kept = Kept(self.folder)

    def test_a_note_is_made_typed_in_and_closed(self) -> None:
        with self.kept.here():
            anna = self.person("anna").open(url=self.file_log())
            written(anna, "secret words ")
            berta = self.person("berta").open(link=self.person("anna").link())
            self.assert_comes_to(berta, b"secret words ")
            for note in anna, berta:
                note.session.close()
        self.assertTrue(self.kept.has(Traced.READ_FROM_FRONT, Traced.GIVEN), self.kept.path.read_text())
        claimed = Traced.NUMBER_CLAIMED
        # Where a number costs a search that is done by itself.
        self.assertTrue(self.kept.has(claimed), self.kept.path.read_text())
        self.assertTrue(self.kept.has(Traced.NOTE_OPENED, Traced.EDIT, Traced.GIVEN, *([] if is_second_form() else [claimed]),
                                      Traced.READ_FROM_FRONT, Traced.FETCHED, Traced.COUNTED, Traced.NOTE_CLOSED, Traced.NOTE_CLOSED),
                        self.kept.path.read_text())
        self.assertEqual(self.kept.events().count(Traced.NOTE_OPENED), 2)
        self.assertEqual({line[2] for line in self.kept.lines()}, {str(os.getpid())})

    def test_an_edit_that_can_not_be_kept(self) -> None:
        note = self.opened(self.person("anna"))
        with self.kept.here(), mock.patch.object(Disk, "keep", side_effect=Unkept("full")), self.assertRaises(Trouble):
            note.session.insert(0, b"secret")
        self.assertEqual(self.kept.events(), [Traced.EDIT, Traced.EDIT_NOT_KEPT])

    def test_nothing_of_the_note_is_in_it(self) -> None:
        server = self.redis()
        with self.kept.here():
            notes = self.together(server.url, "anna", "berta")
            written(notes[0], "grandmother's recipe ")
            self.assert_meet(*notes)
            # What can't be reached is told with its address.
            server.kill()
            wait_for(lambda: self.kept.has(Traced.OFFLINE), "the log to be away")
        link = self.person("anna").link()
        words = {word for line in self.kept.lines() for word in re.findall("[a-z]+", line[0])}
        figures = set("entries messages new site log own made shown of others task look give fetch show".split())
        self.assertLessEqual(words, figures | {word for event in Traced for word in event.name.lower().split("_")})
        text = self.kept.path.read_text()
        for secret in ("recipe", link, link[20:30], server.url, "anna", str(self.folder)):
            self.assertNotIn(secret, text)
        self.assertEqual(self.kept.path.stat().st_mode & 0o777, 0o600)

    def test_a_log_that_loses_and_a_server_that_goes(self) -> None:
        path = pathlib.Path(self.file_log())
        note = self.opened(self.person("anna"), url=str(path))
        written(note, "one ")
        # What was given and not yet read again is missed at the end of the log, which is then not read from its front.
        wait_for(lambda: note.session._replicator.stands(note.session.last()), "it to be read in the log")
        with self.kept.here():
            change(path, "DELETE FROM entry")
            wait_for(lambda: self.kept.path.exists() and self.kept.has(Traced.READ_FROM_FRONT, Traced.LOST, Traced.GIVEN),
                     "it to be filled again")
        server, other = self.redis(), Kept(self.folder / "data")
        note = self.opened(self.person("berta"), url=server.url)
        other.path.parent.mkdir(exist_ok=True)
        with other.here(), mock.patch("share.sync.threads.RECONNECT_SECONDS", 0.05):
            server.kill()
            wait_for(lambda: other.has(Traced.OFFLINE), "the log to be away")
            type_at_the_end(note, "two ")
            server.start()
            wait_for(lambda: other.has(Traced.EDIT, Traced.RECONNECTED, Traced.GIVEN), "it to be sent")


class OfAnEngine(Engines):
    """Editors that speak to an engine."""

    def test_an_editor_is_sent_what_another_one_types(self) -> None:
        kept = Kept(self.folder)
        with mock.patch.dict(os.environ, {VARIABLE: str(kept.path)}):
            first, second = self.editor(), self.editor()
            first.edit((0, 0, "secret words"))
            self.assertEqual(self.alike(first, second), "secret words")
            # Who has lost what it shows asks for all of it.
            second.send({"do": "text", "edits": 0})
            wait_for(lambda: (second.read(0.02), kept.has(Traced.TEXT_SENT))[1], "the text to be sent")
            first.close()
            second.close()
        wait_for(lambda: kept.has(Traced.NOTE_OPENED, Traced.EDIT, Traced.CHANGES_SENT, Traced.EDITOR_LEFT, Traced.NOTE_CLOSED),
                 "the engine to end")
        self.assertTrue(kept.has(Traced.EDITOR_JOINED, Traced.EDITOR_JOINED, Traced.EDIT))
        self.assertNotIn("secret", kept.path.read_text())


class Faults(Case):
    """A trace that can't be written hinders nothing, and none costs nothing."""

    def test_a_file_that_can_not_be_written(self) -> None:
        pipe = self.folder / "pipe"
        os.mkfifo(pipe)
        for path in ("", "/dev/full", str(self.folder), str(self.folder / "none" / "file"), "a\0b", "x" * 300, str(pipe)):
            with self.subTest(path=path[:20]), mock.patch("share.program.trace._trace", Trace(path)):
                note = self.person("anna").open()
                type_at_the_end(note, "word ")
                note.session.close()
        self.assertEqual(self.person("anna").text(), b"word " * 7)

    def test_a_pipe_that_nobody_empties(self) -> None:
        pipe = self.folder / "pipe"
        os.mkfifo(pipe)
        reader = os.open(pipe, os.O_RDONLY | os.O_NONBLOCK)
        self.addCleanup(os.close, reader)
        written_to = Trace(str(pipe))
        for _ in range(10_000):
            written_to.write(Traced.COUNTED, messages=10**9)

    def test_off_it_asks_nothing_of_the_system(self) -> None:
        with mock.patch("share.program.trace._trace", Trace(None)), mock.patch("share.program.trace.os") as system, \
                mock.patch("share.program.trace.time") as clock:
            trace(Traced.COUNTED, messages=3)
        self.assertEqual(system.mock_calls + clock.mock_calls, [])

    def test_by_a_command(self) -> None:
        kept = Kept(self.folder)
        self.person().open().session.close()
        run = self.note("append", "note", "secret", **{VARIABLE: str(kept.path)})
        self.assertEqual(run.returncode, 0, run.stderr)
        self.assertTrue(kept.has(Traced.NOTE_OPENED, Traced.EDIT, Traced.NOTE_CLOSED), kept.path.read_text())
        self.assertNotIn("secret", kept.path.read_text())


class Rebased(unittest.TestCase):
    """What is rebased, and hidden when it counts again."""

    def test_what_was_damaged_comes_back(self) -> None:
        case = test_copies.Damaged("alone")
        self.addCleanup(case.doCleanups)
        case.setUp()
        kept = Kept(case.folder)
        with kept.here():
            second = case.alone()
            of_numbers = [Traced.NUMBER_CLAIMED, Traced.NUMBER_GIVEN_UP]
            # Where a number costs a search the old one is given up first.
            self.assertTrue(kept.has(*(of_numbers[::-1] if is_second_form() else of_numbers), Traced.SITE_BEGUN_ANEW, Traced.EDIT,
                                     Traced.REBASED), kept.path.read_text())
            case.assert_shown("one behind two", second, case.opened(case.anna))
            wait_for(lambda: kept.has(Traced.REBASED, Traced.COUNTED, Traced.HIDDEN), "the copy to be hidden")


if __name__ == "__main__":
    unittest.main()
