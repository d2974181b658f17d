"""What an engine notes of its editors: a journal that is damaged, of another version or note, or that can't be written, is said, and then
nothing is carried over; what is carried over otherwise is told from what isn't."""
import errno
import os
from collections.abc import Callable
from unittest import mock

from share.engine.journal import LONG_BYTES, Journal, Unreadable
from share.engine.remembered import Editors
from share.tests.journaled import Journaled, OneEditor
from share.text.line import Line


class Journals(Journaled):
    """An engine that ended without a word, and the next one."""

    def test_what_is_there_is_told(self) -> None:
        self.typed("b", "a")
        answer, _ = self.next(0, 0, "cab", [(0, 0, "b")], [(0, 0, "a")], [(0, 0, "c")])
        self.assertEqual((answer["edits"], answer["version"], "text" in answer), (3, 0, False))
        self.assertEqual(self.person().text(), b"cab")

    def test_another_text_isnt_carried_over(self) -> None:
        self.typed("b", "a")
        answer, _ = self.next(0, 1, "another", [(0, 0, "a")], [(0, 0, "c")])
        self.assertEqual((answer["text"], answer["has"]), ("ab", 2))
        self.assertEqual(self.person().text(), b"ab")

    def test_a_step_that_nobody_knows(self) -> None:
        self.typed("b", "a")
        answer, _ = self.next(7, 1, "cab", [(0, 0, "a")], [(0, 0, "c")])
        self.assertEqual((answer["text"], "has" in answer), ("ab", False))

    def test_an_editor_that_left_is_forgotten(self) -> None:
        with self.person().here():
            engine = self.engine()
            one = OneEditor(engine, self.name)
            one.open()
            one.ask("edit", version=0, edits=1, changes=[[0, 0, "a"]])
            self.assertTrue(self.path.exists())
            one.ask("close")
            engine.close()
        self.assertFalse(self.path.exists())

    def spoiled(self, spoil: Callable[[bytes], bytes]) -> str:
        """What is told where the journal is spoiled; nothing is carried over, and nothing made twice."""
        self.typed("b", "a")
        self.path.write_bytes(spoil(self.path.read_bytes()))
        answer, said = self.next(0, 1, "cab", [(0, 0, "a")], [(0, 0, "c")])
        self.assertEqual((answer["text"], "has" in answer), ("ab", False))
        self.assertEqual(self.person().text(), b"ab")
        return said

    def test_a_last_line_that_a_kill_cut_is_left_out(self) -> None:
        self.typed("b", "a")
        self.path.write_bytes(self.path.read_bytes()[:-5])
        answer, _ = self.next(0, 1, "cab", [(0, 0, "a")], [(0, 0, "c")])
        self.assertEqual((answer["edits"], "text" in answer), (3, False))
        self.assertEqual(self.person().text(), b"cab")

    def test_one_that_is_damaged(self) -> None:
        self.assertIn("damaged", self.spoiled(lambda data: data[:-9] + bytes([data[-9] ^ 1]) + data[-8:]))

    def test_one_of_a_later_version(self) -> None:
        with mock.patch("share.engine.journal.JOURNAL_VERSION", 2):
            self.typed("b", "a")
        answer, said = self.next(0, 1, "cab", [(0, 0, "a")], [(0, 0, "c")])
        self.assertEqual(answer["text"], "ab")
        self.assertIn("another version", said)

    def test_a_full_disk(self) -> None:
        def full(*_: object) -> int:
            raise OSError(errno.ENOSPC, os.strerror(errno.ENOSPC))

        self.typed("b")
        with mock.patch.object(Journal, "_append", full):
            self.typed("a")
        self.assertEqual(self.person().text(), b"ab")
        self.assertFalse(self.path.exists())
        answer, _ = self.next(0, 1, "cab", [(0, 0, "a")], [(0, 0, "c")])
        self.assertEqual((answer["text"], "has" in answer), ("ab", False))

    def test_a_long_one_is_written_again(self) -> None:
        with mock.patch("share.engine.journal.LONG_BYTES", LONG_BYTES >> 14):
            self.typed(*"fedcba")
        answer, _ = self.next(0, 4, "xabcdef", [(0, 0, "b")], [(0, 0, "a")], [(0, 0, "x")])
        self.assertEqual((answer["edits"], "text" in answer), (7, False))

    def test_numbers_that_are_used_again(self) -> None:
        journal = Journal(self.path, b"note")
        lines: list[Line] = [{"of": "e", "step": [0, 0], "front": [[7, 1]]},
                             {"of": "e", "edit": 1, "at": [[7, 2, 2, 99]], "new": [], "sum": 5}]
        self.assertTrue(journal.begin(lines))
        for is_kept, edits in (lambda one: True, 1), (lambda one: False, 0):
            editors = Editors(journal.read())
            editors.settle({7: 2}, is_kept, is_kept)
            self.assertEqual(editors.of["e"].has_up_to(0), edits)
        editors = Editors([*journal.read(), {"unkept": [7, 2]}])
        self.assertEqual((editors.of["e"].has_up_to(0), editors.of["e"].edits[1].is_whole), (1, False))
        journal.stop()
        self.path.write_bytes(b"0 {}\n")
        self.assertRaises(Unreadable, journal.read)
