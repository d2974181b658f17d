"""An editor opens again in the cases in which its words could be lost, or come twice: the disk was full, another editor took its name, an
older note was put back, or the journal was being written again."""
import errno
import os
import time
from collections.abc import Iterable
from typing import Any
from unittest import mock

from share.editors.mirror import Mirror
from share.engine.journal import Journal
from share.engine.remembered import MOST_REMEMBERED, Editors
from share.store.guarded import Unkept
from share.sync.edits import OwnEdits
from share.tests.journaled import Journaled, OneEditor
from share.text.line import Line

# What an editor has typed that shows "cab", and of which an engine took the first two edits.
MADE = [(0, 0, "b")], [(0, 0, "a")], [(0, 0, "c")]


def full(*_: object, **__: object) -> int:
    """A disk that takes nothing more."""
    raise OSError(errno.ENOSPC, os.strerror(errno.ENOSPC))


def unkept(*_: object, **__: object) -> None:
    """A note's file that takes nothing more."""
    raise Unkept("the disk is full")


class Reopened(Journaled):
    """The next engine."""

    def text(self) -> str:
        """What the note's file shows."""
        return self.person().text().decode()

    def test_edits_that_cannot_be_kept_now_are_carried_over_later(self) -> None:
        self.typed("b", "a")
        with mock.patch.object(OwnEdits, "keep", unkept):
            answer, _ = self.next(0, 0, "cab", *MADE)
        self.assertEqual((answer.get("error"), self.text()), ("unkept", "ab"))
        answer, said = self.next(0, 0, "cab", *MADE)
        self.assertEqual(("text" in answer, answer["edits"], said, self.text()), (False, 3, "", "cab"))

    def test_what_was_typed_before_can_be_taken_back_then(self) -> None:
        self.typed("b", "a")
        with mock.patch.object(OwnEdits, "keep", unkept):
            self.next(0, 0, "cab", *MADE)
        with self.person().here():
            engine = self.engine()
            one = OneEditor(engine, self.name)
            one.again(0, 0, "cab", *MADE)
            while one.ask("undo")["done"]:
                pass
            engine.close()
        self.assertEqual(self.text(), "")

    def test_an_edit_that_failed_was_never_noted(self) -> None:
        with self.person().here():
            engine = self.engine()
            one = OneEditor(engine, self.name)
            one.open()
            with mock.patch("share.engine.edits._put_cursor", full):
                self.assertEqual(one.ask("edit", version=0, edits=1, changes=[[0, 0, "b"]])["error"], "failed")
            self.assertEqual(Editors(Journal(self.path, self.identity()).read()).of[self.name].edits, {})
            engine.close()

    def identity(self) -> bytes:
        """The identity that the journal names."""
        first = self.path.read_bytes().split(b'"note":"', 1)[1]
        return bytes.fromhex(first.split(b'"', 1)[0].decode())

    def test_another_editor_of_the_same_name(self) -> None:
        """Its edits have the same numbers, and the text with the first one's is as long."""
        self.typed("x")
        answer, _ = self.next(0, 0, "b", [(0, 0, "b")])
        self.assertEqual((answer.get("text"), "has" in answer, self.text()), ("x", False, "x"))

    def test_an_editor_of_the_same_name_that_made_more(self) -> None:
        self.typed("b", "a")
        answer, _ = self.next(0, 0, "b", [(0, 0, "b")])
        self.assertEqual((answer.get("text"), "has" in answer, answer["edits"]), ("ab", False, 2))

    def test_nothing_is_missing_of_a_text_that_is_the_notes(self) -> None:
        """Also if nothing is known of the editor: nobody puts back then what is there."""
        self.typed("b", "a")
        self.path.unlink()
        answer, _ = self.next(0, 0, "ab", *MADE[:2])
        self.assertEqual((answer["text"], answer["has"]), ("ab", 2))

    def test_an_older_note_that_was_put_back(self) -> None:
        self.typed("b")
        older = {one: one.read_bytes() for one in self.person().path().parent.glob("note*") if one.is_file()}
        self.next(0, 0, "ab", *MADE[:2])
        for path, data in older.items():
            path.write_bytes(data)
        self.assertEqual(self.text(), "b")
        answer, _ = self.next(0, 0, "cab", *MADE)
        self.assertEqual(("text" in answer, self.text()), (False, "cab"))

    def test_a_journal_that_is_full_for_a_while(self) -> None:
        """An engine is killed before it keeps an edit, and has just begun its journal again. Nothing says that the edit is there."""
        with self.person().here():
            engine = self.engine()
            one = OneEditor(engine, self.name)
            one.open()
            with mock.patch.object(Journal, "_append", full):
                one.ask("edit", version=0, edits=1, changes=[[0, 0, "b"]])
            with mock.patch.object(OwnEdits, "keep", side_effect=KeyboardInterrupt), self.assertRaises(KeyboardInterrupt):
                one.ask("edit", version=0, edits=2, changes=[[0, 0, "a"]])
            said = self.path.read_bytes() if self.path.exists() else b""
            engine.close()
            self.path.write_bytes(said)
            engine = self.engine()
            OneEditor(engine, "other").open()
            editors = Editors(Journal(self.path, self.identity()).read())
            engine.close()
        self.assertEqual([one.edits for one in editors.of.values() if one.edits], [])

    def test_a_journal_is_written_again_only_as_all_is_kept(self) -> None:
        """Else it says that something can be taken back that never was."""
        begun, making = list[bool](), list[OwnEdits]()
        make, begin = OwnEdits.make, Journal.begin

        def makes(edits: OwnEdits, *given: Any) -> Any:
            making.append(edits)
            try:
                return make(edits, *given)
            finally:
                making.pop()

        def begins(journal: Journal, lines: Iterable[Line]) -> bool:
            begun.append(not making)
            return begin(journal, lines)

        with mock.patch.object(Journal, "is_long", True), mock.patch.object(Journal, "begin", begins), \
                mock.patch.object(OwnEdits, "make", makes):
            self.typed(*"fedcba")
        self.assertGreater(len(begun), 5)
        self.assertTrue(all(begun))

    def test_a_kill_as_a_journal_is_written_again(self) -> None:
        """The old one is there until the new one is, and nothing stays of one that wasn't finished."""
        self.typed("b", "a")
        before = self.path.read_bytes()
        with mock.patch("os.replace", side_effect=KeyboardInterrupt), mock.patch("os.getpid", return_value=1), \
                self.assertRaises(KeyboardInterrupt):
            Journal(self.path, self.identity()).begin([])
        self.assertEqual(self.path.read_bytes(), before)
        answer, _ = self.next(0, 0, "cab", *MADE)
        self.assertEqual(("text" in answer, [one.name for one in self.path.parent.glob(".*editors*")]), (False, []))

    def test_a_long_one_stays_where_it_cannot_be_written_again(self) -> None:
        self.typed("b")
        journal = Journal(self.path, self.identity())
        self.assertTrue(journal.begin([{"front": [[7, 1]]}]))
        with mock.patch.object(Journal, "_append", full):
            self.assertFalse(journal.begin([]))
        self.assertTrue(journal.add([{"front": [[7, 2]]}]))
        self.assertEqual(len(journal.read()), 2)
        self.assertEqual([one.name for one in self.path.parent.glob(".*editors*")], [])
        journal.stop()

    def test_a_journal_that_is_damaged_in_its_midst_is_begun_again(self) -> None:
        with self.person().here():
            engine = self.engine()
            one, other = OneEditor(engine, self.name), OneEditor(engine, "other")
            one.open()
            one.ask("edit", version=0, edits=1, changes=[[0, 0, "b"]])
            data = self.path.read_bytes()
            self.path.write_bytes(data[:40] + bytes([data[40] ^ 1]) + data[41:])
            self.assertIn("text", other.again(0, 0, "b"))
            self.assertIn("damaged", other.says())
            answer = one.ask("edit", version=0, edits=2, changes=[[0, 0, "a"]])
            self.path.write_bytes(journal := self.path.read_bytes())
            engine.close()
        self.path.write_bytes(journal)
        answer, _ = self.next(answer["version"], 2, "cab", [(0, 0, "c")])
        self.assertEqual(("text" in answer, self.text()), (False, "cab"))

    def test_who_was_heard_of_last_is_remembered_longest(self) -> None:
        many = MOST_REMEMBERED + 5
        lines: list[Line] = [{"of": str(number), "step": [0, 0]} for number in range(many)]
        lines += [{"of": "0", "step": [1, 1]}]
        again = Editors([*Editors(lines).lines({})])
        self.assertEqual((len(again.of), "0" in again.of, "1" in again.of), (MOST_REMEMBERED, True, False))

    def test_a_step_after_one_that_is_not_known(self) -> None:
        editors = Editors([{"front": [[7, 2]]}, {"of": "e", "step": [3, 4], "as": [3, 1], "made": [[], [], []]}])
        self.assertEqual(editors.of["e"].steps, {})

    def test_edits_that_were_answered_are_not_put_back(self) -> None:
        """Though the editor wasn't in step since they were made."""
        mirror = Mirror({"units": "utf-32", "text": "", "version": 0, "edits": 0}, lambda line: None)
        for word in "ba":
            mirror.edit([(0, 0, word)])
        mirror.take({"answer": "edit", "edits": 1})
        mirror.left()
        self.assertEqual(mirror.left_unmade(), [[[0, 0, "a"]]])
        mirror.again()
        self.assertEqual(mirror.opened_again({"text": "xb", "version": 5, "edits": 9}), [[[0, 0, "a"]]])


class Stretches(Journaled):
    """A stretch of keys that the end of an engine cut is taken back as one."""

    def cut(self, before: str, after: str, *given: Line, waits: float = 0.0) -> OneEditor:
        """An editor that typed keys, of which an engine took the first ones, and that opened again with the others."""
        self.typed_at_the_end(before)
        edits = [{"changes": [(place, place, key)]} for place, key in enumerate(before + after)]
        for edit, more in zip(edits[len(before):], given):
            edit |= more
        here = self.person().here()
        here.__enter__()
        self.addCleanup(here.__exit__, None, None, None)
        engine = self.engine()
        self.addCleanup(engine.close)
        one = OneEditor(engine, self.name)
        with mock.patch("time.time", return_value=time.time() + waits):
            self.assertNotIn("text", one.again(0, 0, before + after, *edits))
        return one

    def typed_at_the_end(self, keys: str) -> None:
        """Has an engine take keys one by one."""
        with self.person().here():
            engine = self.engine()
            one = OneEditor(engine, self.name)
            one.open()
            for place, key in enumerate(keys):
                one.ask("edit", version=0, edits=place + 1, changes=[[place, place, key]])
            engine.close()

    def left(self, one: OneEditor, undos: int = 1) -> str:
        """What an editor shows after some steps of undo."""
        for _ in range(undos):
            self.assertTrue(one.ask("undo")["done"])
        one.ask("text", edits=100)
        return str(next(line["text"] for line in reversed(one.lines) if line.get("notice") == "text"))

    def test_what_is_carried_over_goes_on(self) -> None:
        one = self.cut("abc", "de")
        one.ask("edit", version=0, edits=6, changes=[[5, 5, "f"]])
        self.assertEqual(self.left(one), "")

    def test_a_key_goes_on_where_nothing_was_carried_over(self) -> None:
        one = self.cut("abc", "")
        one.ask("edit", version=0, edits=4, changes=[[3, 3, "d"]])
        self.assertEqual(self.left(one), "")

    def test_what_an_editor_said_of_it_counts(self) -> None:
        self.assertEqual(self.left(self.cut("abc", "def", {}, {"join": False})), "abcd")

    def test_a_stretch_has_no_more_keys_than_without_an_end(self) -> None:
        one = self.cut("a" * 15, "b" * 15)
        self.assertEqual(self.left(one), "a" * 15 + "b" * 5)
        self.assertEqual(self.left(one), "")

    def test_silence_ends_it(self) -> None:
        with mock.patch.dict(os.environ, VIALSHOAL_PAUSE="1"):
            one = self.cut("abc", "", waits=3.0)
            one.ask("edit", version=0, edits=4, changes=[[3, 3, "d"]])
        self.assertEqual(self.left(one), "abc")

    def test_another_place_ends_it(self) -> None:
        one = self.cut("abc", "")
        one.ask("edit", version=0, edits=4, changes=[[0, 0, "d"]])
        self.assertEqual(self.left(one), "abc")

    def test_a_line_end_ends_it(self) -> None:
        one = self.cut("abc\n", "d")
        self.assertEqual(self.left(one), "abc\n")

    def test_an_undo_ends_it(self) -> None:
        one = self.cut("ab", "")
        one.ask("undo")
        one.engine.close()
        second = OneEditor(self.engine(), self.name)
        self.addCleanup(second.engine.close)
        version = one.lines[-2]["version"]
        self.assertNotIn("text", second.again(version, 2, "c", [(0, 0, "c")]))
        self.assertEqual(self.left(second), "")
        self.assertFalse(second.ask("undo")["done"])

    def test_keys_that_delete_go_on(self) -> None:
        self.typed_at_the_end("\nabcdef")
        with self.person().here():
            engine = self.engine()
            one = OneEditor(engine, "other")
            one.open()
            for number, place in enumerate((6, 5), 1):
                one.ask("edit", version=0, edits=number, changes=[[place, place + 1, ""]])
            engine.close()
            engine = self.engine()
            one = OneEditor(engine, "other")
            self.assertNotIn("text", one.again(0, 2, "\nab", [(4, 5, "")], [(3, 4, "")]))
            self.assertEqual(self.left(one), "\nabcdef")
            engine.close()
