"""Positions in code points against a plain string, and against the program that plays scripts.

  VIALSHOAL_LIBRARY=library/out/libvialshoal.so python3 -m unittest discover library/python/tests
"""
from __future__ import annotations

import subprocess
import unittest
from bisect import bisect_left
from dataclasses import replace
from typing import Callable, Optional

from hypothesis import given
from hypothesis import strategies as st

from examples import tries
from test_text import IS_BUILT, PROGRAM, spelled
from vialshoal import ChangeKind, Misused, Name, Run, Text
from vialshoal import _code_points as code_points

# Whole characters of one to four bytes, and bytes that are of none until others stand beside them.
ATOMS = ("a", "bc", "\xe9", "\u20ac", "\U0001f600", "\udc80", "\udce2", "\udc82", "\udcac", "\udcf0\udc9f", "\udc98\udc80",
         "\udced\udca0\udc80", "\udcc0", "\udcc3", "\udcf4\udc90")
strings = st.lists(st.sampled_from(ATOMS), max_size=6).map("".join)
edits = st.lists(st.tuples(st.sampled_from(("type", "type", "cut", "looks", "recall", "restore")), st.integers(0, 2**16),
                           st.integers(0, 2**16), strings), max_size=20)
Edit = tuple[str, int, int, str]


def encoded(shown: str) -> bytes:
    return shown.encode("utf-8", "surrogateescape")


def read(shown: str) -> str:
    """A string as it is read again: bytes that came together may be a character."""
    return encoded(shown).decode("utf-8", "surrogateescape")


def range_of(edit: Edit, length: int) -> tuple[int, int]:
    beg, end = sorted((edit[1] % (length + 1), edit[2] % (length + 1)))
    return beg, end


def edited(text: Text[str], edit: Edit) -> list[bytes]:
    verb, one, _, data = edit
    beg, end = range_of(edit, len(text))
    if verb == "type":
        return text.insert(beg, data)
    if verb == "cut":
        return text.delete(beg, end)
    if verb == "looks":
        return text.change_looks(beg, end, colour=one % 16)
    return text.recall(beg) if verb == "recall" else text.restore()


def event_of(edit: Edit, shown: str) -> str:
    """The event that does an edit, whose positions are bytes."""
    verb, one, _, data = edit
    beg, end = (len(encoded(shown[:at])) for at in range_of(edit, len(shown)))
    if verb == "type":
        return f"type 1 {beg} {spelled(encoded(data))}"
    if verb == "looks":
        return f"looks 1 {beg} {end} colour={one % 16}"
    return {"cut": f"cut 1 {beg} {end}", "recall": f"recall 1 {beg}", "restore": "restore 1"}[verb]


class Reader:
    """What one sees who has nothing of a text but its changes; what is put in is unknown until the end."""

    def __init__(self) -> None:
        self.shown: list[Optional[str]] = []

    def follow(self, text: Text[str]) -> bool:
        """Whether what is shown is the text after its changes."""
        for change in text.changes():
            if change.kind is ChangeKind.INSERT:
                self.shown[change.beg:change.beg] = [None] * (change.end - change.beg)
            elif change.kind is ChangeKind.DELETE:
                del self.shown[change.beg:change.end]
        known, self.shown = self.shown, list(str(text))
        return len(known) == len(self.shown) and all(old in (None, new) for old, new in zip(known, self.shown))


class SmallBlocks(unittest.TestCase):
    def setUp(self) -> None:
        self.addCleanup(setattr, code_points, "_BLOCK", code_points._BLOCK)
        code_points._BLOCK = 3


class AgainstAString(SmallBlocks):
    @given(edits)
    @tries(200)
    def test_edits_are_those_of_a_string(self, given_edits: list[Edit]) -> None:
        plain, reader = "", Reader()
        with Text(1, site=1, units="code points") as text:
            for edit in given_edits:
                beg, end = range_of(edit, len(plain))
                edited(text, edit)
                if edit[0] == "type":
                    plain = read(plain[:beg] + edit[3] + plain[beg:])
                elif edit[0] == "cut":
                    plain = read(plain[:beg] + plain[end:])
                elif edit[0] != "looks":
                    plain = str(text)
                self.assertEqual((str(text), len(text), bytes(text)), (plain, len(plain), encoded(plain)))
                beg, end = range_of(edit, len(plain))
                self.assertEqual((text[beg:end], text[::-1], [*text]), (plain[beg:end], plain[::-1], [*plain]))
                self.assertEqual([text[at] for at in range(-len(plain), len(plain))], [*plain, *plain])
                if len(edit[3]) % 2:
                    self.assertTrue(reader.follow(text))
            self.assertTrue(reader.follow(text))

    @given(edits, edits, edits)
    @tries(100)
    def test_texts_of_either_units_are_one(self, here: list[Edit], there: list[Edit], then: list[Edit]) -> None:
        with Text(1, site=1, units="code points") as a, Text(1, site=2) as b, Text(1, site=3) as joined:
            reader = Reader()
            for edit in here:
                edited(a, edit)
            self.assertTrue(reader.follow(a))
            b.merge(a)
            for verb, one, two, data in there:
                beg, end = sorted((one % (len(b) + 1), two % (len(b) + 1)))
                if verb == "type":
                    b.insert(beg, encoded(data))
                elif verb == "looks":
                    b.change_looks(beg, end, offset=one % 5)
                else:
                    b.delete(beg, min(beg + 2, end))
            sent = [message for edit in then for message in edited(a, edit)]
            a.merge(b)
            self.assertTrue(reader.follow(a))
            for message in sent:
                b.take(message)
            joined.merge(a)
            self.assertEqual((bytes(a), bytes(joined)), (bytes(b), bytes(b)))
            begins = [len(encoded(str(a)[:at])) for at in range(len(a) + 1)]
            self.assertEqual(a.names(0, len(a)), [b.names(0, len(b))[at] for at in begins[:-1]])
            for at, name in enumerate(a.names(0, len(a))):
                self.assertEqual(a.place(name).pos, at + 1)
            self.assertEqual(a.runs(), self.in_code_points(b.runs(), begins[:-1]))
            with Text.load(a.store(), units="code points") as again:
                self.assertTrue(Reader().follow(again))
                self.assertEqual((str(again), again.runs()), (str(a), a.runs()))

    def in_code_points(self, runs: list[Run], begins: list[int]) -> list[Run]:
        moved = [replace(run, beg=bisect_left(begins, run.beg), end=bisect_left(begins, run.end)) for run in runs]
        return [run for run in moved if run.beg < run.end]


class AgainstTheProgram(SmallBlocks):
    @given(edits)
    @tries(25)
    def test_messages_are_those_of_byte_positions(self, given_edits: list[Edit]) -> None:
        if not IS_BUILT:
            self.skipTest("the program isn't built")
        script, wanted = "", []
        with Text(1, site=1, units="code points") as text:
            for edit in given_edits:
                script += f"1 {event_of(edit, str(text))}\n"
                wanted += [message.hex() for message in edited(text, edit)]
        ran = subprocess.run([PROGRAM], input=script, capture_output=True, text=True, check=True)
        self.assertEqual([line.split()[2] for line in ran.stdout.splitlines() if line.startswith("send ")], wanted)


class AtTheEdges(unittest.TestCase):
    def test_positions_outside_are_refused(self) -> None:
        with Text(1, site=1, units="code points") as text:
            text.insert(0, "\u20ac\u20ac")
            calls: list[Callable[[], object]] = [
                lambda: text.insert(3, ""), lambda: text.delete(-1, 1), lambda: text.recall(3), lambda: text.names(0, 3),
                lambda: text.delete(2, 1)]
            for call in calls:
                with self.assertRaises(Misused) as caught:
                    call()
                self.assertEqual(caught.exception.number, 103)
            with self.assertRaises(IndexError):
                text[2]
            with self.assertRaises(UnicodeEncodeError):
                text.insert(0, "\ud800")
            self.assertEqual(str(text), "\u20ac\u20ac")

    def test_each_has_its_kind_of_data(self) -> None:
        with Text(1, site=1) as a, Text(1, site=2, units="code points") as b:
            with self.assertRaises(TypeError):
                a.insert(0, "a")  # type: ignore[arg-type]
            with self.assertRaises(TypeError):
                b.insert(0, b"a")  # type: ignore[arg-type]
            with self.assertRaises(ValueError):
                Text(1, site=3, units="lines")  # type: ignore[call-overload]

    def test_a_name_within_a_character_is_where_it_is(self) -> None:
        with Text(1, site=1, units="code points") as text:
            text.insert(0, "a\u20acb")
            self.assertEqual([text.place(Name(1, at)).pos for at in range(5)], [1, 2, 2, 2, 3])
            text.delete(1, 2)
            self.assertEqual([text.place(Name(1, at)).pos for at in range(5)], [1, 1, 1, 1, 2])

    def test_many_changes_at_once_leave_the_rest_where_it_is(self) -> None:
        with Text(1, site=1, units="code points") as a, Text(1, site=2) as b:
            a.insert(0, "\u20ac" * 5000)
            b.merge(a)
            a.changes()
            for put in range(50):
                b.insert(300 * put + put, b"x")
            a.merge(b)
            told = a.changes()
            self.assertEqual({change.kind for change in told}, {ChangeKind.INSERT})
            self.assertEqual(sum(change.end - change.beg for change in told), 50)
            self.assertEqual(len(a), 5050)


if __name__ == "__main__":
    unittest.main()
