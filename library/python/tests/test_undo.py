"""Undo and redo: against plain sets of characters, of which each is one's own or another's.

  VIALSHOAL_LIBRARY=library/out/libvialshoal.so python3 -m unittest discover library/python/tests
"""
from __future__ import annotations

import unittest
from collections.abc import Callable
from typing import Any, Literal

from hypothesis import given
from hypothesis import strategies as st

from examples import tries
from test_text import Edit, edited, one_edit
from vialshoal import Backlog, Name, Text, Undone, UndoManager

Step = tuple[Literal["edit", "other", "undo", "redo"], Edit]
steps = st.lists(st.tuples(st.sampled_from(("edit", "edit", "other", "undo", "undo", "redo")), one_edit), max_size=25)


class WithAClock(unittest.TestCase):
    def setUp(self) -> None:
        self.clock = 0.0
        self.text = Text(1, site=1)
        self.addCleanup(self.text.close)

    def managed(self, text: Text[Any], **words: Any) -> UndoManager:
        return UndoManager(text, now=lambda: self.clock, **words)

    def later(self) -> None:
        self.clock += 0.5


class ByOne(WithAClock):
    def test_what_is_typed_at_once_is_taken_back_at_once(self) -> None:
        text, undo = self.text, self.managed(self.text)
        self.assertEqual((undo.can_undo, undo.undo(), undo.redo()), (False, None, None))
        for letter in b"Oberon":
            text.insert(len(text), bytes([letter]))
        self.later()
        text.insert(6, b"!")
        undo.stop_capturing()
        text.delete(0, 3)
        self.assertEqual((self.where(undo.undo()), bytes(text)), ((0, 3), b"Oberon!"))
        self.assertEqual((self.where(undo.undo()), bytes(text)), ((6, 6), b"Oberon"))
        self.assertEqual((self.where(undo.undo()), bytes(text)), ((0, 0), b""))
        self.assertEqual((undo.can_undo, undo.can_redo), (False, True))
        self.assertEqual((self.where(undo.redo()), self.where(undo.redo()), bytes(text)), ((0, 6), (6, 7), b"Oberon!"))
        undo.redo()
        undo.undo()
        text.insert(0, b">")
        self.assertEqual((undo.can_redo, undo.redo(), bytes(text)), (False, None, b">Oberon!"))
        undo.clear()
        self.assertIsNone(undo.undo())

    def where(self, undone: Any) -> tuple[int, int]:
        self.assertIsInstance(undone, Undone)
        return undone.beg, undone.end

    def test_what_came_and_went_within_one_does_neither(self) -> None:
        text, undo = self.text, self.managed(self.text)
        text.insert(0, b"Oberon")
        self.later()
        text.insert(0, b"xyz")
        text.delete(1, 4)
        text.delete(1, 2)
        text.restore()
        self.assertEqual(bytes(text), b"xberon")
        undo.undo()
        self.assertEqual(bytes(text), b"Oberon")
        undo.redo()
        self.assertEqual(bytes(text), b"xberon")
        undo.clear()
        text.insert(0, b"gone")
        text.delete(0, 4)
        self.assertEqual((undo.can_undo, undo.undo()), (False, None))

    def test_looks_are_not_taken_back(self) -> None:
        text, undo = self.text, self.managed(self.text, capture_time=0)
        text.insert(0, b"x")
        text.change_looks(0, 1, colour=3)
        self.assertIsNotNone(undo.undo())
        undo.redo()
        self.assertEqual((bytes(text), text.runs()[0].colour, undo.can_redo), (b"x", 3, False))

    def test_what_is_sent_makes_others_alike(self) -> None:
        text, undo = self.text, self.managed(self.text, capture_time=0)
        with Text(1, site=2) as other:
            backlog = Backlog(other)
            for message in text.insert(0, b"Oberon") + text.delete(0, 3):
                backlog.take(message)
            for move in (undo.undo, undo.undo, undo.redo, undo.redo):
                undone = move()
                assert undone is not None
                for chunk in undone.chunks:
                    backlog.take(chunk)
                self.assertEqual(bytes(other), bytes(text))

    def test_more_ranges_than_one_message_speaks_of(self) -> None:
        text, undo = self.text, self.managed(self.text)
        text.insert(0, b"ab" * 3000)
        self.later()
        with text.batch():
            for at in reversed(range(3000)):
                text.delete(2 * at, 2 * at + 1)
        undo.undo()
        self.assertEqual(bytes(text), b"ab" * 3000)
        undo.redo()
        self.assertEqual(bytes(text), b"b" * 3000)

    def test_operations_that_come_back_are_no_edits(self) -> None:
        with Text(1, site=1) as text, Text(1, site=2) as other:
            text.insert(0, b"before")
            older = text.store()
            text.insert(6, b" and after")
            other.merge(text)
            with Text.load(older) as again:
                undo = self.managed(again)
                again.merge(other)
                again.insert(0, b"now ")
                undo.undo()
                self.assertEqual((bytes(again), undo.can_undo), (b"before and after", False))


class BySome(WithAClock):
    def meet(self, other: Text[Any]) -> None:
        other.merge(self.text)
        self.text.merge(other)

    def test_others_text_stays_and_what_they_did_with_ones_own(self) -> None:
        text, undo = self.text, self.managed(self.text)
        with Text(1, site=2) as other:
            text.insert(0, b"abc")
            self.meet(other)
            other.insert(1, b"OTHER")
            other.delete(6, 7)
            self.meet(other)
            self.assertEqual(bytes(text), b"aOTHERc")
            undo.undo()
            self.assertEqual(bytes(text), b"OTHER")
            undo.redo()
            self.assertEqual(bytes(text), b"aOTHERc")
            undo.clear()
            # (what no longer does anything is passed over)
            text.insert(0, b"1")
            self.later()
            text.insert(0, b"2")
            self.meet(other)
            other.delete(0, 1)
            self.meet(other)
            undo.undo()
            self.assertEqual((bytes(text), undo.can_undo), (b"aOTHERc", False))
            undo.redo()
            self.assertEqual(bytes(text), b"1aOTHERc")

    def test_each_has_the_edits_of_its_origins_and_their_selections(self) -> None:
        text, selected = self.text, ["at first"]
        left = self.managed(text, origins=["left"])
        right = self.managed(text, origins=["right"], capture_time=0, selection=lambda: selected[0])
        everything = self.managed(text)
        self.by(b"LLL", 0, "left")
        self.by(b"R", 1, "right")
        selected[0] = "then"
        with text.batch("right"):
            text.delete(0, 1)
            text.insert(0, b"rr")
        text.insert(0, b"-")
        selected[0] = "now"
        self.assertEqual((self.selection(right.undo), bytes(text)), ("then", b"-LRLL"))
        self.assertEqual((self.selection(right.undo), bytes(text)), ("at first", b"-LLL"))
        self.assertEqual((self.selection(right.redo), bytes(text), self.selection(right.redo)), ("now", b"-LRLL", "now"))
        self.assertEqual((left.can_undo, left.undo() is not None, bytes(text)), (True, True, b"-rrR"))
        self.assertEqual((everything.undo() is not None, bytes(text), everything.can_undo), (True, b"", False))
        with text.batch():
            self.assertRaises(TypeError, right.undo)
        told = list[tuple[bool, bool]]()
        end = right.subscribe(lambda manager: told.append((manager.can_undo, manager.can_redo)))
        right.undo()
        self.by(b"x", 0, "right")
        self.by(b"x", 0, "left")
        end()
        right.undo()
        self.assertEqual(told, [(True, True), (True, False)])
        right.clear()
        right.close()
        self.by(b"x", 0, "right")
        self.assertFalse(right.can_undo)

    def by(self, put: bytes, pos: int, origin: str) -> None:
        with self.text.batch(origin):
            self.text.insert(pos, put)

    def selection(self, move: Callable[[], Any]) -> object:
        undone = move()
        assert undone is not None
        return undone.selection


class Model:
    """Which characters are shown, and which ones each edit of one's own showed and hid."""

    def __init__(self, text: Text[Any]) -> None:
        self.text = text
        self.done: list[tuple[set[Name], set[Name]]] = []
        self.undone: list[tuple[set[Name], set[Name]]] = []

    def shown(self) -> set[Name]:
        return {*self.text.names(0, len(self.text))}

    def edited(self, edit: Edit) -> None:
        before = self.shown()
        edited(self.text, edit)
        after = self.shown()
        if before != after:
            self.done.append((after - before, before - after))
            self.undone.clear()

    def moved(self, source: list[tuple[set[Name], set[Name]]], target: list[tuple[set[Name], set[Name]]]) -> set[Name]:
        """What is shown once the last edit that does something was taken back."""
        before = self.shown()
        while source:
            came, went = source.pop()
            wanted = before - came | went
            if wanted != before:
                target.append((wanted - before, before - wanted))
                return wanted
        return before


class AtRandom(WithAClock):
    @given(steps)
    @tries(200)
    def test_it_shows_and_hides_what_the_edits_hid_and_showed(self, given_steps: list[Step]) -> None:
        with Text(1, site=1) as text, Text(1, site=2) as other:
            undo, model = self.managed(text, capture_time=0), Model(text)
            for verb, edit in given_steps:
                if verb == "edit":
                    model.edited(edit)
                elif verb == "other":
                    other.merge(text)
                    edited(other, edit)
                    text.merge(other)
                else:
                    lists = (model.done, model.undone) if verb == "undo" else (model.undone, model.done)
                    before, wanted = model.shown(), model.moved(*lists)
                    did = undo.undo() if verb == "undo" else undo.redo()
                    self.assertEqual((model.shown(), did is not None), (wanted, wanted != before))
                other.merge(text)
                self.assertEqual(bytes(other), bytes(text))


if __name__ == "__main__":
    unittest.main()
