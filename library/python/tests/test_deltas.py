"""Deltas: against what is shown before and after, with own ones and others' apart, polled and listened for.

  VIALSHOAL_LIBRARY=library/out/libvialshoal.so python3 -m unittest discover library/python/tests
"""
from __future__ import annotations

import threading
import unittest
from collections.abc import Callable
from functools import partial
from typing import Any, Literal

from hypothesis import given
from hypothesis import strategies as st

from examples import tries
from test_code_points import edits as string_edits
from test_code_points import edited as string_edited
from test_text import edited, edits
from test_threads import often_switching, side_by_side
from vialshoal import Delete, Delta, Insert, Retain, Text

# Whose an edit is, and whether the deltas are asked for after it.
Turn = tuple[Literal["own", "others'"], bool]
turns = st.lists(st.tuples(st.sampled_from(("own", "others'")), st.booleans()), max_size=20)


class Editor:
    """One who has what is shown from deltas alone, or who does what is its own at once and others' from deltas."""

    def __init__(self) -> None:
        self.shown: Any = None
        self.told: list[Delta[Any]] = []

    def __call__(self, delta: Delta[Any]) -> None:
        self.shown = delta.applied(self.shown)
        self.told.append(delta)


class Deltas(unittest.TestCase):
    def play(self, text: Text[Any], do: Callable[[Any, Any], object], given_edits: list[Any], given_turns: list[Turn]) -> None:
        """Has edits be made, and the deltas lead from what was shown to what is shown."""
        polled, listening = Editor(), Editor()
        other: Text[Any] = Text(1, site=2, units=text.units)
        for edit in given_edits[:3]:
            do(text, edit)
        listening.shown = polled.shown = text[:0]
        self.ask(text, polled, [])
        self.assertEqual([delta.is_own for delta in polled.told], [False] * bool(len(text)))
        runs: list[tuple[bool, Any]] = []
        for edit, (turn, is_asked) in zip(given_edits[3:], given_turns):
            if not runs or runs[-1][0] != (turn == "own"):
                runs.append((turn == "own", text[:]))
            if turn == "own":
                do(text, edit)
            else:
                other.merge(text)
                do(other, edit)
                text.merge(other)
            if is_asked:
                self.ask(text, polled, runs)
        self.ask(text, polled, runs)
        other.close()

    def ask(self, text: Text[Any], polled: Editor, runs: list[tuple[bool, Any]]) -> None:
        """Asks for the deltas, where these runs of changes were made, each by the site or by others, of what was shown before it."""
        polled.told = []
        for delta in text.delta():
            polled(delta)
        self.assertEqual(polled.shown, text[:])
        self.assertEqual(text.delta(), [])
        # Each run that changed what is shown is in a delta of its own kind.
        kinds = iter([delta.is_own for delta in polled.told])
        afters = [shown for _, shown in runs[1:]] + [text[:]]
        self.assertTrue(all(is_own in kinds for (is_own, before), after in zip(runs, afters) if before != after))
        runs.clear()

    def test_each_has_the_origin_of_its_batch(self) -> None:
        with Text(1, site=1) as text, Text(1, site=2) as other:
            text.delta()
            told: list[Delta[bytes]] = []
            text.subscribe(told.append)
            other.insert(0, b"others")
            text.insert(0, b"a")
            with text.batch("keys"):
                text.insert(0, b"b")
                with text.batch("inner"):
                    text.insert(0, b"c")
                text.merge(other)
            text.insert(0, b"d")
            put = [(delta.origin, delta.is_own, [it.data for it in delta.steps if isinstance(it, Insert)]) for delta in told]
            self.assertEqual(put, [(None, True, [b"a"]), ("keys", True, [b"cb"]), ("keys", False, [b"others"]), (None, True, [b"d"])])

    @given(edits, turns)
    @tries(100)
    def test_they_lead_from_what_was_shown_to_what_is(self, given_edits: list[Any], given_turns: list[Turn]) -> None:
        with Text(1, site=1) as text:
            self.play(text, edited, given_edits, given_turns)

    @given(string_edits, turns)
    @tries(100)
    def test_they_do_in_code_points(self, given_edits: list[Any], given_turns: list[Turn]) -> None:
        with Text(1, site=1, units="code points") as text:
            self.play(text, string_edited, given_edits, given_turns)

    def test_they_have_what_was_put_in(self) -> None:
        with Text(1, site=1) as a, Text(1, site=2) as b:
            a.insert(0, b"Oberon")
            self.assertEqual(a.delta(), [Delta(False, (Insert(b"Oberon"),))])
            b.merge(a)
            a.insert(6, b"!")
            a.insert(7, b"?")
            a.delete(0, 1)
            for message in [*b.delete(2, 4), *b.insert(2, b"xy"), *b.change_looks(4, 6, colour=3)]:
                a.take(message)
            self.assertEqual(a.delta(), [
                Delta(True, (Delete(1), Retain(5), Insert(b"!?"))),
                Delta(False, (Retain(1), Insert(b"xy"), Delete(2), Retain(2, is_dressed=True)))])
            a.insert(0, b"gone")
            a.delete(0, 4)
            self.assertEqual(a.delta(), [])
            a.insert(0, b"told once")
            self.assertEqual((len(a.changes()), a.delta()), (1, []))


class Listening(unittest.TestCase):
    @given(edits, turns)
    @tries(60)
    def test_each_change_is_told_as_it_is_made(self, given_edits: list[Any], given_turns: list[Turn]) -> None:
        with Text(1, site=1) as text, Text(1, site=2) as other:
            text.insert(0, b"Oberon")
            listening = Editor()
            listening.shown = bytes(text)
            end = text.subscribe(listening)
            for edit, (turn, is_last) in zip(given_edits, given_turns):
                if turn == "own":
                    edited(text, edit)
                else:
                    other.merge(text)
                    edited(other, edit)
                    text.unpack(other.pack()[0])
                self.assertEqual(listening.shown, bytes(text))
                self.assertTrue(all(delta.is_own == (turn == "own") for delta in listening.told))
                listening.told.clear()
            end()
            end()
            shown = bytes(text)
            text.insert(0, b"x")
            self.assertEqual((listening.shown, text.delta()), (shown, [Delta(True, (Insert(b"x"),))]))

    def test_a_batch_is_told_at_its_end(self) -> None:
        with Text(1, site=1) as a, Text(1, site=2) as b:
            b.insert(0, b"b")
            listening = Editor()
            listening.shown = b""
            a.subscribe(listening)
            with a.batch():
                a.insert(0, b"a")
                a.insert(1, b"a")
                a.merge(b)
                a.delete(0, 1)
                self.assertEqual(listening.told, [])
            self.assertEqual(([delta.is_own for delta in listening.told], listening.shown), ([True, False, True], bytes(a)))

    def test_a_listener_may_edit_and_may_fail(self) -> None:
        with Text(1, site=1) as a, Text(1, site=2) as b:
            seen: list[bytes] = []

            def answers(delta: Delta[bytes]) -> None:
                seen.append(delta.applied(seen[-1] if seen else b""))
                if not delta.is_own and len(seen) < 5:
                    sent.extend(a.insert(len(a), b"!"))

            def fails(delta: Delta[bytes]) -> None:
                raise ZeroDivisionError

            sent: list[bytes] = []
            a.subscribe(fails)
            a.subscribe(answers)
            with self.assertLogs("vialshoal", "ERROR") as logged:
                for message in b.insert(0, b"x"):
                    a.take(message)
            self.assertEqual((seen, len(sent), len(logged.output)), ([b"x", b"x!"], 1, 2))
            with self.assertLogs("vialshoal", "ERROR"):
                self.assertEqual(len(a.insert(0, b"y")), 1)
            self.assertEqual(seen[-1], b"yx!")

    def test_texts_that_listen_to_each_other_wait_in_no_ring(self) -> None:
        with Text(1, site=1) as a, Text(1, site=2) as b, often_switching():
            def goes_on(text: Text[bytes], other: Text[bytes], delta: Delta[bytes]) -> None:
                other.merge(text)

            a.subscribe(partial(goes_on, a, b))
            b.subscribe(partial(goes_on, b, a))

            def types(text: Text[bytes]) -> None:
                for _ in range(60):
                    text.insert(0, b"x")

            side_by_side(partial(types, a), partial(types, b), partial(types, a))
            a.merge(b)
            b.merge(a)
            self.assertEqual((bytes(a), bytes(b)), (b"x" * 180,) * 2)

    def test_threads_are_told_in_the_order_of_changes(self) -> None:
        with Text(1, site=1, units="code points") as text, often_switching():
            listening = Editor()
            listening.shown = ""
            text.subscribe(listening)

            def types(mine: str) -> None:
                for at in range(100):
                    text.insert(at, mine)

            side_by_side(*(partial(types, mine) for mine in "a\xe9\u20ac\U0001f600"))
            # (the last may be told by the thread that made it, which has ended by now)
            self.assertEqual((listening.shown, len(listening.told)), (str(text), 400))

    def test_nothing_else_is_locked_meanwhile(self) -> None:
        with Text(1, site=1) as text, Text(1, site=2) as other:
            read: list[bytes] = []

            def reads(delta: Delta[bytes]) -> None:
                thread = threading.Thread(target=lambda: read.append(bytes(text) + bytes(other)))
                thread.start()
                thread.join(10)

            text.subscribe(reads)
            text.insert(0, b"a")
            other.insert(0, b"b")
            text.merge(other)
            with text.batch():
                text.insert(0, b"c")
            text.paste(0, b"d")
            self.assertEqual([len(it) for it in read], [1, 3, 4, 5])

    def test_noting_goes_on_while_somebody_listens(self) -> None:
        with Text(1, site=1) as text:
            end = text.subscribe(print)
            self.assertRaises(TypeError, text.end_noting)
            end()
            text.end_noting()
            self.assertRaises(TypeError, text.subscribe, print)
            self.assertRaises(TypeError, text.delta)


if __name__ == "__main__":
    unittest.main()
