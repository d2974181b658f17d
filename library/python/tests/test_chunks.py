"""What was taken in past fronts, in chunks: against the messages of the same, byte for byte, and cut or changed.

  VIALSHOAL_LIBRARY=library/out/libvialshoal.so python3 -m unittest discover library/python/tests
"""
from __future__ import annotations

import unittest
from collections.abc import Callable
from typing import Any

from hypothesis import given
from hypothesis import strategies as st

from examples import tries
from test_past import Fronts, Sites, Steps, fronts, steps
from vialshoal import Misused, Refused, TakingKind, Text, Unpacking

# What site 2 typed at the end of text 1, letter by letter and then three letters at once; and the same past its first.
ALL = b"OTC1\0\1\x0f\2\1\1\0ab\6\1cde"
LATER = b"OTC1\0\1\x0f\2\2\2\1\5\2\0b\6\1cde"


def shown(text: Text[Any]) -> tuple[bytes, object, dict[int, int], int]:
    return bytes(text), text.runs(), text.fronts(), text.waiting


class InChunks(unittest.TestCase):
    @given(steps, fronts)
    @tries(100)
    def test_chunks_do_what_the_messages_do(self, given_steps: Steps, after: Fronts) -> None:
        sites = Sites(3)
        sites.do(given_steps)
        for text in sites.texts:
            messages, chunks = [*text.since(after)], text.pack(after)
            with Text(1, site=9) as one, Text(1, site=9) as other:
                for message in messages:
                    one.take(message)
                told = [other.unpack(chunk) for chunk in chunks]
                self.assertEqual(shown(other), shown(one))
                self.assertEqual(sum(it.taken + it.waiting for it in told), len(messages))
                self.assertEqual(sum(it.waiting for it in told), other.waiting)
                again = [other.unpack(chunk) for chunk in chunks]
                self.assertEqual(again, [Unpacking(0, it.taken + it.waiting, 0, False) for it in told])
                for chunk in text.pack():
                    other.unpack(chunk)
                self.assertEqual(shown(other)[:3], shown(text)[:3])
            self.assertEqual(text.pack(text.fronts()), [])

    def test_a_chunk_is_bytes(self) -> None:
        with Text(1, site=2) as a, Text(1, site=1, units="code points") as b:
            for letters in (b"a", b"b", b"cde"):
                a.insert(len(a), letters)
            self.assertEqual((a.pack(), a.pack({2: 1}), a.pack({2: 3})), ([ALL], [LATER], []))
            self.assertEqual(b.unpack(LATER), Unpacking(taken=0, known=0, waiting=2, stopped=False))
            self.assertEqual(b.unpack(LATER), Unpacking(taken=0, known=2, waiting=0, stopped=False))
            self.assertEqual(b.unpack(bytearray(ALL)), Unpacking(taken=3, known=2, waiting=0, stopped=False))
            self.assertEqual((str(b), b.waiting, b.pack()), ("abcde", 0, [ALL]))

    def test_much_is_cut_into_chunks(self) -> None:
        with Text(1, site=1) as a, Text(1, site=2) as b:
            for at in range(20):
                a.insert(at * 2048, bytes([65 + at]) * 4096)
            chunks = a.pack()
            self.assertEqual([len(chunk) <= 16_000 for chunk in chunks], [True] * 7)
            self.assertEqual(sum(b.unpack(chunk).taken for chunk in chunks), 20)
            self.assertEqual(shown(b), shown(a))


class Refusals(unittest.TestCase):
    def refused(self, text: Text[Any], chunk: bytes, number: int, done: int = 0) -> None:
        before = shown(text)
        with self.assertRaises(Refused) as caught:
            text.unpack(chunk)
        self.assertEqual((caught.exception.number, caught.exception.done), (number, done))
        if not done:
            self.assertEqual(shown(text), before)

    def misused(self, number: int, call: Callable[[], object]) -> None:
        with self.assertRaises(Misused) as caught:
            call()
        self.assertEqual((caught.exception.number, caught.exception.done), (number, 0))

    @given(st.integers(0, len(ALL)), st.binary(max_size=20))
    @tries(300)
    def test_other_bytes_are_refused_or_another_chunk(self, at: int, data: bytes) -> None:
        with Text(1, site=1) as text:
            self.refused(text, b"OTC2" + data, 1)
            try:
                told = text.unpack(ALL[:at] + data)
            except Refused as why:
                self.assertLess(why.number, 100)
                if not why.done:
                    self.assertEqual(shown(text), (b"", [], {}, 0))
            else:
                self.assertEqual(told.taken, sum(text.fronts().values()))
            with Text.load(text.store()) as again:
                self.assertEqual(shown(again)[:3], shown(text)[:3])

    def test_each_has_its_number(self) -> None:
        with Text(1, site=1) as a, Text(2, site=1) as b:
            for end in (0, 5, 7, 11, 14, len(ALL) - 1):
                self.refused(a, ALL[:end], 1)
            self.refused(a, ALL + b"\x0f", 1)
            self.refused(b, ALL, 2)
            self.refused(b, ALL[:-1], 1)
            self.assertEqual(a.unpack(ALL[:6]), Unpacking(taken=0, known=0, waiting=0, stopped=False))
            for wrong in ({0: 1}, {65536: 1}, {1: -1}, {1: 1 << 32}):
                self.misused(105, lambda: a.pack(wrong))
        self.misused(101, a.pack)
        self.misused(101, lambda: a.unpack(ALL))

    def test_a_part_says_how_much_stands(self) -> None:
        with Text(1, site=1) as a:
            a.insert(0, b"x")
            with Text.load(a.store()) as b, Text(1, site=2) as c:
                a.insert(1, b"y")
                b.insert(1, b"z")
                [both], [last] = a.pack(), a.pack({1: 1})
                # (one site that is opened twice uses its numbers twice)
                self.refused(b, both, 3, done=1)
                self.refused(b, last, 3)
                self.assertEqual(bytes(b), b"xz")
                self.assertEqual(c.unpack(b.pack()[0]).taken, 2)
                self.refused(c, both, 3, done=1)
                self.assertIs(c.take([*a.since({})][0]).kind, TakingKind.REPEAT)

    def test_as_many_wait_as_can(self) -> None:
        with Text(1, site=1) as a, Text(1, site=2) as b:
            for _ in range(71):
                a.insert(0, b"x")
            [later] = a.pack({1: 1})
            self.refused(b, later, 6, done=64)
            self.assertEqual(b.waiting, 64)
            self.assertEqual(b.unpack(a.pack()[0]), Unpacking(taken=71, known=64, waiting=0, stopped=False))
            self.assertEqual(shown(b), shown(a))


if __name__ == "__main__":
    unittest.main()
