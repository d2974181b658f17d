"""What comes in any order: against texts that took the same in order.

  VIALSHOAL_LIBRARY=library/out/libvialshoal.so python3 -m unittest discover library/python/tests
"""
from __future__ import annotations

import random
import unittest

from hypothesis import given
from hypothesis import strategies as st

from examples import tries
from test_kept import InAFolder
from test_past import Sites, Steps, steps
from vialshoal import Backlog, Received, Refused, Text
from vialshoal._backlog import _first_of


def pieces(text: Text[bytes], chance: random.Random) -> list[bytes]:
    """All that a text has, some of it more than once, as messages and as chunks, in any order."""
    found = [*text.since({})]
    fronts = text.fronts()
    for _ in range(3):
        found += text.pack({site: chance.randrange(front + 1) for site, front in fronts.items()})
    chance.shuffle(found)
    return found


class AnyOrder(InAFolder):
    @given(steps, st.randoms(use_true_random=False))
    @tries(60)
    def test_it_brings_a_text_to_what_the_other_has(self, given_steps: Steps, chance: random.Random) -> None:
        sites = Sites(3)
        sites.do(given_steps)
        sites.bring(1, 0)
        sites.bring(2, 0)
        for text in sites.texts:
            with Text(1, site=9) as other:
                backlog = Backlog(other)
                for piece in pieces(text, chance):
                    backlog.take(piece)
                self.assertEqual((bytes(other), other.runs(), other.fronts()), (bytes(text), text.runs(), text.fronts()))
                self.assertEqual(len(backlog), 0)

    def test_a_thousand_that_come_backwards(self) -> None:
        with Text(1, site=1) as a, Text(1, site=2) as b, Text.open(self.path, site=3) as text:
            for at in range(500):
                b.insert(0, b"b")
                a.merge(b)
                a.insert(at % 7, b"a")
                b.merge(a)
            backlog = Backlog(text)
            messages = [*a.since({})]
            for message in messages[:0:-1]:
                backlog.take(message)
            self.assertGreater(len(backlog), 900)
            taken = sum(text.fronts().values())
            self.assertEqual(backlog.take(messages[0]), Received(1000 - taken, 0, ()))
            self.assertEqual((bytes(text), text.waiting, len(backlog)), (bytes(a), 0, 0))
        with Text.open(self.path) as text:
            self.assertEqual(len(text), 1000)

    def test_chunks_that_come_backwards(self) -> None:
        with Text(1, site=1) as a, Text(1, site=2) as b:
            chunks: list[bytes] = []
            for at in range(50):
                with a.batch() as made:
                    for _ in range(100):
                        a.insert(at, b"x")
                chunks += made
            backlog = Backlog(b)
            for chunk in chunks[::-1]:
                backlog.take(chunk)
                backlog.take(chunk)
            self.assertEqual((b.fronts(), len(backlog)), (a.fronts(), 0))

    def test_of_a_chunk_all_is_taken_that_is_ready(self) -> None:
        with Text(1, site=1) as ann, Text(1, site=2) as bob, Text(1, site=3) as cid, Text(1, site=4) as text:
            [first] = ann.insert(0, b"a")
            cid.take(first)
            bob.insert(0, b"bob")
            [behind] = bob.insert(3, b"!")
            for at in range(1, 101):
                cid.insert(at, b"c")
            ann.merge(cid)
            ann.merge(bob)
            backlog = Backlog(text)
            backlog.take(behind)
            [chunk] = ann.pack({1: 1})
            self.assertEqual((backlog.take(chunk), bytes(text)), (Received(2, 1, ()), b"bob!"))
            self.assertEqual((backlog.take(first), bytes(text)), (Received(101, 0, ()), bytes(ann)))

    def test_there_is_room_for_so_much(self) -> None:
        with Text(1, site=1) as a, Text(1, site=2) as b:
            for _ in range(70):
                a.insert(0, b"x")
            messages, backlog = [*a.since({})], Backlog(b, 120)
            for message in messages[1:67]:
                backlog.take(message)
            with self.assertRaises(Refused) as caught:
                backlog.take(messages[67])
            self.assertEqual(caught.exception.number, 6)
            backlog.take(messages[0])
            self.assertEqual((b.front(1), len(backlog)), (67, 0))

    def test_what_is_wrong_is_refused_and_harms_no_other(self) -> None:
        with Text(1, site=1) as a, Text(1, site=2) as b, Text.load(a.store()) as copy:
            for text in (a, copy):
                for at in range(70):
                    text.insert(0, b"x")
            copy.insert(0, b"y" * 9)
            a.insert(0, b"xyz")
            backlog = Backlog(b)
            for wrong in (b"", b"OTC1", b"OTC1\0\1\x0f", b"OT\1\1", bytes(40)):
                self.assertRaises(Refused, backlog.take, wrong)
            messages, other = [*a.since({})], [*copy.since({})]
            for message in (*messages[1:], other[70]):
                backlog.take(message)
            received = backlog.take(messages[0])
            self.assertEqual((received.taken, received.kept, [it.number for it in received.refused], b.front(1)), (71, 0, [3], 71))

    def test_where_a_piece_begins(self) -> None:
        with Text(1, site=300) as text:
            for _ in range(200):
                text.insert(0, b"x")
            [*_, message], [chunk] = text.since({}), text.pack({300: 150})
            self.assertEqual((_first_of(message), _first_of(chunk)), ((300, 200), (300, 151)))


if __name__ == "__main__":
    unittest.main()
