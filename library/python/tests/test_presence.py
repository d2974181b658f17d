"""Who is there, as library/node/tests/presence.test.js tries it.

  VIALSHOAL_LIBRARY=library/out/libvialshoal.so python3 -m unittest discover library/python/tests
"""
from __future__ import annotations

import dataclasses
import json
import random
import re
import unittest

from hypothesis import given
from hypothesis import strategies as st

from examples import tries
from vialshoal import Anchor, Presence, Refused, Text

ANN, BOB, EVE = (f"00000000000000{it}" for it in ("aa", "bb", "ee"))


class There(unittest.TestCase):
    def setUp(self) -> None:
        self.clock = 0.0
        self.ann, self.bob, self.eve = map(self.made, (ANN, BOB, EVE))

    def made(self, of: str) -> Presence:
        return Presence(of, timeout=30, now=lambda: self.clock)

    def test_ids_are_of_64_bits(self) -> None:
        ids = {Presence().id for _ in range(100)}
        self.assertEqual(len(ids), 100)
        self.assertTrue(all(re.fullmatch("[0-9a-f]{16}", it) for it in ids))
        self.assertRaises(TypeError, Presence, "aa")

    def test_states_are_those_said_last(self) -> None:
        told: list[list[str]] = []
        end = self.bob.subscribe(told.append)
        first = self.ann.set({"site": 1, "name": "Ann"})
        self.assertEqual(first, b'[["00000000000000aa",1,{"site":1,"name":"Ann"}]]')
        self.assertEqual((self.bob.take(first), self.bob.take(first), told), ([ANN], [], [[ANN]]))
        self.ann.take(self.bob.set({"site": 2}))
        self.assertEqual((self.bob.states(), told), ({ANN: {"site": 1, "name": "Ann"}, BOB: {"site": 2}}, [[ANN], [BOB]]))
        # Who comes gets all that is known; what is older changes nothing.
        self.assertEqual(self.eve.take(self.bob.encode()), [ANN, BOB])
        second = self.ann.set({"cursor": 3})
        self.assertEqual((self.bob.take(second), self.bob.take(first), self.bob.states()[ANN]), ([ANN], [], {"cursor": 3}))
        # Who leaves is gone at once, and what was sent before that doesn't bring it back.
        self.assertEqual((self.eve.take(self.ann.set(None)), self.eve.take(second), [*self.eve.states()]), ([ANN], [], [BOB]))
        end()
        self.bob.set(None)
        self.assertEqual((len(told), self.bob.state, self.bob.states()), (3, None, {ANN: {"cursor": 3}}))
        self.assertEqual((self.eve.take(self.bob.leave([ANN, ANN, BOB, EVE])), self.bob.states()), ([], {}))

    def test_who_is_not_heard_of_is_gone(self) -> None:
        self.bob.take(self.ann.set({"site": 1}))
        self.clock = 14.9
        self.assertEqual((self.ann.tick(), self.bob.tick()), (None, None))
        self.clock = 15
        again = self.ann.tick() or b""
        self.assertEqual((self.bob.take(again), self.ann.tick()), ([ANN], None))
        self.clock = 44.9
        self.bob.tick()
        self.assertIn(ANN, self.bob.states())
        self.clock = 45
        self.bob.tick()
        self.assertNotIn(ANN, self.bob.states())
        self.assertEqual((self.bob.take(again), self.bob.take(self.ann.tick() or b"")), ([], [ANN]))
        self.clock = 200
        self.bob.tick()
        self.bob.tick()
        self.assertEqual(json.loads(self.bob.encode()), [])

    def test_one_who_was_said_to_have_left_says_that_it_is_there(self) -> None:
        self.bob.take(self.ann.set({"site": 1}))
        self.assertEqual(self.ann.take(json.dumps([[ANN, 1000, None]]).encode()), [])
        self.assertEqual((self.ann.state, self.bob.take(self.ann.tick() or b"")), ({"site": 1}, [ANN]))

    def test_cursors_are_places_that_stay(self) -> None:
        with Text(1, site=1, units="code points") as text, Text(1, site=2, units="code points") as other:
            text.insert(0, "Ob\N{EURO SIGN}ron")
            other.merge(text)
            self.bob.take(self.ann.set({"cursor": dataclasses.asdict(text.anchor(3))}))
            other.insert(0, ">>")
            self.assertEqual(other.position(Anchor(**self.bob.states()[ANN]["cursor"])), 5)

    def test_other_bytes_are_refused(self) -> None:
        said = self.bob.set({"site": 2})
        for wrong in ("", "none", "{}", "[1]", '[["aa",1,{}]]', f'[["{ANN}",-1,{{}}]]', f'[["{ANN}",1,7]]', f'[["{ANN}",1]]', "[" * 100_000,
                      f'[["{ANN}",true,{{}}]]', f'[["{ANN}",1,{{"a":NaN}}]]', f'[["{ANN}",1.5,{{}}]]', f'[["{ANN}",9007199254740992,{{}}]]',
                      f'[["{ANN}\\n",1,{{}}]]'):
            with self.assertRaises(Refused, msg=wrong[:60]) as refused:
                self.bob.take(wrong.encode())
            self.assertEqual(refused.exception.number, 1)
        for other in ({1}, {"a": {1}}, {"a": float("nan")}, "none"):
            self.assertRaises((TypeError, ValueError), self.bob.set, other)
            self.assertRaises((TypeError, ValueError), Presence().set, other)
        self.assertEqual((self.bob.encode(), self.bob.state), (said, {"site": 2}))
        self.assertRaises(TypeError, self.bob.take, "none")

    @given(st.binary(max_size=40), st.integers(0, 40), st.integers(0, 40))
    @tries(200)
    def test_anybodys_bytes_are_states_or_refused(self, other: bytes, beg: int, many: int) -> None:
        said = self.ann.set({"site": 1})
        wrong = said[:beg] + other + said[beg + many:]
        try:
            self.eve.take(wrong)
        except Refused:
            self.assertNotEqual(wrong, said)

    @given(st.randoms(use_true_random=False))
    @tries(100)
    def test_who_got_all_shows_the_same_in_whatever_order(self, draw: random.Random) -> None:
        everybody = [self.made(it) for it in (ANN, BOB, EVE)]
        sent = [draw.choice(everybody).set(None if draw.randrange(4) == 0 else {"turn": turn}) for turn in range(20)]
        for one in everybody:
            for _ in range(10):
                one.take(draw.choice(sent))
        for one in everybody:
            for said in draw.sample(sent, len(sent)):
                one.take(said)
        self.assertEqual([one.states() for one in everybody[1:]], [everybody[0].states()] * 2)


if __name__ == "__main__":
    unittest.main()
