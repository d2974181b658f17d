"""How far texts are, as bytes, and what these show of copies that both went on.

  VIALSHOAL_LIBRARY=library/out/libvialshoal.so python3 -m unittest discover library/python/tests
"""
from __future__ import annotations

import shutil
import unittest
from collections.abc import Callable
from typing import Optional

from hypothesis import given
from hypothesis import strategies as st

from examples import tries
from test_chunks import shown
from test_kept import InAFolder
from test_past import Sites, Steps, site_of, steps
from test_text import Edit, edited, edits
from vialshoal import FrontsDiffer, Refused, Text


def first_that_differs(here: list[bytes], there: list[bytes], site: int) -> Optional[int]:
    """The number of the first operation of a site that isn't the same in two lists, as far as both go."""
    both = zip(*([it for it in messages if site_of(it) == site] for messages in (here, there)))
    return next((at for at, (a, b) in enumerate(both, 1) if a != b), None)


class States(unittest.TestCase):
    @given(steps)
    @tries(60)
    def test_sites_that_made_all_once_agree_whenever_they_meet(self, given_steps: Steps) -> None:
        sites = Sites(3)
        for at in range(0, len(given_steps) + 1, 5):
            sites.do(given_steps[at:at + 5])
            for one in sites.texts:
                for other in sites.texts:
                    if other.front(one.site) <= one.front(one.site):
                        state = other.state()
                        self.assertEqual(one.check(state), other.fronts())
                        self.assertEqual(one.pack(state), one.pack(other.fronts()))
                        self.assertEqual([*one.since(state)], [*one.since(other.fronts())])
        for text in sites.texts:
            with Text(1, site=9) as again, text.past(text.state()) as past:
                for chunk in text.pack(again.state()):
                    again.unpack(chunk)
                self.assertEqual((again.state(), shown(again), bytes(past)), (text.state(), shown(text), bytes(text)))

    @given(edits, edits, edits)
    @tries(100)
    def test_two_copies_that_went_on_are_told(self, before: list[Edit], here: list[Edit], there: list[Edit]) -> None:
        with Text(1, site=1) as one:
            for edit in before:
                edited(one, edit)
            with Text.load(one.store()) as copy, Text(1, site=2) as other:
                for text, given_edits in ((one, here), (copy, there)):
                    for edit in given_edits:
                        edited(text, edit)
                other.merge(copy)
                state, mine = other.state(), [*one.since({})]
                if copy.front(1) > one.front(1):
                    self.differs(one, state, 8, one.front(1) + 1)
                elif first_that_differs(mine, [*copy.since({})], 1) is not None:
                    self.differs(one, state, 3, copy.front(1))
                else:
                    one.check(state)
                if other.front(1) >= one.front(1) and first_that_differs(mine, [*other.since({})], 1) is not None:
                    self.differs(other, one.state(), 3, one.front(1))

    def differs(self, text: Text[bytes], state: bytes, number: int, seq: int) -> None:
        calls: list[Callable[[bytes], object]] = [text.check, text.pack, text.since, text.past]
        for call in calls:
            with self.assertRaises(FrontsDiffer) as caught:
                call(state)
            self.assertEqual((caught.exception.number, caught.exception.site, caught.exception.seq), (number, 1, seq))

    def test_a_state_is_bytes(self) -> None:
        with Text(7, site=1) as text, Text(8, site=1) as wrong:
            self.assertEqual(text.state(), b"OTV1\0\7")
            text.insert(0, b"x")
            state = text.state()
            self.assertEqual((len(state), state[:12]), (20, b"OTV1\0\7\0\1\0\0\0\1"))
            with self.assertRaises(Refused) as caught:
                wrong.check(state)
            self.assertEqual(caught.exception.number, 2)
            for none in (b"", state[:5], state[:-1], state + b"x", b"OTV2" + state[4:], state + state[6:], state[:6] + bytes(14),
                         state[:8] + bytes(12)):
                self.assertRaises(ValueError, text.check, none)
            self.assertRaises(TypeError, text.check, 5)

    @given(st.binary(max_size=60))
    @tries(200)
    def test_other_bytes_are_refused_or_another_state(self, data: bytes) -> None:
        with Text(1, site=1) as text:
            text.insert(0, b"x")
            for state in (data, b"OTV1\0\1" + data):
                try:
                    fronts = text.check(state)
                except (ValueError, Refused):
                    continue
                self.assertTrue(all(1 <= site <= 65535 and front for site, front in fronts.items()))


class Copied(InAFolder):
    def test_two_that_made_others_for_the_same_numbers_are_told_before_they_mix(self) -> None:
        (self.folder / "a").mkdir()
        with Text.open(self.folder / "a" / "note", site=1) as text:
            text.insert(0, b"both")
        shutil.copytree(self.folder / "a", self.folder / "b")
        with Text.open(self.folder / "a" / "note") as one, Text.open(self.folder / "b" / "note") as other:
            one.insert(0, b"here")
            other.insert(0, b"else")
            other.insert(0, b"and more")
            self.assertRaisesRegex(FrontsDiffer, "from 3 on were made elsewhere", one.check, other.state())
            self.assertRaisesRegex(FrontsDiffer, "up to 2 are others there than here", other.check, one.state())
            with one.copy(site=2) as went_on:
                went_on.insert(0, b"x")
                self.assertRaises(FrontsDiffer, other.check, went_on.state())


if __name__ == "__main__":
    unittest.main()
