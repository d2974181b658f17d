"""Places that stay, against a plain list of characters, each of which is there once.

  VIALSHOAL_LIBRARY=library/out/libvialshoal.so python3 -m unittest discover library/python/tests
"""
from __future__ import annotations

import unittest
from typing import Any, cast

from hypothesis import given
from hypothesis import strategies as st

from examples import tries
from vialshoal import Anchor, Misused, Text

# (of one to four bytes)
LETTERS = "abc\N{LATIN SMALL LETTER E WITH ACUTE}\N{EURO SIGN}def\N{GRINNING FACE}ghijklmnopqrstuvwxyz"


class Anchors(unittest.TestCase):
    @given(st.integers(1, 8), st.data())
    @tries(150)
    def test_each_stays_with_its_character(self, length: int, data: st.DataObject) -> None:
        with Text(1, site=1, units="code points") as text, Text(1, site=2, units="code points") as other:
            text.insert(0, LETTERS[:length])
            other.merge(text)
            anchors = {(pos, side): text.anchor(pos, cast(Any, side)) for pos in range(length + 1) for side in (-1, 1)}
            for new in LETTERS[length:length + data.draw(st.integers(0, 6))]:
                other.insert(data.draw(st.integers(0, len(other))), new)
                if len(other) > 1 and data.draw(st.booleans()):
                    at = data.draw(st.integers(0, len(other) - 1))
                    other.delete(at, at + 1)
            text.merge(other)
            shown = str(text)
            for (pos, side), anchor in anchors.items():
                at = pos - (side < 0)
                if at in (-1, length):
                    self.assertEqual(text.position(anchor), 0 if side < 0 else len(shown))
                elif LETTERS[at] in shown:
                    self.assertEqual(text.position(anchor), shown.index(LETTERS[at]) + (side < 0))
                else:
                    # (where it would be: behind what of the characters before it is left)
                    before = [shown.index(it) + 1 for it in LETTERS[:at] if it in shown]
                    after = [shown.index(it) for it in LETTERS[at + 1:length] if it in shown]
                    self.assertTrue(max(before, default=0) <= text.position(anchor) <= min(after, default=len(shown)))

    def test_at_the_ends(self) -> None:
        with Text(1, site=1) as text, Text(1, site=2) as other:
            ends = text.anchor(0, -1), text.anchor(0, 1)
            self.assertEqual(ends, (Anchor(0, 0, -1), Anchor(0, 0, 1)))
            text.insert(0, b"Oberon")
            self.assertEqual([*map(text.position, ends)], [0, 6])
            self.assertEqual((text.anchor(1), text.anchor(6), text.anchor(5, 1)), (Anchor(1, 0, -1), Anchor(1, 5, -1), Anchor(1, 5, 1)))
            for pos in (-1, 7):
                for side in (-1, 1):
                    self.assertRaises(Misused, text.anchor, pos, side)
            self.assertRaises(TypeError, text.anchor, 0, 0)
            self.assertRaises(TypeError, text.position, (1, 0, -1))
            self.assertRaises(Misused, other.position, text.anchor(1))

    def test_of_what_it_was(self) -> None:
        with Text(1, site=1) as text:
            text.insert(0, b"Oberon")
            text.insert(0, b"Project ")
            with text.past({1: 1}) as past:
                self.assertEqual((text.position(past.anchor(2)), past.position(text.anchor(10))), (10, 2))


if __name__ == "__main__":
    unittest.main()
