"""What one expects of a type in Python: its repr, `in`, slices, copies, and a TypeError for what has another type.

  VIALSHOAL_LIBRARY=library/out/libvialshoal.so python3 -m unittest discover library/python/tests
"""
from __future__ import annotations

import copy
import pickle
import re
import unittest
from collections.abc import Callable
from pathlib import Path
from typing import Any

from hypothesis import given
from hypothesis import strategies as st

import vialshoal
from examples import tries
from vialshoal import Misused, Text

PROJECT = Path(__file__).resolve().parents[1] / "pyproject.toml"


class AsInPython(unittest.TestCase):
    def test_the_version_is_the_packages(self) -> None:
        self.assertEqual(re.findall(r'^version = "(.*)"$', PROJECT.read_text(), re.MULTILINE), [vialshoal.__version__])

    def test_it_is_shown_in_short(self) -> None:
        with Text(7, site=2) as text, Text(1, site=1, units="code points") as points:
            text.insert(0, b"Oberon")
            points.insert(0, "\N{EURO SIGN}" * 41)
            with text.past({2: 1}) as past:
                self.assertEqual(repr(past), "<Past: b'Oberon'>")
            self.assertEqual(repr(text), "<Text 7 of site 2: b'Oberon'>")
            self.assertEqual(repr(points), f"<Text 1 of site 1: '{chr(0x20ac) * 40}'...>")
            self.assertEqual((text.number, text.site, text.units, points.units), (7, 2, "bytes", "code points"))
            with Text.load(text.store()) as again, Text.load(text.store(packed=True)) as packed:
                self.assertEqual([(it.number, it.site) for it in (again, packed)], [(7, 2)] * 2)
        self.assertEqual(repr(text), "<Text 7 of site 2, closed>")

    def test_in_looks_for_a_stretch(self) -> None:
        with Text(1, site=1) as text, Text(1, site=2, units="code points") as points:
            text.insert(0, b"Oberon")
            points.merge(text)
            self.assertTrue(b"ber" in text and 79 in text and "ber" in points and b"" in text)
            self.assertFalse(b"System" in text or 80 in text or "System" in points)
            for wrong in (lambda: "ber" in text, lambda: b"ber" in points, lambda: 79 in points):
                self.assertRaises(TypeError, wrong)

    @given(st.binary(max_size=12), st.slices(14), st.integers(-14, 13))
    @tries(200)
    def test_slices_are_those_of_bytes(self, plain: bytes, where: slice, at: int) -> None:
        with Text(1, site=1) as text:
            text.insert(0, plain)
            self.assertEqual((text[where], [*text]), (plain[where], [*plain]))
            if -len(plain) <= at < len(plain):
                self.assertEqual(text[at], plain[at])
            else:
                self.assertRaises(IndexError, lambda: text[at])


class Copies(unittest.TestCase):
    def test_a_copy_is_of_another_site(self) -> None:
        for units in ("bytes", "code points"):
            with Text(3, site=1, units=units) as text, Text(3, site=2) as other:  # type: ignore[call-overload]
                other.insert(0, b"Oberon")
                text.merge(other)
                with text.copy(site=9) as made:
                    self.assertEqual((made.site, made.units, made.fronts()), (9, text.units, text.fronts()))
                    made.delete(0, 1)
                    text.merge(made)
                    self.assertEqual((text[:], text.front(9)), (made[:], 1))
                for used in (1, 2, 9):
                    self.assertRaises(ValueError, text.copy, site=used)
                self.assertRaises(Misused, text.copy, site=0)

    def test_none_is_made_that_has_the_same_handle(self) -> None:
        with Text(1, site=1) as text, text.past({}) as past:
            makers: list[Callable[[Any], object]] = [copy.copy, copy.deepcopy, pickle.dumps]
            for made in makers:
                self.assertRaisesRegex(TypeError, "copy", made, text)
                self.assertRaisesRegex(TypeError, "copy", made, past)


class OtherTypes(unittest.TestCase):
    def test_each_is_a_type_error_and_changes_nothing(self) -> None:
        with Text(1, site=1) as text:
            text.insert(0, b"Oberon")
            asked: Any = text
            new: Any = vialshoal
            calls: list[Callable[[], object]] = [
                lambda: asked.take(5), lambda: asked.take("a"), lambda: asked.take([1]), lambda: asked.unpack(5),
                lambda: new.Text.load(5), lambda: asked.insert(0, 5), lambda: asked.insert(1.0, b"x"), lambda: asked.insert("0", b"x"),
                lambda: asked.insert(0, b"x", "bold"), lambda: asked.insert(0, b"x", new.Looks(font=5)), lambda: asked.delete(0.0, 1),
                lambda: asked.change_looks(0, 1, font=5), lambda: asked.change_looks(0, 1, colour=1.0), lambda: asked.recall(None),
                lambda: asked.delete_names([5]), lambda: asked.restore_names(5), lambda: asked.place((1, 0)),
                lambda: asked.place(new.Name("1", 0)), lambda: asked.names(0.0, 1), lambda: asked.merge(b"x"), lambda: asked.since(5),
                lambda: asked.pack([1]), lambda: asked.past(None), lambda: asked.front("1"), lambda: asked.end_noting("0"),
                lambda: asked["a"], lambda: asked[1.0], lambda: asked.copy(site="2"), lambda: new.Text("1", site=1),
                lambda: new.Text(1, site=1.0), lambda: new.Past(text, 5), lambda: new.Past(5, {})]
            before = text.store()
            for at, call in enumerate(calls):
                with self.subTest(at):
                    self.assertRaises(TypeError, call)
            self.assertEqual(text.store(), before)
            for data in (bytearray(b"!"), memoryview(b"!?")[::2]):
                asked.insert(len(text), data)
            self.assertEqual(bytes(text), b"Oberon!!")


if __name__ == "__main__":
    unittest.main()
