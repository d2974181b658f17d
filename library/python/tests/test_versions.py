"""What lies between two versions: against lists of characters, each with its name and looks, which stay, come or go.

  VIALSHOAL_LIBRARY=library/out/libvialshoal.so python3 -m unittest discover library/python/tests
"""
from __future__ import annotations

import unittest
from typing import Any

from hypothesis import given
from hypothesis import strategies as st

from examples import tries
from test_code_points import edited as string_edited
from test_code_points import edits as string_edits
from test_text import edited, edits
from vialshoal import Delete, Delta, Insert, Looks, Misused, Name, Refused, Retain, Shown, Text

# Who edits next, and whether each takes the other's in before that.
turns = st.lists(st.tuples(st.integers(0, 1), st.booleans(), st.booleans()), max_size=25)
# Which of the versions are compared.
pairs = st.lists(st.tuples(st.integers(0, 30), st.integers(0, 30)), min_size=1, max_size=4)


def looks_of(shown: Shown[Any]) -> list[Looks]:
    return [run.looks for run in shown.runs() for _ in range(run.beg, run.end)]


def versions(texts: list[Text[Any]], do: Any, given_edits: list[Any], given_turns: list[Any]) -> list[dict[int, int]]:
    """Plays edits of two texts, and answers the fronts that the first one had."""
    fronts = [texts[0].fronts()]
    for edit, (editor, is_first_up, is_second_up) in zip(given_edits, given_turns):
        do(texts[editor], edit)
        if is_first_up:
            texts[0].merge(texts[1])
        if is_second_up:
            texts[1].merge(texts[0])
        fronts.append(texts[0].fronts())
    return fronts


class Differences(unittest.TestCase):
    def is_between(self, was: Shown[Any], now: Shown[Any], delta: Delta[Any]) -> None:
        """What is retained has its looks, unless it is told to be in others; and the delta makes one of the other."""
        old, new, before, after = looks_of(was), looks_of(now), 0, 0
        for step in (*delta.steps, Retain(len(was))):
            if isinstance(step, Insert):
                after += len(step.data)
            elif isinstance(step, Delete):
                before += step.length
            else:
                length = min(step.length, len(was) - before)
                stays = zip(old[before:before + length], new[after:after + length])
                self.assertEqual({one != other for one, other in stays}, {step.is_dressed} if length else set())
                before, after = before + length, after + length
        self.assertEqual((delta.applied(was[:]), before, after), (now[:], len(was), len(now)))

    def keeps_what_both_have(self, was: Shown[bytes], now: Shown[bytes], delta: Delta[bytes]) -> None:
        before, after = was.names(0, len(was)), now.names(0, len(now))
        gone = sum(step.length for step in delta.steps if isinstance(step, Delete))
        come = sum(len(step.data) for step in delta.steps if isinstance(step, Insert))
        self.assertEqual((gone, come), (len({*before} - {*after}), len({*after} - {*before})))

    @given(edits, turns, pairs)
    @tries(120)
    def test_they_make_one_version_of_another(self, given_edits: list[Any], given_turns: list[Any], given_pairs: list[Any]) -> None:
        with Text(1, site=1) as text, Text(1, site=2) as other:
            fronts = versions([text, other], edited, given_edits, given_turns)
            for start, end in given_pairs:
                first, last = fronts[start % len(fronts)], fronts[end % len(fronts)]
                with text.past(first) as was, text.past(last) as now:
                    found = ((was, now, text.diff(first, last)), (was, text, text.diff(first)), (now, was, text.diff(last, first)))
                    for one, two, delta in found:
                        self.is_between(one, two, delta)
                        self.keeps_what_both_have(one, two, delta)
                self.assertEqual(text.diff(first, first), Delta(False, ()))

    @given(string_edits, turns, pairs)
    @tries(120)
    def test_they_do_in_code_points(self, given_edits: list[Any], given_turns: list[Any], given_pairs: list[Any]) -> None:
        with Text(1, site=1, units="code points") as text, Text(1, site=2, units="code points") as other:
            fronts = versions([text, other], string_edited, given_edits, given_turns)
            for start, end in given_pairs:
                first, last = fronts[start % len(fronts)], fronts[end % len(fronts)]
                with text.past(first) as was, text.past(last) as now:
                    self.is_between(was, now, text.diff(first, last))
                    self.is_between(was, text, text.diff(first))
                self.assertEqual(text.diff(first, first), Delta(False, ()))

    @given(edits)
    @tries(60)
    def test_stretches_of_names_are_the_names(self, given_edits: list[Any]) -> None:
        with Text(1, site=1) as text:
            for edit in given_edits:
                edited(text, edit)
            ranges = text.name_ranges(0, len(text))
            self.assertEqual([Name(it.site, it.offset + at) for it in ranges for at in range(it.length)], text.names(0, len(text)))
            self.assertTrue(all((a.site, a.offset + a.length) != (b.site, b.offset) for a, b in zip(ranges, ranges[1:])))

    def test_one_is_told_by_what_changed(self) -> None:
        with Text(1, site=1, units="code points") as text, Text(1, site=1, units="code points") as twin:
            text.insert(0, "na\xefve")
            fronts = text.fronts()
            text.delete(0, 2)
            text.insert(3, "!")
            text.change_looks(1, 2, colour=3)
            self.assertEqual(text.diff(fronts), Delta(False, (Delete(2), Retain(1), Retain(1, is_dressed=True), Retain(1), Insert("!"))))
            self.assertEqual(text.diff({}, fronts), Delta(False, (Insert("na\xefve"),)))
            twin.insert(0, "other")
            self.assertRaises(Refused, text.diff, twin.state())
            self.assertEqual(text.name_ranges(0, 1), text.name_ranges(0, 1))
            self.assertRaises(Misused, text.name_ranges, 0, 9)


if __name__ == "__main__":
    unittest.main()
