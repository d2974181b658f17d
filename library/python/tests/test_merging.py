"""Chunks that are merged without a text: against texts that take the same chunks one by one.

  VIALSHOAL_LIBRARY=library/out/libvialshoal.so python3 -m unittest discover library/python/tests
"""
from __future__ import annotations

import unittest
from typing import Any, Literal

from hypothesis import given
from hypothesis import strategies as st

from examples import tries
from test_text import Edit, edited, one_edit
from vialshoal import Backlog, Refused, Text, merge_chunks

# A site edits in a batch of one or more, or takes in what the others have.
Step = tuple[Literal["edit", "more", "meet"], int, Edit]
steps = st.lists(st.tuples(st.sampled_from(("edit", "edit", "more", "meet")), st.integers(0, 2), one_edit), max_size=30)


def chunks_of(texts: list[Text[Any]], given_steps: list[Step]) -> list[bytes]:
    """What the sites of a text hand out, chunk by chunk."""
    chunks: list[bytes] = []
    for verb, at, edit in given_steps:
        text = texts[at]
        if verb == "meet":
            for other in texts:
                if other is not text:
                    text.merge(other)
        else:
            with text.batch() as made:
                for _ in range(1 if verb == "edit" else 3):
                    edited(text, edit)
            chunks += made
    return chunks


def log_of(chunks: list[bytes]) -> tuple[set[bytes], dict[int, int], bytes]:
    """What a text has that took chunks in, as far as they are ready: its messages, fronts and bytes."""
    with Text(1, site=9) as text:
        backlog = Backlog(text)
        for chunk in chunks:
            backlog.take(chunk)
        return {*text.since({})}, text.fronts(), bytes(text)


class Merging(unittest.TestCase):
    def setUp(self) -> None:
        self.texts = [Text(1, site=site) for site in (1, 2, 3)]

    def tearDown(self) -> None:
        for text in self.texts:
            text.close()

    @given(steps, st.data())
    @tries(150)
    def test_all_is_there_once_and_ready(self, given_steps: list[Step], data: st.DataObject) -> None:
        with Text(1, site=1) as a, Text(1, site=2) as b, Text(1, site=3) as d, Text(1, site=9) as taking:
            chunks = chunks_of([a, b, d], given_steps)
            shuffled = data.draw(st.permutations([*chunks, *chunks[:3], *a.pack()]))
            merged = merge_chunks(shuffled)
            taken = [taking.unpack(chunk) for chunk in merged]
            self.assertEqual([(it.known, it.waiting) for it in taken], [(0, 0)] * len(merged))
            self.assertEqual(log_of(merged), log_of(chunks))
            self.assertEqual(merge_chunks(merged), merged)
            self.assertLessEqual(sum(map(len, merged)), sum(map(len, chunks)))
            self.assertEqual(merge_chunks(merged, taking.fronts()), [])

    @given(steps, st.data())
    @tries(150)
    def test_some_do_what_they_did_apart(self, given_steps: list[Step], data: st.DataObject) -> None:
        with Text(1, site=1) as a, Text(1, site=2) as b, Text(1, site=3) as d:
            chunks = chunks_of([a, b, d], given_steps)
            some = [chunk for chunk in chunks if data.draw(st.booleans())]
            self.assertEqual(log_of(merge_chunks(some)), log_of(some))

    @given(steps, st.data())
    @tries(100)
    def test_one_who_is_so_far_gets_the_rest(self, given_steps: list[Step], data: st.DataObject) -> None:
        with Text(1, site=1) as a, Text(1, site=2) as b, Text(1, site=3) as d, Text(1, site=9) as far:
            half = data.draw(st.integers(0, len(given_steps)))
            chunks = chunks_of([a, b, d], given_steps[:half])
            far.merge(a)
            chunks += chunks_of([a, b, d], given_steps[half:])
            backlog = Backlog(far)
            for chunk in merge_chunks(chunks, far.fronts()):
                backlog.take(chunk)
            self.assertEqual(({*far.since({})}, far.fronts(), bytes(far)), log_of(chunks))

    def test_much_becomes_chunks_of_16_000_bytes(self) -> None:
        text, other, _ = self.texts
        made = text.paste(0, bytes(range(256)) * 300)
        for at in range(400):
            with text.batch() as chunks:
                text.insert(at * 7, b"\x0f")
            made += chunks
        other.merge(text)
        made += other.paste(5, b"other")
        merged = merge_chunks(reversed(made))
        self.assertTrue(len(merged) < len(made) / 20 and all(len(chunk) <= 16_000 for chunk in merged))
        with Text(1, site=9) as taking:
            self.assertEqual([taking.unpack(chunk).waiting for chunk in merged], [0] * len(merged))
            self.assertEqual(bytes(taking), bytes(other))
        self.assertEqual(b"".join(merge_chunks(text.pack())), b"".join(text.pack()))

    def test_what_is_no_chunk_and_what_differs_is_refused(self) -> None:
        text, other, _ = self.texts
        [chunk] = text.paste(0, b"here")
        with Text(1, site=1) as twin, Text(2, site=1) as another:
            cases = [([b""], 1), ([b"OTC1"], 1), ([chunk[:-1]], 1), ([b"OTC1\0\1x"], 1), ([b"OTC1\0\1\x0f\2\1\1\0\4\2x"], 1),
                     ([chunk, twin.paste(0, b"else")[0]], 3), ([chunk, another.paste(0, b"x")[0]], 2)]
        for chunks, number in cases:
            with self.assertRaises(Refused) as caught:
                merge_chunks(chunks)
            self.assertEqual(caught.exception.number, number, chunks)
        self.assertEqual(merge_chunks([]), [])
        for end in range(7, len(chunk)):
            try:
                merge_chunks([chunk[:end] + b"\xff"])
            except Refused as why:
                self.assertIn(why.number, (1, 4))


if __name__ == "__main__":
    unittest.main()
