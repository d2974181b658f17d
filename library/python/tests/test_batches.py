"""Calls that are one change, and pastes: against the same calls one by one.

  VIALSHOAL_LIBRARY=library/out/libvialshoal.so python3 -m unittest discover library/python/tests
"""
from __future__ import annotations

import os
import threading
import unittest
from unittest import mock

from hypothesis import given

from examples import tries
from test_chunks import shown
from test_kept import InAFolder
from test_text import Edit, edited, edits
from vialshoal import Looks, Refused, Text


class Batches(InAFolder):
    @given(edits, edits)
    @tries(60)
    def test_its_chunks_are_what_the_messages_would_be(self, here: list[Edit], there: list[Edit]) -> None:
        with Text(1, site=1) as a, Text(1, site=1) as b, Text(1, site=2) as c, Text(1, site=3) as other:
            for edit in there:
                edited(other, edit)
            with a.batch() as chunks:
                self.assertEqual([message for edit in here for message in edited(a, edit)[1]], [])
                a.merge(other)
            for edit in here:
                edited(b, edit)
            b.merge(other)
            self.assertTrue(all(len(chunk) <= 16_000 for chunk in chunks))
            for chunk in chunks:
                c.unpack(chunk)
            self.assertEqual((shown(a), shown(c)), (shown(b), shown(b)))

    def test_it_is_kept_at_once_and_before_it_is_handed_out(self) -> None:
        with Text.open(self.path, site=1) as text, mock.patch("os.fdatasync", wraps=os.fdatasync) as syncs:
            with text.batch() as chunks:
                for at in range(100):
                    self.assertEqual(text.insert(at, b"x"), [])
                self.assertEqual((syncs.call_count, chunks), (0, []))
            self.assertEqual((syncs.call_count, chunks), (1, text.pack()))
            with self.assertRaises(ZeroDivisionError), text.batch() as chunks:
                text.insert(0, b"y")
                text.insert(1, b"z"[:1 // 0])
            self.assertEqual(chunks, text.pack({1: 100}))
            with mock.patch("os.pwrite", side_effect=OSError), self.assertRaises(OSError), text.batch() as chunks:
                text.insert(0, b"z")
            self.assertEqual(chunks, [])
            # What wasn't handed out comes with the next.
            with text.batch() as chunks:
                text.insert(0, b"!")
            self.assertEqual((chunks, text.front(1)), (text.pack({1: 101}), 103))
            self.assertEqual(text.insert(0, b"?"), [*text.since({1: 103})])

    def test_what_is_handed_out_within_is_kept_by_then(self) -> None:
        with Text.open(self.path, site=1) as text, text.batch():
            text.insert(0, b"x")
            [chunk] = text.pack()
            with Text.open(self.put(self.path.read_bytes())) as again:
                self.assertEqual(again.pack(), [chunk])

    def test_one_within_another_is_a_part_of_it(self) -> None:
        with Text(1, site=1) as text:
            with text.batch() as chunks:
                text.insert(0, b"a")
                with text.batch() as inner:
                    text.insert(0, b"b")
                self.assertEqual((inner, text.paste(0, b"c")), ([], []))
            self.assertEqual((chunks, text.front(1)), (text.pack(), 3))
            self.assertEqual(text.insert(0, b"d"), [*text.since({1: 3})])

    def test_other_threads_wait_for_its_end(self) -> None:
        with Text(1, site=1) as text:
            sent: list[bytes] = []
            thread = threading.Thread(target=lambda: sent.extend(text.insert(0, b"y")))
            with text.batch():
                thread.start()
                for _ in range(100):
                    text.insert(0, b"x")
                self.assertEqual(bytes(text), b"x" * 100)
            thread.join()
            self.assertEqual((bytes(text), len(sent)), (b"y" + b"x" * 100, 1))


class Pastes(unittest.TestCase):
    def test_a_megabyte_is_some_chunks(self) -> None:
        data = bytes(range(256)) * 4096
        with Text(1, site=1) as a, Text(1, site=2) as b, Text(1, site=3, units="code points") as c:
            chunks = a.paste(0, data, Looks(colour=3))
            self.assertEqual((max(map(len, chunks)) <= 16_000, len(chunks)), (True, 86))
            for chunk in chunks:
                b.unpack(chunk)
            self.assertEqual(shown(b), shown(a))
            self.assertEqual((bytes(b), [run.colour for run in b.runs()]), (data, [3]))
            for chunk in c.paste(0, "\N{EURO SIGN}" * 10_000):
                b.unpack(chunk)
            self.assertEqual(len(b), len(data) + 30_000)
            self.assertEqual(a.paste(5, b""), [])

    def test_a_part_comes_with_the_refusal(self) -> None:
        with Text(1, site=1) as text, Text(1, site=2) as other:
            other.merge(text)
            text.insert(0, bytes(2**24 - 4096))
            before = text.fronts()
            with self.assertRaises(Refused) as caught:
                text.paste(0, b"x" * 5000)
            self.assertEqual((caught.exception.number, caught.exception.messages), (10, text.pack(before)))
            self.assertEqual(len(text.pack(before)), 1)


if __name__ == "__main__":
    unittest.main()
