"""Threads that share a text: no message is lost, and none waits for another in a ring.

  VIALSHOAL_LIBRARY=library/out/libvialshoal.so python3 -m unittest discover library/python/tests
"""
from __future__ import annotations

import sys
import threading
import time
import unittest
from collections.abc import Callable, Iterator
from contextlib import contextmanager
from functools import partial
from typing import Any
from unittest import mock

from vialshoal import Misused, TakingKind, Text
from vialshoal import _library as library

PATIENCE = 300


def side_by_side(*jobs: Callable[[], object]) -> None:
    """Runs jobs in a thread each, begun together, until all have ended; what one raised is raised here."""
    begin, raised = threading.Barrier(len(jobs)), list[BaseException]()

    def does(job: Callable[[], object]) -> None:
        try:
            begin.wait(PATIENCE)
            job()
        except BaseException as why:
            raised.append(why)

    threads = [threading.Thread(target=does, args=(job,), daemon=True) for job in jobs]
    for thread in threads:
        thread.start()
    for thread in threads:
        thread.join(PATIENCE)
    if raised:
        raise raised[0]
    if any(thread.is_alive() for thread in threads):
        raise TimeoutError("a thread waits for ever")


@contextmanager
def often_switching() -> Iterator[None]:
    """Has the interpreter go from thread to thread as often as it can."""
    interval = sys.getswitchinterval()
    sys.setswitchinterval(1e-6)
    try:
        yield
    finally:
        sys.setswitchinterval(interval)


@contextmanager
def switching_never() -> Iterator[None]:
    """Has the interpreter stay with a thread until that waits for something, or lets others run by itself."""
    interval = sys.getswitchinterval()
    sys.setswitchinterval(1e6)
    try:
        yield
    finally:
        sys.setswitchinterval(interval)


def seq_of(message: bytes) -> int:
    return int.from_bytes(message[8:12], "big")


class OneText(unittest.TestCase):
    """What threads do to a text that they share."""

    def goes_to_another(self, text: Text[Any], sent: list[list[bytes]]) -> None:
        """Whether each message was handed out once, and brings another site to what this one has."""
        messages = sorted((message for mine in sent for message in mine), key=seq_of)
        self.assertEqual([*map(seq_of, messages)], [*range(1, text.front(1) + 1)])
        with Text(1, site=2) as other:
            for message in messages:
                other.take(message)
            self.assertEqual((bytes(other), other.fronts()), (bytes(text), text.fronts()))

    def test_four_that_edit_hand_out_every_message(self) -> None:
        with Text(1, site=1) as text, often_switching():
            sent: list[list[bytes]] = [text.insert(0, b"-" * 4000), [], [], [], []]

            def edits(mine: list[bytes]) -> None:
                for at in range(800):
                    mine += text.insert(at, b"x") if at % 4 else text.delete(0, 1)

            side_by_side(*(partial(edits, mine) for mine in sent[1:]))
            self.assertEqual([*map(len, sent[1:])], [800] * 4)
            self.goes_to_another(text, sent)

    def test_all_calls_may_be_made_at_once(self) -> None:
        with Text(1, site=1, units="code points") as text, Text(1, site=3) as third, often_switching():
            sent: list[list[bytes]] = [text.insert(0, "na\N{LATIN SMALL LETTER I WITH DIAERESIS}ve" * 100), [], []]
            taken = [message for at in range(200) for message in third.insert(at, "\u20ac".encode())]

            def edits(mine: list[bytes]) -> None:
                for at in range(200):
                    mine += text.insert(at, "\u20ac")
                    mine += text.change_looks(0, 3, colour=at % 16)

            def takes() -> None:
                for message in taken:
                    self.assertIs(text.take(message).kind, TakingKind.TAKEN)

            def reads() -> None:
                for at in range(100):
                    with text.past(text.fronts()) as past:
                        self.assertEqual((len(past), len(str(past))), (len(past[:]), len(past)))
                    [name] = text.names(at, at + 1)
                    self.assertTrue(text.place(name).pos)
                    self.assertEqual(text.runs()[0].beg, 0)
                    text.changes(), text.pack(), text.store(packed=True), [*text.since({})], repr(text)

            side_by_side(partial(edits, sent[1]), partial(edits, sent[2]), takes, reads)
            ours = sent[0] + sent[1] + sent[2]
            self.assertEqual(sorted(map(seq_of, ours)), [*range(1, text.front(1) + 1)])
            for message in sorted(ours, key=seq_of):
                third.take(message)
            self.assertEqual((bytes(third), third.runs()[-1].end), (bytes(text), len(bytes(text))))

    def test_the_messages_of_an_edit_that_was_interrupted_come_with_the_next(self) -> None:
        with Text(1, site=1) as text:
            with mock.patch.object(library.calls, "vialshoal_message", side_effect=KeyboardInterrupt):
                with self.assertRaises(KeyboardInterrupt):
                    text.insert(0, b"a")
            with self.assertRaises(Misused) as caught:
                text.insert(7, b"b")
            sent = [caught.exception.messages]
            with mock.patch.object(library.calls, "vialshoal_message", side_effect=KeyboardInterrupt):
                with self.assertRaises(KeyboardInterrupt):
                    text.insert(1, b"b")
            sent.append(text.insert(2, b"c"))
            self.assertEqual([*map(len, sent)], [1, 2])
            self.goes_to_another(text, sent)

    def test_one_that_is_closed_meanwhile_is_refused(self) -> None:
        for _ in range(20):
            text = Text(1, site=1)

            def edits() -> None:
                with self.assertRaises(Misused) as caught:
                    while True:
                        text.insert(0, b"x")
                self.assertEqual(caught.exception.number, 101)

            def closes() -> None:
                time.sleep(0.002)
                text.close()

            side_by_side(edits, edits, closes)


class TwoTexts(unittest.TestCase):
    def test_texts_that_take_each_other_in_wait_in_no_ring(self) -> None:
        with Text(1, site=1) as a, Text(1, site=2) as b, often_switching():
            def merges(text: Text[bytes], other: Text[bytes]) -> None:
                for at in range(200):
                    text.insert(0, b"x")
                    text.merge(other)

            side_by_side(partial(merges, a, b), partial(merges, b, a))
            a.merge(b)
            b.merge(a)
            self.assertEqual((bytes(a), a.fronts()), (bytes(b), {1: 200, 2: 200}))

    def test_others_run_while_a_call_takes_long(self) -> None:
        with Text(1, site=1) as text, switching_never():
            for _ in range(40_000):
                text.insert(0, b"x")
            ticks, ended = list[None](), threading.Event()

            def ticking() -> None:
                while not ended.wait(0.001):
                    ticks.append(None)

            def merges() -> None:
                with Text(1, site=2) as other:
                    other.merge(text)

            thread = threading.Thread(target=ticking)
            thread.start()
            calls: list[Callable[[], object]] = [merges, text.pack]
            try:
                for takes_long in calls:
                    end = time.monotonic() + PATIENCE
                    # (the other thread may not get a processor in time)
                    while not self.ticks_during(takes_long, ticks):
                        self.assertLess(time.monotonic(), end, "nothing else ran")
            finally:
                ended.set()
                thread.join()

    def ticks_during(self, call: Callable[[], object], ticks: list[None]) -> bool:
        before = len(ticks)
        call()
        return len(ticks) > before


if __name__ == "__main__":
    unittest.main()
