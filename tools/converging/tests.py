"""Tests of what operations show by the definition, of what scripts are answered by it, of the orders in which they are handed in, and of
how often they cut runs."""
from __future__ import annotations

import random
import unittest
from collections import Counter
from collections.abc import Sequence

from tools import rows
from tools.converging.answering import answers
from tools.converging.counting import FIRST, LAST, MIDST, NAMED, PAST, UNKNOWN, cuts
from tools.converging.handing import IN_ORDER, handed, turns
from tools.converging.shown import names_of, runs_of, shown, text_of
from tools.converging.writing import TEXT, Burst, written
from tools.packed.chunks import read_chunk
from tools.packed.messages import Cause, ChangeLooks, Delete, Insert, Kind, Name, Operation, Range, Restore
from tools.packed.packed import DEFAULT_LOOKS
from tools.packed.replica import Replica

FONT = "Oberon10.Scn.Fnt"


def made(site: int, seq: int, stamp: int, kind: Kind) -> Operation:
    return Operation(TEXT, site, seq, stamp, kind)


def insert(cause: Cause, at: int, data: bytes) -> Insert:
    return Insert(cause, at, DEFAULT_LOOKS, data)


# Both sites type after A at the same time, as in docs/ORDER.md.
WORKED = [
    made(1, 1, 1, insert(None, 0, b"AC")),
    made(1, 2, 2, insert(Name(1, 0), 2, b"B")),
    made(2, 1, 2, insert(Name(1, 0), 0, b"X")),
    made(2, 2, 3, insert(Name(2, 0), 1, b"Y")),
]
A, C = Range(1, 0, 1), Range(1, 1, 1)
# Of all kinds of events that are answered by the definition.
WORKED_ROWS = (
    "chunk-before-its-causes",
    "delete-and-concurrent-insert",
    "dropped-in-the-draining",
    "full-room",
    "long-insert-is-cut",
    "looks-by-attribute",
    "merge-both-ways",
    "recall-the-cut",
    "restore-a-character",
    "restore-and-concurrent-delete",
    "save-into-another-text",
    "subtree-of-a-greater-key",
    "tie-of-stamps",
    "two-at-the-start",
)


class Shown(unittest.TestCase):
    """What a set shows."""

    def text(self, *more: Operation) -> str:
        operations = [*WORKED, *more]
        texts = {"".join(text_of(shown(some))) for some in (operations, operations[::-1])}
        self.assertEqual(len(texts), 1)
        return texts.pop()

    def test_siblings_come_from_the_greatest_key_on(self) -> None:
        self.assertEqual(self.text(), "text 5 AXYBC")

    def test_the_greatest_key_decides_what_is_hidden(self) -> None:
        deleted, restored = made(1, 3, 4, Delete((A, ))), made(2, 3, 4, Restore((A, )))
        self.assertEqual(self.text(deleted), "text 4 XYBC")
        self.assertEqual(self.text(deleted, restored), "text 5 AXYBC")
        self.assertEqual(self.text(restored, made(1, 3, 5, Delete((Range(1, 0, 2), )))), "text 3 XYB")

    def test_looks_are_those_of_the_greatest_key_each(self) -> None:
        red, low = made(1, 3, 9, ChangeLooks(b"\2\5", (C, ))), made(2, 3, 4, ChangeLooks(b"\7\1A\7\xff", (A, C)))
        self.assertEqual([*runs_of(shown([*WORKED, red, low]))], ["run A 7 -1 1", f"run {FONT} 1 0 3", "run A 5 -1 1", "ok"])

    def test_names_that_follow_one_another(self) -> None:
        told = ["name 0 1 0 1", "name 1 2 0 2", "name 3 1 2 1", "name 4 1 1 1", "ok"]
        self.assertEqual([*names_of(shown(WORKED))], told)
        self.assertEqual([*names_of(shown(WORKED[:1]))], ["name 0 1 0 2", "ok"])
        self.assertEqual([*names_of([])], ["ok"])


class Answers(unittest.TestCase):
    """What scripts are answered, as the rows have it."""

    def test_rows_that_were_worked_out_by_hand(self) -> None:
        self.compare(WORKED_ROWS)

    def test_rows_of_runs_that_are_typed_letter_by_letter(self) -> None:
        self.compare([name for name in rows.names() if name.startswith("typed-run-")])

    def compare(self, names: Sequence[str]) -> None:
        self.assertGreater(len(names), 6)
        for name in names:
            with self.subTest(name):
                row = rows.load(name)
                self.assertEqual([*answers(row.script.decode().splitlines())], row.expected.decode().splitlines())


class Handing(unittest.TestCase):
    """Orders of what was written."""

    def setUp(self) -> None:
        self.bursts = [*written(3000, 4, "tests")]
        self.operations = [each for burst in self.bursts for each in burst.operations]

    def test_so_many_operations_are_written(self) -> None:
        self.assertEqual(len(self.operations), 3000)
        self.assertEqual({each.site for each in self.operations}, {1, 2, 3, 4})

    def test_an_order_keeps_causes(self) -> None:
        """Each operation is the next of its site, and comes after what the site had before it."""
        needed = {(burst.site, burst.operations[0].seq): burst.fronts for burst in self.bursts if burst.operations}
        order, fronts = [each for some in turns(self.bursts, random.Random("turns")) for each in some], Counter[int]()
        for each in order:
            self.assertEqual(each.seq, fronts[each.site] + 1)
            self.assertTrue(all(fronts[site] >= seq for site, seq in needed.get((each.site, each.seq), {}).items()))
            fronts[each.site] += 1
        self.assertEqual(len(order), len(self.operations))
        self.assertNotEqual(order, self.operations)

    def test_what_comes_in_order_is_taken_in(self) -> None:
        replica, given = Replica(TEXT), handed(self.bursts, random.Random("handed"))
        for each in given:
            if each.when == IN_ORDER:
                self.assertEqual(replica.unpack(each.chunk), f"unpacked {len(read_chunk(each.chunk).operations)} 0 0")
        self.assertEqual(set(replica.held), set(self.operations))


class Cuts(unittest.TestCase):
    """How often runs were cut."""

    # Site 2 types a to e.
    RUN = Burst(2, {}, [made(2, 1 + at, 1 + at, insert(Name(2, at - 1) if at else None, at, b"abcde"[at : at + 1])) for at in range(5)])

    def compare(self, site: int, fronts: dict[int, int], stamp: int, kind: Kind, **found: int) -> None:
        names = {"first": FIRST, "midst": MIDST, "last": LAST, "past": PAST, "unknown": UNKNOWN, "named": NAMED}
        wanted = Counter({names[name]: count for name, count in found.items()})
        self.assertEqual(+cuts([self.RUN, Burst(site, fronts, [made(site, 1, stamp, kind)])]), wanted)

    def test_between_two_letters(self) -> None:
        for at, found in enumerate(("first", "midst", "midst", "last")):
            self.compare(3, {2: 5}, 6, insert(Name(2, at), 0, b"X"), **{found: 1})
        self.compare(3, {2: 5}, 6, insert(Name(2, 4), 0, b"X"))
        self.compare(3, {}, 1, insert(None, 0, b"X"))

    def test_what_is_no_run(self) -> None:
        """Letters after a paste, before it, and with later stamps."""
        kinds = [insert(None, 0, b"ab"), insert(Name(2, 1), 2, b"c"), insert(None, 3, b"d"), insert(Name(2, 3), 4, b"e")]
        apart = Burst(2, {}, [made(2, 1 + at, stamp, kind) for at, (stamp, kind) in enumerate(zip((1, 2, 3, 5), kinds))])
        for cause in (None, *(Name(2, at) for at in range(5))):
            self.assertFalse(+cuts([apart, Burst(3, {2: 4}, [made(3, 1, 6, insert(cause, 0, b"X"))])]))

    def test_the_next_letter_is_not_known(self) -> None:
        self.compare(3, {2: 2}, 3, insert(Name(2, 1), 0, b"X"), midst=1, unknown=1)
        self.compare(1, {2: 2}, 3, insert(Name(2, 1), 0, b"X"), past=1, unknown=1)

    def test_names_of_some_letters(self) -> None:
        for at, length in ((0, 1), (1, 3), (4, 1)):
            self.compare(3, {2: 5}, 6, Delete((Range(2, at, length),)), named=1)
        self.compare(3, {2: 5}, 6, Delete((Range(2, 0, 5),)))


if __name__ == "__main__":
    unittest.main()
