"""Edits and notices that cross, without a program: whatever the order in which they arrive, all show the same."""
import itertools
import random
import unittest
from collections import deque
from collections.abc import Iterable
from unittest import mock

from share.editors.mirror import Mirror, TextChange
from share.engine import transform
from share.engine.protocol import Wrong
from share.engine.transform import Transformer
from share.text import rope
from share.text.change import Change, boundary
from share.text.delta import Op, Replacement, composed, growth, in_text, in_turn, kept_between, moved, of_changes, transformed
from share.text.line import Line
from share.text.names import Names, united, without
from share.text.rope import Measured, OutsideText, Split, readable, swapped
from share.text.units import UNITS, Units

LETTERS = "ab\n\ré漢🎉\ufffd"


def random_changes(text: str, chance: random.Random, units: Units) -> tuple[list[TextChange], str]:
    """Some replacements, each in the text that those before it leave, in units; the text then."""
    found = list[TextChange]()
    for _ in range(chance.choice((1, 1, 1, 2, 4))):
        begin = chance.randrange(len(text) + 1)
        end = min(len(text), begin + chance.choice((0, 0, 1, 3)))
        new = "".join(chance.choices(LETTERS, k=chance.choice((0, 1, 2))))
        first, last = (units.count(units.encode(text[:place])) for place in (begin, end))
        found.append((first, last, new))
        text = text[:begin] + new + text[end:]
    return found, text


def after(text: str, op: Op, units: Units) -> str:
    """A text after an op."""
    data = bytearray(units.encode(text))
    for begin, end, new in in_turn(op, units):
        data[units.size * begin:units.size * end] = new
    return data.decode(units.encoding)


class Peer:
    """An editor and the engine's end of it, with lines on their way both ways."""

    def __init__(self, text: str, units: Units):
        self.to_engine: deque[Line] = deque()
        self.to_editor: deque[Line] = deque()
        self.transformer = Transformer(units)
        opened = {"text": text, "version": 0, "edits": 0, "units": units.name}
        self.mirror = Mirror(opened, self.to_engine.append)


class Crossing(unittest.TestCase):
    """Editors of one text."""

    def test_all_orders(self) -> None:
        for seed, most in itertools.product(range(60), (2_000, 4)):
            with self.subTest(seed=seed, most=most), mock.patch.object(transform, "MOST_SENT", most):
                self.cross(random.Random(seed))

    def cross(self, chance: random.Random) -> None:
        """Has lines arrive at random, then all of them."""
        self.text = "".join(chance.choices(LETTERS, k=6))
        peers = [Peer(self.text, chance.choice([*UNITS.values()])) for _ in range(3)]
        for _ in range(150):
            peer = chance.choice(peers)
            what = chance.random()
            if what < 0.35:
                changes, _ = random_changes(peer.mirror.text, chance, peer.mirror.units)
                peer.mirror.edit(changes)
            elif what < 0.6 and peer.to_editor:
                peer.mirror.take(peer.to_editor.popleft())
            elif what < 0.9 and peer.to_engine:
                self.take(peer, peers, peer.to_engine.popleft())
            else:
                self.send(peer)
        while any(peer.to_engine or peer.to_editor or peer.transformer.has_news() or peer.transformer.is_void for peer in peers):
            for peer in peers:
                while peer.to_engine:
                    self.take(peer, peers, peer.to_engine.popleft())
                self.send(peer)
                while peer.to_editor:
                    peer.mirror.take(peer.to_editor.popleft())
        self.assertEqual({peer.mirror.text for peer in peers}, {self.text})
        self.assertEqual([peer.mirror.made for peer in peers], [peer.transformer.edits for peer in peers])

    def take(self, peer: Peer, peers: list[Peer], line: Line) -> None:
        """Does what an engine does with a line."""
        units, carry = peer.transformer.units, peer.transformer
        if line["do"] == "seen":
            try:
                carry.seen(line["version"])
            except Wrong:
                carry.void(carry.edits)
            return
        length = units.count(units.encode(self.text))
        try:
            own, left = carry.edit(line["version"], line["changes"], length)
        except Wrong as why:
            # An editor is right; only what was joined can be missing.
            self.assertIn(why.code, ("version", "stale"))
            self.assertEqual(transform.MOST_SENT, 4)
            carry.void(line["edits"])
            peer.to_editor.append({"answer": "edit", "edits": line["edits"], "error": why.code, "words": ""})
            return
        self.assertEqual(line["edits"], carry.edits + 1)
        carry.edited(left)
        before, self.text = self.text, after(self.text, own, units)
        for other in peers:
            if other is not peer:
                changes = self.in_units(before, in_text(own, units), units, other.transformer.units)
                other.transformer.changed(of_changes(changes, other.transformer.units))
        peer.to_editor.append({"answer": "edit", "edits": carry.edits})

    @staticmethod
    def in_units(text: str, changes: list[Replacement], units: Units, others: Units) -> list[Replacement]:
        """Replacements by a text before them all, in other units, each in the text that those before it leave."""
        data, found, shift = units.encode(text), [], 0
        for begin, end, new in changes:
            first, last = (others.count(others.encode(units.decode(data[:units.size * place]))) for place in (begin, end))
            put = others.encode(units.decode(new))
            found.append((first + shift, last + shift, put))
            shift += others.count(put) - (last - first)
        return found

    def send(self, peer: Peer) -> None:
        """Sends what is new."""
        carry = peer.transformer
        if carry.is_void:
            carry.send_text()
            peer.to_editor.append({"notice": "text", "version": carry.version, "edits": carry.edits, "text": self.text})
        elif carry.has_news():
            changes = [[begin, end, carry.units.decode(data)] for begin, end, data in carry.send()]
            peer.to_editor.append({"notice": "changes", "version": carry.version, "edits": carry.edits,
                                   "changes": changes})

    def test_ops(self) -> None:
        chance = random.Random(3)
        for _ in range(3_000):
            units = chance.choice([*UNITS.values()])
            text = "".join(chance.choices(LETTERS, k=chance.randrange(9)))
            (some, one), (others, two) = (random_changes(text, chance, units) for _ in range(2))
            first, second = (of_changes([(begin, end, units.encode(new)) for begin, end, new in changes], units)
                             for changes in (some, others))
            self.assertEqual((after(text, first, units), after(text, second, units)), (one, two))
            self.assertEqual(growth(first, units), units.count(units.encode(one)) - units.count(units.encode(text)))
            over, under = transformed(first, second, units)
            both = after(one, under, units)
            self.assertEqual(both, after(two, over, units))
            self.assertEqual(after(text, composed(first, under, units), units), both)
            end = units.count(units.encode(text))
            last = second[-1] if self.is_at_end(second, end) else b""
            assert isinstance(last, bytes)
            self.assertEqual(moved(end, second, units) - end, growth(second, units) - units.count(last))

    def test_what_an_edit_met_at_its_place(self) -> None:
        units = UNITS["utf-8"]
        # What came in, by changes of a text of 30 units; the edit's place, and what it met there.
        for changes, begin, end, met in (
                ([(0, 0, b"first")], 3, 3, 0), ([(3, 3, b"here")], 3, 3, 4), ([(0, 0, b"first"), (8, 8, b"here")], 3, 3, 4),
                ([(0, 0, b"12345"), (9, 9, b"other")], 3, 3, 0), ([(0, 2, b""), (1, 1, b"here")], 3, 3, 4),
                ([(20, 20, b"far")], 3, 3, 0)):
            carry = Transformer(units)
            carry.changed(of_changes(changes, units))
            _, left = carry.edit(0, [(begin, end, "own")], 30 + growth(carry._pending(), units))
            carry.edited(left)
            self.assertEqual(sum(one.end - one.begin for one in carry.met()), met, changes)

    def test_each_insertion_stands_behind_what_it_is_given_at_its_place(self) -> None:
        units, text = UNITS["utf-8"], "ab"
        first, second = (of_changes(changes, units) for changes in ([(2, 2, b"Z"), (1, 1, b"Y"), (0, 0, b"X")],
                                                                    [(2, 2, b"56"), (1, 1, b"34"), (0, 0, b"12")]))
        cases: list[tuple[dict[int, int], str]] = [({}, "X12aY34bZ56"), ({0: 2, 2: 2}, "12XaY34b56Z"), ({1: 1}, "X12a3Y4bZ56")]
        for behind, both in cases:
            over, under = transformed(first, second, units, behind)
            self.assertEqual(after(after(text, second, units), over, units), both)
            self.assertEqual(after(after(text, first, units), under, units), both)

    @staticmethod
    def is_at_end(op: Op, end: int) -> bool:
        """Whether the last part of an op comes in just at a text's end, with nothing deleted before it."""
        at = sum(abs(part) for part in op if isinstance(part, int))
        return bool(op) and isinstance(op[-1], bytes) and at == end


class Parts(unittest.TestCase):
    """A text in parts, and its names."""

    def test_places_and_positions(self) -> None:
        chance = random.Random(4)
        rubbish = [b"\x80", b"\xc3", b"\xe6\xbc", b"\xf0\x9f", b"\xff"]
        with mock.patch.object(rope, "PIECE_SIZE", 8):
            for seed in range(60):
                text, data = Measured(b""), b""
                for _ in range(40):
                    data = self.changed(text, data, chance, rubbish if seed % 2 else [])
                    self.places(text, swapped(data), chance)

    def changed(self, text: Measured, data: bytes, chance: random.Random, rubbish: list[bytes]) -> bytes:
        """A text's bytes after a change, which has been made."""
        begin = chance.randrange(len(data) + 1)
        end = min(len(data), begin + chance.choice((0, 0, 1, 3, 10)))
        if not rubbish:
            begin, end = boundary(data, begin), max(boundary(data, begin), boundary(data, end))
        new = b"".join(chance.choice(rubbish) if rubbish and chance.random() < 0.4 else chance.choice(LETTERS).encode()
                       for _ in range(chance.choice((0, 1, 3, 20))))
        one = Change(begin, end, new)
        whole = text.whole(one)
        if not rubbish:
            self.assertIs(whole, one)
        if text.is_whole(one) and (not new or new[0] & 0xC0 != 0x80):
            self.assertEqual(whole, one)
        before = swapped(data)
        data = data[:begin] + new + data[end:]
        self.assertEqual(readable(before[:whole.begin]) + readable(swapped(whole.new)) + readable(before[whole.end:]),
                         readable(swapped(data)))
        text.replace(whole)
        self.assertEqual((text.as_note(), text.size, text.text()), (data, len(data), readable(swapped(data))))
        return data

    def places(self, text: Measured, data: bytes, chance: random.Random) -> None:
        """Looks at places of a text by each of the units."""
        seen, kept = readable(data), data.decode("utf-8", "surrogateescape")
        for units in UNITS.values():
            ends = [units.count(units.encode(seen[:number])) for number in range(len(seen) + 1)]
            number = chance.randrange(len(ends))
            place = len(kept[:number].encode("utf-8", "surrogateescape"))
            self.assertEqual((text.place(ends[number], units), text.position(place, units)), (place, ends[number]))
            self.assertEqual(text.length(units), ends[-1])
            position = chance.randrange(ends[-1] + 1)
            if position not in ends:
                with self.assertRaises(Split):
                    text.place(position, units)
            for position in -1, ends[-1] + 1:
                with self.assertRaises(OutsideText):
                    text.place(position, units)

    def test_what_is_kept_of_a_stretch(self) -> None:
        chance = random.Random(7)
        for _ in range(2_000):
            size = chance.randrange(9)
            text = "".join(chance.choice("ab") for _ in range(size))
            changes, length = [], size
            for _ in range(chance.randrange(4)):
                begin, end = sorted(chance.randint(0, length) for _ in range(2))
                new = chance.choice(["", "x", "xy"])
                changes.append((begin, end, UNITS["utf-32"].encode(new)))
                length += len(new) - (end - begin)
            op = of_changes(changes, UNITS["utf-32"])
            # Each unit by itself, and where it went.
            now, at = list[int](), 0
            for part in (*op, size):
                if isinstance(part, bytes):
                    now += [-1] * UNITS["utf-32"].count(part)
                else:
                    now += [*range(at, min(at + part, size))] if part > 0 else []
                    at += abs(part)
            begin, end = sorted(chance.randint(0, size) for _ in range(2))
            found = kept_between(begin, end, op, UNITS["utf-32"])
            self.assertEqual([place for first, last in found for place in range(first, last)],
                             [place for place, unit in enumerate(now) if begin <= unit < end], (text, op, begin, end))
            self.assertTrue(all(one[1] < other[0] for one, other in zip(found, found[1:])))

    @staticmethod
    def one_by_one(names: Iterable[Names]) -> list[tuple[int, int]]:
        """Names without stretches."""
        return [(one.site, one.at + number) for one in names for number in range(one.length)]

    def test_sets_of_names(self) -> None:
        chance = random.Random(6)
        for _ in range(500):
            some, others = ([Names(chance.randint(1, 2), chance.randrange(20), chance.randint(1, 6))
                             for _ in range(chance.randrange(5))] for _ in range(2))
            found = without(united(some), united(others))
            self.assertEqual(self.one_by_one(found), sorted({*self.one_by_one(some)} - {*self.one_by_one(others)}))
            for one, other in zip(united(some), united(some)[1:]):
                self.assertTrue(one.site < other.site or one.at + one.length < other.at)


if __name__ == "__main__":
    unittest.main()
