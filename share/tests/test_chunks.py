"""Chunks: a site's messages both ways, as the program packs and unpacks them; and what is no chunk."""
import random
import unittest
from collections.abc import Iterable
from unittest import mock

from share.admission.ledger import Branch, Ledger, Row
from share.format.chunk import (MOST_CHUNK, NoChunk, Writer, chunk_begin, of_names_at_most, packed_in_parts, text_of_chunk, unpacked,
                                unpacked_one_by_one)
from share.format.entry import Author, Plain
from share.format.history import Messages, Part
from share.format.operation import CHANGE_LOOKS, DELETE, INSERT, RESTORE, Operation
from share.program.process import Program
from share.tests import naive_chunks
from share.tests.naive import about, chunk_of, entry_of, inserting, taking
from share.tests.test_spelling import Maker
from share.text.names import Names

# Site 1 has a file of five characters, types an a after them, and then the byte 15, which is a code in a chunk.
WORKED = chunk_begin(1) + b"\x0f\1\3\x09\5" + b"\5\1\4a" + b"\x0e\x0f"
TURNS, TRIES = 60, 300


def typed(site: int, seq: int, at: int, data: bytes) -> list[Operation]:
    """Letters that a site types one after the other at the end of its own."""
    return [inserting(site, seq + number, seq + number, (site, at + number - 1) if at + number else None, at + number,
                      bytes([byte])) for number, byte in enumerate(data)]


def answered(program: Program, chunk: bytes) -> bytes:
    """What the program answers to a chunk."""
    return program.ask([program.event("unpack", chunk.hex().encode())])[0][-1]


class Chunks(unittest.TestCase):
    """What the program and this package read and write alike."""

    def edits(self, program: Program, chance: random.Random) -> list[Operation]:
        """What some edits at a site send."""
        sent: list[Operation] = []
        for _ in range(TURNS):
            length = len(program.text())
            begin, end = sorted(chance.choices(range(length + 1), k=2))
            event = chance.choice([
                program.event("type", length, bytes(chance.choices(b"abc", k=chance.choice([1, 1, 5])))),
                program.event("type", length, b"x"), program.event("type", begin, b"\\0e\\01\\ff"[:chance.choice([3, 9])]),
                program.event("cut", begin, min(end, begin + 3)), program.event("restore"),
                program.event("looks", begin, end, b"font=Syntax12.Scn.Fnt colour=%d" % chance.randrange(16))])
            sent += [Operation.read(bytes.fromhex(line.split()[2].decode())) for line in program.ask([event])[0][:-1]]
        return sent

    def packs(self, program: Program, *fronts: int) -> list[bytes]:
        """The chunks that the program makes of what it has beyond fronts."""
        return [bytes.fromhex(line.split()[1].decode()) for line in program.ask([program.event("pack", *fronts)])[0][:-1]]

    def test_the_program_packs_alike(self) -> None:
        chance = random.Random(1)
        one, two = Program(300), Program(7)
        self.addCleanup(one.close)
        self.addCleanup(two.close)
        sent = self.edits(one, chance)
        self.assertEqual(self.packs(one), [chunk_of(sent)])
        self.assertEqual(unpacked_one_by_one(chunk_of(sent) or b""), tuple(sent))
        self.assertLess(len(unpacked(chunk_of(sent) or b"")), len(sent))
        self.assertEqual(answered(two, chunk_of(sent) or b""), b"unpacked %d 0 0" % len(sent))
        self.assertEqual(two.text(), one.text())
        # What comes next of both, in the order in which the second one took it in.
        own = self.edits(two, chance)
        one.ask([taking(one, message) for message in own])
        more = self.edits(one, chance)
        two.ask([taking(two, message) for message in more])
        self.assertEqual(b"".join(data for data, _ in Messages(own + more).chunks()), self.packs(two, 300, len(sent))[0])
        length = len(b"".join(run.data for run in unpacked(chunk_of(sent) or b"")))
        self.assertEqual(self.packs(one, 300, len(sent), 7, len(own)), [chunk_of(more, length)])
        self.assertEqual(unpacked_one_by_one(chunk_of(more, length) or b""), tuple(more))
        # One that overlaps what is held is judged operation by operation.
        self.assertEqual(answered(two, chunk_of(sent + more) or b""), b"unpacked 0 %d 0" % len(sent + more))

    def test_a_chunk_worked_out_by_hand(self) -> None:
        first, second = inserting(1, 3, 9, (1, 4), 5, b"a"), inserting(1, 4, 10, (1, 5), 6, b"\x0f")
        self.assertEqual(unpacked_one_by_one(WORKED), (first, second))
        self.assertEqual(chunk_of([first, second]), WORKED)
        self.assertEqual([(run.size, run.data, run.mentions) for run in unpacked(WORKED)], [(2, b"a\x0f", ((1, 4, 1),))])

    def test_what_can_not_follow(self) -> None:
        one = typed(7, 1, 0, b"ab")
        for bad in (inserting(7, 4, 4, None, 2, b"c"), inserting(7, 3, 2, None, 2, b"c"), inserting(7, 3, 3, None, 1, b"c")):
            self.assertIsNone(chunk_of([*one, bad]))
        writer = Writer()
        self.assertTrue(all(writer.add(message) for message in [*one, *typed(8, 1, 0, b"c"), *typed(7, 3, 2, b"d")]))
        with self.assertRaises(NoChunk):
            unpacked(bytes(writer.data))

    def test_the_bound(self) -> None:
        room = MOST_CHUNK - len(chunk_of(typed(7, 1, 0, b"a")) or b"")
        right = chunk_of(typed(7, 1, 0, b"a" * (1 + room)))
        self.assertEqual(len(right or b""), MOST_CHUNK)
        self.assertIsNone(chunk_of(typed(7, 1, 0, b"a" * (2 + room))))
        self.assertEqual(sum(run.size for run in unpacked(right or b"")), 1 + room)
        with self.assertRaises(NoChunk):
            unpacked((right or b"") + b"a")

    def test_numbers_at_their_bounds(self) -> None:
        for message in (inserting(65_535, 2**32 - 1, 2**48 - 1, (65_535, 2**24 - 2), 2**24 - 1, b"x"),
                        about(DELETE, 1, 1, 1, [(65_535, 2**24 - 1, 1)])):
            chunk = chunk_of([message]) or b""
            self.assertEqual(unpacked_one_by_one(chunk), (message,))
            with self.assertRaises(NoChunk):
                # One more of either is past a bound.
                unpacked(chunk + (b"y" if message.kind != DELETE else b"\4\4\x08"))

    def test_hostile_bytes(self) -> None:
        chance, program = random.Random(2), Program(9)
        self.addCleanup(program.close)
        right = chunk_of(self.edits(program, chance)) or b""
        taker, told = Program(1), {True: 0, False: 0}
        self.addCleanup(taker.close)
        for _ in range(TRIES):
            bad = bytearray(right)
            for _ in range(chance.choice([1, 1, 2])):
                at = chance.randrange(len(bad))
                bad[at:at + chance.randrange(3)] = chance.choices([*range(16), 0x80, 255, chance.randrange(256)],
                                                                  k=chance.randrange(3))
            chunk = bytes(bad[:chance.choice([len(bad), len(bad), chance.randrange(len(bad) + 1)])])
            answer = answered(taker, chunk)
            try:
                found = unpacked_one_by_one(chunk)
            except NoChunk:
                # A note's chunks are of one site, and have messages.
                self.assertTrue(answer in (b"refused 1", b"refused 2") or chunk in (b"", chunk_begin(1)) or {1, 15} & {*chunk[7:]}, chunk)
                told[False] += 1
            else:
                self.assertNotIn(answer, (b"refused 1", b"refused 2"))
                self.assertEqual(chunk_of(found, length_of(chunk)), chunk)
                told[True] += 1
        self.assertGreater(min(told.values()), 10)


def length_of(chunk: bytes) -> int:
    """How many characters a chunk says that its site had."""
    numbers, at = list[int](), len(chunk_begin(1)) + 1
    while len(numbers) < 4:
        end = next(end for end in range(at, len(chunk)) if chunk[end] < 0x80)
        numbers.append(sum((byte & 0x7F) << 7 * place for place, byte in enumerate(chunk[at:end + 1])))
        at = end + 1
    return numbers[-1]


def line_of(parts: Iterable[list[Operation]]) -> Branch:
    """The chain of the entries that have these messages of a site."""
    form, author = Plain(bytes(16)), Author(b"sixteen bytes of", b"")
    ledger = Ledger(form)
    line = None
    for part in parts:
        if line is None:
            line, made = Branch(ledger, part[0].site), form.claim(part[0].site, author)
            line.add(ledger.add([Row(0, made, False)], 0))
        made = entry_of(form, made, part, author)
        line.add(ledger.add([Row(0, made, False)], line.numbers[-1]))
    assert line
    return line


def plainly(one: Operation) -> naive_chunks.Message:
    """An operation as the plain program has it."""
    ranges = tuple((of.site, of.at, of.length) for of in one.mentions)
    return naive_chunks.Message(one.kind, one.text, one.site, one.seq, one.stamp, ranges, one.at, one.data, one.looks)


class Texts(unittest.TestCase):
    """Chunks of other texts differ in the text's number alone, and are read as a plain program reads them."""

    def setUp(self) -> None:
        self.maker, self.chance = Maker(random.Random(3)), random.Random(4)

    def operations(self, text: int) -> list[Operation]:
        """Operations of a site that follow one another."""
        found, at = list[Operation](), 0
        for seq in range(1, self.chance.choice([2, 5, 30])):
            self.maker.often = 0
            kind, stamp, cause = self.chance.choice([INSERT, INSERT, DELETE, CHANGE_LOOKS, RESTORE]), 2 * seq, None
            if kind == INSERT:
                if self.chance.random() < 0.8:
                    cause = self.chance.choice([(9, 4), (7, at - 1) if at else None])
                data = self.chance.choice([b"a", b"\x0e", b"long", b"b"])
                found.append(inserting(7, seq, stamp, cause, at, data)._replace(text=text))
                at += len(data)
            else:
                looks = self.maker.change() if kind == CHANGE_LOOKS else b""
                found.append(Operation(kind, 7, seq, stamp, 1, (Names(9, self.chance.randrange(3), 1),), looks=looks, text=text))
        return found

    def test_both_programs_read_and_write_alike(self) -> None:
        for text in [1, 2, 16, 65_535] * 50:
            operations = self.operations(text)
            chunk = chunk_of(operations) or b""
            plain = [plainly(one) for one in operations]
            self.assertEqual(chunk, naive_chunks.chunk_of(plain))
            self.assertEqual((unpacked_one_by_one(chunk, text), text_of_chunk(chunk)), (tuple(operations), text))
            self.assertEqual([*naive_chunks.messages_of(chunk)], plain)
            self.assertEqual(chunk_of(one._replace(text=1) for one in operations), chunk_begin(1) + chunk[6:])

    def test_a_chunk_of_another_text_is_none(self) -> None:
        for text in 1, 2:
            for data in b"a", b"\x0e", b"ab":
                chunk = chunk_of([inserting(7, 1, 1, None, 0, data)._replace(text=text)]) or b""
                self.assertEqual(unpacked(chunk, text)[0].text, text)
                # Also where it was read a moment ago.
                self.assertRaises(NoChunk, unpacked, chunk, 3 - text)
                self.assertRaises(NoChunk, unpacked_one_by_one, chunk, 3 - text)

    def test_no_chunk_has_two_texts(self) -> None:
        one, *others = [inserting(7, seq, seq, None, seq - 1, b"a") for seq in (1, 2)]
        self.assertIsNone(chunk_of([one, *(other._replace(text=2) for other in others)]))
        parts = packed_in_parts([one._replace(text=2), *others])
        self.assertEqual([text_of_chunk(part.chunk) for part in parts], [2, 1])
        rows = Messages([one._replace(text=3), *(other._replace(text=3) for other in others)])
        self.assertEqual([(text_of_chunk(chunk), many) for chunk, many in rows.chunks()], [(3, 2)])

    def test_hostile_bytes_are_read_alike(self) -> None:
        told = {True: 0, False: 0}
        for _ in range(600):
            bad = bytearray(chunk_of(self.operations(2)) or b"")
            for _ in range(self.chance.choice([0, 1, 1, 2])):
                at = self.chance.randrange(len(bad))
                bad[at:at + self.chance.randrange(3)] = self.chance.choices([*range(16), 0x80, 255], k=self.chance.randrange(3))
            try:
                found = [*naive_chunks.messages_of(bytes(bad))]
            except naive_chunks.NoChunk:
                found = []
            if not found or found[0].text != 2:
                self.assertRaises(NoChunk, unpacked_one_by_one, bytes(bad), 2)
            else:
                self.assertEqual([plainly(one) for one in unpacked_one_by_one(bytes(bad), 2)], found)
            told[bool(found)] += 1
        self.assertGreater(min(told.values()), 50)


class InARow(unittest.TestCase):
    """Messages that are kept as they came."""

    def setUp(self) -> None:
        self.plain = [*typed(1, 1, 0, b"abcdef"), *typed(2, 1, 0, b"gh"), *typed(1, 7, 6, b"ij")]
        first = Part(line_of([self.plain[:6]]), 0, 6)
        self.row = Messages(parts=[first._replace(end=2), first._replace(begin=2)])
        self.row += self.plain[6:]

    def test_as_a_list(self) -> None:
        self.assertEqual((len(self.row), list(self.row)), (10, self.plain))
        for begin in range(-11, 12):
            for end in range(-11, 12):
                self.assertEqual(list(self.row[begin:end]), self.plain[begin:end])
                self.assertEqual(self.row[begin:end], Messages(self.plain[begin:end]))
        for place in range(-10, 10):
            self.assertEqual(self.row[place], self.plain[place])
        for place in -11, 10:
            with self.assertRaises(IndexError):
                self.row[place]
        self.assertEqual(list(self.row + self.row[3:5]), self.plain + self.plain[3:5])
        self.assertNotEqual(self.row, self.row[1:])
        self.assertNotEqual(self.row[1:], self.row[:-1])
        self.row.cut(7)
        self.assertEqual(list(self.row), self.plain[:7])

    def test_a_cut_looks_at_the_end_alone(self) -> None:
        lines = [line_of([typed(site, 1, 0, b"abc")]) for site in range(1, 30)]
        row = Messages(parts=[Part(line, begin, begin + 1) for begin in range(3) for line in lines])
        plain = [*row]
        with mock.patch.object(Messages, "add", side_effect=AssertionError):
            for length in 87, 86, 80, 29, 29, 1, 0:
                row.cut(length)
                self.assertEqual(len(row), length)
                self.assertEqual([*row], plain[:length])
        row += plain[:2]
        self.assertEqual([*row], plain[:2])

    def test_chunks(self) -> None:
        with mock.patch("share.format.history.FEW", 6):
            whole, both = [*self.row.chunks()], [*self.row[1:].chunks()]
        self.assertEqual(whole[0], (chunk_of(self.plain[:6]), 6))
        self.assertEqual([count for _, count in whole], [6, 4])
        self.assertEqual([count for _, count in both], [9])
        self.assertEqual([*Messages().chunks()], [])

    def test_few_messages_are_handed_in_with_others(self) -> None:
        plain = typed(7, 1, 0, b"a\x0eb" * 3_000)
        row = Messages(parts=[Part(line_of([message] for message in plain), 0, len(plain))])
        self.assertEqual([*row.chunks()], [(chunk_of(plain), len(plain))])

    def test_a_chunk_that_may_change_much_comes_in_parts(self) -> None:
        plain = typed(7, 1, 0, b"ab" * 50)
        every = (Names(7, 0, 100),)
        plain += [Operation(kind, 7, 101 + number, 101 + number, 1, every) for number, kind in enumerate([DELETE, RESTORE] * 20)]
        row = Messages(parts=[Part(line_of([plain]), 0, len(plain))])
        chunk = chunk_of(plain)
        assert chunk
        whole, sets = [(chunk, len(plain))], of_names_at_most(chunk)
        self.assertEqual([*row.chunks()], whole)
        self.assertGreaterEqual(sets, 40)
        with mock.patch.multiple("share.format.history", MOST_UNSEEN=sets * len(plain), MOST_NOTED=300):
            self.assertEqual([*row.chunks()], whole)
            # That many more stretches may be there before it.
            parts = [[*unpacked_one_by_one(chunk)] for chunk, _ in row.chunks(begun=1)]
        self.assertEqual([one for part in parts for one in part], plain)
        self.assertEqual([sum(one.kind != INSERT for one in part) for part in parts], [3] * 13 + [1])


if __name__ == "__main__":
    unittest.main()
