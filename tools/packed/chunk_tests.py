"""Tests of chunks: written by hand, drawn at random, changed, and all short strings."""
from __future__ import annotations

import itertools
import random
import unittest

from tools.packed.chunks import CHUNK_CODES, MAX_CHUNK, Chunk, chunk_of, pack, placed, read_chunk
from tools.packed.cursor import Refused
from tools.packed.drawing import changed, drawn_list
from tools.packed.messages import MAX_FILE, Delete, Insert, Name, Operation, Range, read_message
from tools.packed.packed import CODES, DEFAULT_LOOKS, unpack

TEXT = 1
HEAD = "4f544331 0001 "
# Site 1, whose file has five characters, types an a, then the byte 0f, which is a code, and deletes that; before this, site 2
# deletes the a.
WORKED = HEAD + "0f 01 03 09 05 05 01 04 61 0e 0f 0f 02 01 0b 00 05 01 05 08 01 01 01 08"
# Site 300 changes looks, restores, and types in other ones; site 1 goes on between.
OTHERS = (
    HEAD + "0f ac02 02 80808080808001 07 0b 02 0f 00 01 00 00 0f 01 ffffff7f 01 00 06 01 610f62 "
    "01 ac02 00 0c 01 02 00 00 03 05 01 03 01 41 00 80 63"
)
SYMBOLS = bytes.fromhex("00 01 02 03 04 05 06 07 08 0b 0c 0e 0f 61 80")
# Behind what short strings come, and of how many bytes these are at most.
BEGINNINGS = {
    "nothing": ("", 3),
    "in the midst of a site's begin": ("0f 01", 4),
    "a site that begins": ("0f 01 01 01 00", 3),
    "it has begun": ("0f 01 01 01 00 61", 3),
    "and another one": ("0f 01 01 01 00 61 0f 02 03 02 05 0c 00 01 00 00", 3),
}


def insert(site: int, seq: int, stamp: int, cause: Name | None, at: int, data: bytes) -> Operation:
    return Operation(TEXT, site, seq, stamp, Insert(cause, at, DEFAULT_LOOKS, data))


def delete(site: int, seq: int, stamp: int, *ranges: Range) -> Operation:
    return Operation(TEXT, site, seq, stamp, Delete(ranges))


class Chunks(unittest.TestCase):
    def read_or_refused(self, data: bytes) -> Chunk | None:
        """Reads bytes; what is read as a chunk is written as the same bytes."""
        try:
            chunk = read_chunk(data)
        except Refused:
            return None
        self.assertEqual(chunk_of(chunk.text, chunk.placed), data)
        return chunk

    def read(self, data: str) -> list[Operation]:
        found = self.read_or_refused(bytes.fromhex(data))
        if found is None:
            self.fail(f"{data} is no chunk")
        return found.operations

    def refused(self, *chunks: str) -> None:
        for each in chunks:
            with self.subTest(each), self.assertRaises(Refused):
                read_chunk(bytes.fromhex(HEAD + each))


class Told(Chunks):
    """What the page says in words, by hand."""

    def test_a_chunk_of_two_sites(self) -> None:
        told = [
            insert(1, 3, 9, Name(1, 4), 5, b"a"),
            insert(1, 4, 10, Name(1, 5), 6, b"\x0f"),
            delete(2, 1, 11, Range(1, 5, 1)),
            delete(1, 5, 12, Range(1, 6, 1)),
        ]
        self.assertEqual(self.read(WORKED), told)

    def test_of_all_operations_none_needs_another_before(self) -> None:
        before = [insert(1, 1, 1, None, 0, b"abcd"), insert(1, 2, 8, None, 4, b"e")]
        told = [*before, *self.read(WORKED)]
        self.assertEqual(pack(TEXT, told, {1: 2}), [bytes.fromhex(WORKED)])
        self.assertEqual(pack(TEXT, told, {1: 4, 2: 1}), [bytes.fromhex(HEAD + "0f 01 05 0c 07 05 01 06 08")])
        self.assertEqual(pack(TEXT, told, {1: 99, 2: 1}), [])
        packed = HEAD + "0f 01 01 01 00 06 02 61626364 02 06 05 00 65" + WORKED[WORKED.index("61") :]
        self.assertEqual(pack(TEXT, told), [bytes.fromhex(packed)])

    def test_no_operations(self) -> None:
        self.assertEqual(self.read(HEAD), [])
        self.assertEqual(pack(TEXT, []), [])

    def test_a_head(self) -> None:
        self.assertEqual(read_chunk(bytes.fromhex("4f544331 ffff")).text, 65535)
        for data in ("", "4f544331", "4f544331 00", "4f544331 0000", "4f545031 0001", "4f544332 0001", "4f544331 0001 0001"):
            with self.subTest(data), self.assertRaises(Refused):
                read_chunk(bytes.fromhex(data))

    def test_numbers_with_which_a_site_begins(self) -> None:
        greatest = "0f ffff03 ffffffff0f ffffffffffff3f 80808008"
        self.assertEqual(self.read(f"{HEAD} {greatest} 05 01 00 08"), [delete(65535, 2**32 - 1, 2**48 - 1, Range(1, 0, 1))])
        self.refused(f"{greatest} 61", f"{greatest} 05 01 00 08 08")
        for numbers in ("00 01 01 00", "808004 01 01 00", "01 00 01 00", "01 8080808010 01 00", "01 01 00 00", "01 01 8080808080804000"):
            self.refused(f"0f {numbers} 05 03 00 08", f"0f {numbers}")
        self.refused("0f 01 01 01 81808008 05 03 00 08", "0f 8100 01 01 00 61", "0f 01 01 01 80")

    def test_a_site_begins_with_the_operation_that_is_said(self) -> None:
        self.assertEqual(self.read(f"{HEAD} 0f 01 01 01 00 61"), [insert(1, 1, 1, None, 0, b"a")])
        self.refused("0f 01 01 01 00", "0f 01 01 01 00 02 01 61", "0f 01 01 01 00 01 01 00 61", "0f 01 01 01 00 01 02 00 61")
        self.refused("0f 01 01 01 00 0f 02 01 01 00 61", "0f 02 01 01 00 61 0f 01 01 01 00 01 02 00 62")

    def test_each_site_begins_once_and_before_its_first_operation(self) -> None:
        self.refused("61", "01 01 00 61", "0f 01 01 01 00 61 0f 01 02 02 01 62", "0f 01 01 01 00 61 01 02 00 62")
        both = f"{HEAD} 0f 01 01 01 00 61 0f 02 01 01 00 62"
        self.assertEqual(self.read(f"{both} 01 01 00 63")[2], insert(1, 2, 2, Name(1, 0), 1, b"c"))
        self.refused(f"{both[len(HEAD):]} 01 02 00 63", f"{both[len(HEAD):]} 0f 01 02 02 01 63")

    def test_the_caret_and_the_looks_are_as_at_first(self) -> None:
        self.assertEqual(self.read(f"{HEAD} 0f 01 07 07 03 61"), [insert(1, 7, 7, None, 3, b"a")])
        plain = f"0f 01 07 07 03 03 {DEFAULT_LOOKS.hex()} 61"
        self.refused("0f 01 07 07 03 05 00 61", "0f 01 07 07 03 04 02 61", plain, "0f 01 07 07 03 08")
        self.refused("0f 01 07 07 03 05 01 03 61")

    def test_15_is_a_code_here(self) -> None:
        self.assertEqual(CHUNK_CODES - CODES, {15})
        self.read(f"{HEAD} 0f 01 01 01 00 0e 0f")
        with self.assertRaises(Refused):
            unpack(bytes.fromhex("01 01 00 0e 0f"), TEXT)
        self.assertEqual(len(unpack(bytes.fromhex("01 01 00 0f"), TEXT)), 1)
        for byte in range(256):
            escaped = "0e" if byte in CHUNK_CODES else ""
            told = self.read(f"{HEAD} 0f 01 01 01 00 61 {escaped} {byte:02x}")
            self.assertEqual(told[1], insert(1, 2, 2, Name(1, 0), 1, bytes([byte])))

    def test_of_other_kinds(self) -> None:
        self.assertEqual([(each.site, each.seq, each.stamp) for each in self.read(OTHERS)][1:3], [(1, 2**28 - 1, 1), (300, 3, 2**42 + 1)])
        self.assertEqual(len(self.read(OTHERS)), 4)


class Cut(Chunks):
    """Operations that one chunk has no room for."""

    def pasted(self, *lengths: int) -> list[Operation]:
        at, told = 0, []
        for seq, length in enumerate(lengths, 1):
            told.append(insert(1, seq, seq, Name(1, at - 1) if at else None, at, b"x" * length))
            at += length
        return told

    def test_a_chunk_takes_operations_as_long_as_there_is_room(self) -> None:
        told = self.pasted(*[4096] * 300)
        cut = pack(TEXT, told)
        begin = "0f 01 04 04 8060 05 01 ff5f"
        length = bytes.fromhex("06 fe1f") + b"x" * 4096
        self.assertEqual(cut[0], bytes.fromhex(HEAD + "0f 01 01 01 00") + length * 3)
        self.assertEqual(cut[1], bytes.fromhex(HEAD + begin) + length * 3)
        self.assertEqual(len(cut), 100)
        self.assertEqual([each for one in cut for each in read_chunk(one).operations], told)

    def test_a_chunk_is_filled_to_its_last_byte(self) -> None:
        full = self.pasted(4096, 4096, 4096, 3689, 1)
        self.assertEqual([len(each) for each in pack(TEXT, full)], [MAX_CHUNK, 17])
        self.assertEqual([len(each) for each in pack(TEXT, self.pasted(4096, 4096, 4096, 3690))], [12308, 3709])
        whole = pack(TEXT, full)[0]
        self.assertEqual(len(read_chunk(whole).operations), 4)
        with self.assertRaises(Refused):
            read_chunk(whole + b"x")
        with self.assertRaises(Refused):
            chunk_of(TEXT, placed(full))

    def test_all_fit_alone(self) -> None:
        ranges = tuple(Range(60 * at + 1, MAX_FILE - 2**22, 2**22) for at in range(1024))
        self.assertLess(len(chunk_of(TEXT, placed([delete(65535, 1, 2**48 - 1, *ranges)]))), MAX_CHUNK)


class Drawn(Chunks):
    """Lists of operations of all kinds and of several sites."""

    def test_what_is_packed_is_read(self) -> None:
        rng = random.Random("fronts")
        for seed in range(300):
            text, messages = drawn_list(seed, 1 + seed % 50)
            told = [*map(read_message, messages)]
            fronts = {site: rng.randrange(6) for site in {each.site for each in told} if rng.random() < 0.5}
            beyond = [each for each in told if each.seq > fronts.get(each.site, 0)]
            cut = pack(text, told, fronts)
            self.assertEqual([each for one in cut for each in read_chunk(one).operations], beyond)
            self.assertTrue(all(chunk_of(text, read_chunk(one).placed) == one for one in cut))
            for one, after in itertools.pairwise(map(read_chunk, cut)):
                with self.assertRaises(Refused):
                    chunk_of(text, [*one.placed, after.placed[0]])

    def test_changed_bytes_are_refused_or_of_other_operations(self) -> None:
        rng = random.Random("changed chunks")
        for seed in range(400, 500):
            text, messages = drawn_list(seed, 1 + seed % 12)
            for one in pack(text, [*map(read_message, messages)]):
                for _ in range(20):
                    self.read_or_refused(changed(one, rng))


class Changed(Chunks):
    """Chunks that were written by hand, cut and changed."""

    def test_each_prefix_is_refused_or_of_the_first_operations(self) -> None:
        for whole in (WORKED, OTHERS):
            data, told = bytes.fromhex(whole), self.read(whole)
            found = [each.operations for end in range(len(data)) if (each := self.read_or_refused(data[:end]))]
            self.assertEqual(found, [told[:count] for count in range(len(told))])

    def test_each_other_byte_is_refused_or_of_other_operations(self) -> None:
        for data in map(bytes.fromhex, (WORKED, OTHERS)):
            told = read_chunk(data)
            for at, other in itertools.product(range(len(data)), range(256)):
                if other != data[at]:
                    self.assertNotEqual(self.read_or_refused(data[:at] + bytes([other]) + data[at + 1 :]), told)

    def test_a_byte_more_or_less_is_refused_or_of_other_operations(self) -> None:
        for data in map(bytes.fromhex, (WORKED, OTHERS)):
            told = read_chunk(data)
            for at, other in itertools.product(range(len(data) + 1), SYMBOLS):
                self.assertNotEqual(self.read_or_refused(data[:at] + bytes([other]) + data[at:]), told)
            for at in range(len(data)):
                self.assertNotEqual(self.read_or_refused(data[:at] + data[at + 1 :]), told)

    def test_where_no_insert_tells_it_the_file_is_as_long_as_is_said(self) -> None:
        one, other = self.read(f"{HEAD} 0f 01 01 01 05 05 02 00 08"), self.read(f"{HEAD} 0f 01 01 01 06 05 02 00 08")
        self.assertEqual(one, other)


class Short(Chunks):
    """All short strings of the bytes that mean something."""

    def test_all_are_refused_or_of_operations(self) -> None:
        for name, (beginning, most) in BEGINNINGS.items():
            with self.subTest(name):
                for length in range(most + 1):
                    for symbols in itertools.product(SYMBOLS, repeat=length):
                        self.read_or_refused(bytes.fromhex(HEAD + beginning) + bytes(symbols))
