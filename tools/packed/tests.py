"""Tests of packed histories: lists.txt both ways, lists drawn at random, changed bytes, and all short strings; and of chunks."""
from __future__ import annotations

import itertools
import random
import unittest
from dataclasses import dataclass, field
from pathlib import Path

from tools.packed.cursor import Refused
from tools.packed.drawing import changed, drawn_list
from tools.packed.files import PackedFile, head, read_file
from tools.packed.messages import MAX_FILE, MAX_INSERT, Delete, Insert, Name, Operation, Range, read_message, spelled_message
from tools.packed.packed import CODES, DEFAULT_LOOKS, pack, packed_lines, unpack, unpacked_lines

LISTS = Path(__file__).with_name("lists.txt")
# In the file a history comes after its own tag, text and site.
HEADER = 8
TEXT = 1
SYMBOLS = bytes.fromhex("00 01 02 03 04 05 06 07 08 0b 0c 0e 61 80")
# Behind what short strings come, and of how many bytes these are at most.
BEGINNINGS = {
    "nothing": ("", 4),
    "a site whose caret is the root": ("01 01 00 0c 00 01 00 00", 3),
    "its caret is at its character": ("01 01 00 61", 4),
    "its caret is at another site's": ("01 01 00 05 02 02 08", 3),
    "its stamp is the greatest but one": ("01 01 fdffffffffff3f 61", 3),
    "in the midst of looks": ("01 01 00 61 03 01 41", 4),
    "in the midst of a ChangeLooks": ("01 01 00 61 0b 02 07", 4),
    "before the set of a Delete": ("01 01 00 61 07", 4),
}


@dataclass
class Listed:
    """A list of the file: the text, the site whose list it is, the messages, and what they are packed as."""

    text: int
    site: int
    messages: list[bytes] = field(default_factory=list)
    packed: bytes = b""


def listed() -> list[Listed]:
    lists: list[Listed] = []
    for line in LISTS.read_text(encoding="ascii").splitlines():
        word, _, rest = line.partition(" ")
        if word == "list":
            text, site = map(int, rest.split())
            lists.append(Listed(text, site))
        elif word == "message":
            lists[-1].messages.append(bytes.fromhex(rest))
        elif word == "packed":
            lists[-1].packed = bytes.fromhex(rest)
    return lists


def inserts(*data: bytes, site: int = 1) -> list[bytes]:
    """What a site writes one after the other from the root on."""
    at, messages = 0, []
    for seq, each in enumerate(data, 1):
        cause = Name(site, at - 1) if at else None
        messages.append(spelled_message(Operation(TEXT, site, seq, seq, Insert(cause, at, DEFAULT_LOOKS, each))))
        at += len(each)
    return messages


class Packed(unittest.TestCase):
    def read_or_refused(self, data: bytes, text: int = TEXT) -> list[bytes] | None:
        """Reads bytes; what is read as a history is packed as the same bytes."""
        try:
            messages = unpack(data, text)
        except Refused:
            return None
        self.assertEqual(pack(messages), data)
        return messages


class Lists(Packed):
    """Lists of which others said what they are packed as."""

    def test_each_is_packed_and_unpacked(self) -> None:
        lists = listed()
        self.assertEqual(len(lists), 30)
        for each in lists:
            with self.subTest(each.packed.hex()):
                header = b"OTP1" + each.text.to_bytes(2, "big") + each.site.to_bytes(2, "big")
                self.assertEqual(each.packed[:HEADER], header)
                self.assertEqual(pack(each.messages).hex(), each.packed[HEADER:].hex())
                self.assertEqual(unpack(each.packed[HEADER:], each.text), each.messages)

    def test_each_prefix_is_refused_or_of_the_first_messages(self) -> None:
        for each in listed():
            for end in range(HEADER, len(each.packed)):
                messages = self.read_or_refused(each.packed[HEADER:end], each.text)
                if messages is not None:
                    self.assertEqual(messages, each.messages[: len(messages)])

    def test_each_other_byte_is_refused_or_of_other_messages(self) -> None:
        for each in sorted(listed(), key=lambda one: len(one.packed))[::7]:
            data = each.packed[HEADER:]
            for at, byte in enumerate(data):
                for other in {*SYMBOLS, *(byte ^ 1 << bit for bit in range(8))} - {byte}:
                    messages = self.read_or_refused(data[:at] + bytes([other]) + data[at + 1 :], each.text)
                    self.assertNotEqual(messages, each.messages)

    def test_each_message_has_one_spelling(self) -> None:
        for message in {message for each in listed()[:5] for message in each.messages}:
            for at, bit in itertools.product(range(len(message)), range(8)):
                other = message[:at] + bytes([message[at] ^ 1 << bit]) + message[at + 1 :]
                try:
                    self.assertEqual(spelled_message(read_message(other)), other)
                except Refused:
                    pass


class Drawn(Packed):
    """Lists of operations of all kinds and of several sites, with the greatest and least values of each field."""

    def test_what_is_packed_is_unpacked(self) -> None:
        for seed in range(400):
            text, messages = drawn_list(seed, 1 + seed % 50)
            self.assertEqual(unpack(pack(messages), text), messages)

    def test_changed_bytes_are_refused_or_of_other_messages(self) -> None:
        rng = random.Random("changes")
        for seed in range(400, 600):
            text, messages = drawn_list(seed, 1 + seed % 12)
            data = pack(messages)
            for _ in range(20):
                self.read_or_refused(changed(data, rng), text)

    def test_a_file_is_filled_to_its_last_byte(self) -> None:
        messages = inserts(*[bytes(MAX_INSERT)] * (MAX_FILE // MAX_INSERT))
        data = pack(messages)
        self.assertEqual(unpack(data, TEXT), messages)
        self.assertIsNone(self.read_or_refused(data + b"a"))
        self.assertIsNotNone(self.read_or_refused(data + b"\x08"))


class Short(Packed):
    """All short strings of the bytes that mean something."""

    def test_all_are_refused_or_of_messages(self) -> None:
        for name, (beginning, most) in BEGINNINGS.items():
            with self.subTest(name):
                for length in range(most + 1):
                    for symbols in itertools.product(SYMBOLS, repeat=length):
                        self.read_or_refused(bytes.fromhex(beginning) + bytes(symbols))


class Messages(unittest.TestCase):
    """What is no message, though all its fields are there."""

    def refused(self, *messages: str) -> None:
        for each in messages:
            with self.subTest(each), self.assertRaises(Refused):
                read_message(bytes.fromhex(each))

    def read(self, message: str) -> None:
        self.assertEqual(spelled_message(read_message(bytes.fromhex(message))), bytes.fromhex(message))

    def test_a_beginning(self) -> None:
        rest = "0001 0001 00000000 00000001"
        self.read(f"4f540102 ffff ffff ffffffff 0000ffffffffffff {rest}")
        self.refused(f"4f540102 0000 0001 00000001 0000000000000001 {rest}", f"4f540102 0001 0000 00000001 0000000000000001 {rest}")
        self.refused(f"4f540102 0001 0001 00000000 0000000000000001 {rest}", f"4f540102 0001 0001 00000001 0000000000000000 {rest}")
        self.refused(f"4f540102 0001 0001 00000001 0001000000000000 {rest}", f"4f540202 0001 0001 00000001 0000000000000001 {rest}")
        self.refused(f"4f540105 0001 0001 00000001 0000000000000001 {rest}", f"4f540104 0001 0001 00000001 0000000000000001 {rest}")

    def test_a_set(self) -> None:
        begin = "4f540204 0001 0001 00000001 0000000000000001"
        self.read(f"{begin} 0003 0001 00000000 00000001 0001 00000002 00000001 0002 00000000 01000000")
        self.refused(f"{begin} 0000", f"{begin} 0001 0000 00000000 00000001", f"{begin} 0001 0001 00000000 00000000")
        self.refused(f"{begin} 0001 0001 00000001 01000000", f"{begin} 0002 0001 00000000 00000001")
        self.refused(f"{begin} 0002 0001 00000000 00000001 0001 00000001 00000001")
        self.refused(f"{begin} 0002 0001 00000000 00000002 0001 00000001 00000002")
        self.refused(f"{begin} 0002 0002 00000000 00000001 0001 00000005 00000001")
        self.refused(f"{begin} 0401 {' '.join(f'0001 {2 * at:08x} 00000001' for at in range(1025))}")

    def test_a_change_of_looks(self) -> None:
        begin, names = "4f540103 0001 0001 00000001 0000000000000001", "0001 0001 00000000 00000001"
        for values in ("02 0f", "04 80", "01 02 412e", f"07 1f {'41' * 31} 00 00"):
            self.read(f"{begin} {values} {names}")
        for values in ("00", "08", "02 10", "01 00", "01 01 30", "01 02 415f", f"01 20 {'41' * 32}"):
            self.refused(f"{begin} {values} {names}")

    def test_an_insert(self) -> None:
        begin, looks = "4f540101 0001 0001 00000001 0000000000000001", "01 41 0f ff"
        self.read(f"{begin} 0000 00000000 00000000 {looks} 1000 {'00' * 4096}")
        self.read(f"{begin} 0001 00fffffe 00ffffff {looks} 0001 61")
        self.refused(f"{begin} 0000 00000000 00000000 {looks} 0000", f"{begin} 0000 00000000 00000000 {looks} 1001 {'00' * 4097}")
        self.refused(f"{begin} 0000 00000001 00000002 {looks} 0001 61", f"{begin} 0000 00000000 00ffffff {looks} 0002 6161")
        self.refused(f"{begin} 0002 01000000 00000000 {looks} 0001 61", f"{begin} 0001 00000001 00000001 {looks} 0001 61")


class Told(Packed):
    """What the page says in words, by hand."""

    def told(self, data: str, *messages: bytes) -> None:
        self.assertEqual(pack(messages).hex(), bytes.fromhex(data).hex())
        self.assertEqual(unpack(bytes.fromhex(data), TEXT), [*messages])

    def refused(self, *histories: str) -> None:
        for each in histories:
            with self.subTest(each), self.assertRaises(Refused):
                unpack(bytes.fromhex(each), TEXT)

    def test_no_messages_have_no_bytes(self) -> None:
        self.told("")

    def test_a_letter_where_its_site_goes_on_is_that_byte(self) -> None:
        self.told("01 01 00 61 62 00 ff", *inserts(b"a", b"b", b"\x00", b"\xff"))

    def test_a_byte_that_is_a_code_comes_after_0e(self) -> None:
        for code in range(256):
            escaped = "0e" if code in CODES else ""
            self.told(f"01 01 00 61 {escaped} {code:02x}", *inserts(b"a", bytes([code])))

    def test_more_bytes_come_after_their_number(self) -> None:
        self.told(f"01 01 00 06 00 6162 06 7f {'63' * 129} 06 8001 {'64' * 130}", *inserts(b"ab", b"c" * 129, b"d" * 130))
        self.told(f"01 ffff03 00 06 fe1f {'00' * 4096}", *inserts(bytes(4096), site=65535))
        self.refused(f"01 01 00 06 ff1f {'00' * 4097}", "01 01 00 06 01 6162")

    def test_a_site_is_said_where_it_is_another(self) -> None:
        self.refused("61", "02 01 61", "01 00 00 61", "01 808004 00 61", "01 01 00 61 01 01 00 61", "01 01 00")

    def test_a_stamp_is_said_where_it_is_above(self) -> None:
        self.refused("01 01 00 61 02 00 62", "01 01 00 61 02 01 02 01 62", f"01 01 {'ff' * 6}3f 61")
        self.assertIsNotNone(self.read_or_refused(bytes.fromhex(f"01 01 fe{'ff' * 5}3f 61")))
        self.refused(f"01 01 fe{'ff' * 5}3f 61 62")

    def test_looks_are_said_where_they_are_others(self) -> None:
        looks = "03 01 41 00 00"
        self.assertIsNotNone(self.read_or_refused(bytes.fromhex(f"01 01 00 {looks} 61 62")))
        self.refused(f"01 01 00 03 {DEFAULT_LOOKS.hex()} 61", f"01 01 00 {looks} 61 {looks} 62", f"01 01 00 61 {looks} 08")
        self.refused(f"01 01 00 {looks} 0c 00 01 00 00", f"01 01 00 61 04 01 {looks} 62", "01 01 00 03 01 31 00 00 61")
        self.refused("01 01 00 03 01 41 10 00 61", "01 01 00 0b 00 00 01 00 00", "01 01 00 0b 08 00 01 00 00")
        self.refused("01 01 00 0b 02 10 00 01 00 00")

    def test_a_place_is_said_where_it_is_another(self) -> None:
        self.refused("01 01 00 61 04 00 62", "01 01 00 04 02 61", "01 01 00 61 05 01 00 62", "01 01 00 05 00 61")
        self.refused("01 01 00 61 04 02 62", "01 01 00 61 04 03 62", "01 01 00 08", "01 01 00 61 05 00 08", "01 01 00 05 02 80808008 61")
        self.refused("01 01 00 61 05 00 07 00 02 00 01", "01 01 00 61 04 02 0c 00 02 00 00", "01 01 00 61 04 01 08")
        self.refused("01 01 00 05 01 00 61", "01 01 00 05 808004 00 61")

    def test_after_a_delete_the_caret_is_before_what_it_names(self) -> None:
        first, second, third = inserts(b"a", b"b", b"c")
        self.assertEqual(unpack(bytes.fromhex("01 01 00 61 62 08 63"), TEXT)[:2], [first, second])
        after = read_message(unpack(bytes.fromhex("01 01 00 61 62 08 63"), TEXT)[3]).kind
        self.assertEqual(after, Insert(Name(1, 0), 2, DEFAULT_LOOKS, b"c"))
        twice = read_message(unpack(bytes.fromhex("01 01 00 61 62 08 08 63"), TEXT)[4]).kind
        self.assertEqual(twice, Insert(None, 2, DEFAULT_LOOKS, b"c"))

    def test_a_set_of_one_character_is_a_delete_of_one(self) -> None:
        self.refused("01 01 00 07 00 01 00 00", "01 01 00 61 07 00 01 00 00")
        self.assertIsNotNone(self.read_or_refused(bytes.fromhex("01 01 00 07 00 01 00 01")))

    def test_a_set_has_ranges_that_may_be(self) -> None:
        self.refused("01 01 00 0c 00 00 00 00", "01 01 00 0c 00 01 ffffff07 01", "01 01 00 0c 8008 01 00 00", "01 01 00 0c 01 01 00 00")
        self.refused(f"01 01 00 0c 8008 01 00 00 {'00 00 00' * 1024}")
        self.assertIsNotNone(self.read_or_refused(bytes.fromhex(f"01 01 00 0c ff07 01 00 00 {'00 00 00' * 1023}")))

    def test_a_number_is_as_short_as_can_be(self) -> None:
        self.refused("01 8100 00 61", "01 01 8000 61", f"01 01 {'80' * 7}01 61", f"01 01 {'80' * 100000}01 61", "01 01 80")

    def test_other_messages_are_refused(self) -> None:
        first, second, third = inserts(b"a", b"b", b"c")
        other_text = first[:4] + b"\x00\x02" + first[6:]
        for messages in ([second], [first, first], [first, third], [first, second[:19] + b"\x01" + second[20:]], [other_text, second]):
            with self.assertRaises(Refused):
                pack(messages)
        for message in (b"", first[:-1], first + b"\x00", b"\x4e" + first[1:]):
            with self.assertRaises(Refused):
                pack([message])

    def test_an_operation_that_is_not_the_next_is_refused(self) -> None:
        names = (Range(2, 0, 1),)
        for seqs in ((2,), (1, 3), (1, 1), (2, 1)):
            messages = [spelled_message(Operation(TEXT, 1, seq, at + 1, Delete(names))) for at, seq in enumerate(seqs)]
            with self.subTest(seqs), self.assertRaises(Refused):
                pack(messages)

    def test_an_insert_elsewhere_than_its_file_ends_is_refused(self) -> None:
        first, second = inserts(b"a", b"b")
        with self.assertRaises(Refused):
            pack([first, second[:29] + b"\x02" + second[30:]])

    def test_a_text_is_1_to_65535(self) -> None:
        for text in (0, 65536, -1):
            with self.assertRaises(Refused):
                unpack(b"", text)

    def test_lines(self) -> None:
        messages = inserts(b"a", b"b")
        self.assertEqual(unpacked_lines(packed_lines(messages, TEXT), TEXT), messages)
        for lines, text in (([*messages, b""], TEXT), (messages, 2)):
            with self.assertRaises(Refused):
                packed_lines(lines, text)
        with self.assertRaises(Refused):
            unpacked_lines([b"", b""], TEXT)


class Files(Packed):
    """What a file's head has, and which operations aren't ready over those before them."""

    def refused(self, *files: str) -> None:
        for each in files:
            with self.subTest(each), self.assertRaises(Refused):
                read_file(bytes.fromhex(each))

    def operations(self, history: str) -> int:
        return len(read_file(head(TEXT, 1) + bytes.fromhex(history)).operations)

    def test_a_head(self) -> None:
        self.assertEqual(read_file(b"OTP1\1\2\xff\xff"), PackedFile(258, 65535, ()))
        self.refused("", "4f545031 0001 00", "4f545032 0001 0001", "4f545331 0001 0001", "4f545031 0000 0001", "4f545031 0001 0000")

    def test_causes_come_before(self) -> None:
        self.assertEqual(self.operations("01 01 00 61 01 02 01 05 01 00 62"), 2)
        begin = "4f545031 0001 0001"
        self.refused(f"{begin} 01 02 01 05 01 00 62 01 01 00 61", f"{begin} 01 01 00 61 01 02 01 05 01 01 62")
        self.refused(f"{begin} 01 01 00 61 07 00 01 00 01", f"{begin} 01 01 00 61 0c 00 02 00 00")
        self.refused(f"{begin} 01 01 00 61 01 02 00 0b 02 03 00 01 01 00")

    def test_stamps_are_above_those_of_causes(self) -> None:
        self.assertEqual(self.operations("01 01 00 61 62 01 02 02 0c 00 01 00 01"), 3)
        self.assertEqual(self.operations("01 01 00 61 62 01 02 01 0c 00 01 00 00"), 3)
        self.refused("4f545031 0001 0001 01 01 00 61 01 02 00 05 01 00 62", "4f545031 0001 0001 01 01 00 61 62 01 02 01 0c 00 01 00 01")
