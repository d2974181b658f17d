"""The parts by themselves: rows, characters, splitting, and changes."""
import importlib.util
import random
import sys
import unittest
import unittest.mock
from collections.abc import Iterator
from types import ModuleType

from share.editors.terminal import layout
from share.editors.terminal.layout import (CLUSTER_BYTES, PART_BYTES, Layout, ScreenRow, cluster_after, cluster_before, decoded,
                                           drawn, word_after, word_before)
from share.editors.terminal.status_line import StatusLine
from share.format.operation import MOST_INSERTED
from share.program.site import split
from share.sync.status import Status
from share.tests.counting import Counted
from share.tests.support import Case
from share.text.change import Change, boundary, make

WIDTH = 20
ALPHABET = "abc  \r\té漢🎉e\u0301\u200d🇩🇪"
ENGLAND = "🏴\U000e0067\U000e0062\U000e0065\U000e006e\U000e0067\U000e007f"


class Rows(Case):
    """Each byte of a text is in one row, or ends a line."""

    def texts(self) -> Iterator[bytes]:
        """Texts with long lines and short, wide characters, marks, tabs, and bytes that are no UTF-8."""
        chance = random.Random(1)
        for _ in range(200):
            yield "".join(chance.choices(ALPHABET, k=chance.randrange(200))).encode()
        yield b"\xff\x80\x80" * 30 + b"\r\xf0\x9f"
        yield b"\x80" * (2 * PART_BYTES)
        yield "é".encode() * PART_BYTES + b"\r" + b"x" * (PART_BYTES + 1)
        for character in "🇩🇪", "👩\u200d👩\u200d👧", "e\u0301", "\u1112\u1161\u11ab":
            for size in range(PART_BYTES - 9, PART_BYTES):
                yield b"x" * size + character.encode() + b"\r"
                yield b"x" * size + character.encode() * 60
        yield "\u0301".encode() * PART_BYTES

    def test_rows_have_the_whole_text(self) -> None:
        for text in map(bytearray, self.texts()):
            layout = Layout(text, WIDTH)
            row: ScreenRow | None = layout.row_at(0)
            at = 0
            while row:
                self.assertEqual(row.begin, at)
                self.assertLessEqual(sum(width for _, _, width in row.cells), WIDTH)
                at = row.end + (row.end < len(text) and text[row.end] == 0x0D)
                below = layout.after(row)
                if below:
                    self.assertEqual(layout.before(below), row)
                row = below
            self.assertEqual(at - (text[-1:] == b"\r"), len(text) - (text[-1:] == b"\r"))

    def test_each_position_is_in_a_row(self) -> None:
        for text in map(bytearray, self.texts()):
            layout = Layout(text, WIDTH)
            for position in range(0, len(text) + 1, 1 + len(text) // 100):
                position = boundary(text, position)
                row = layout.row_at(position)
                self.assertLessEqual(row.begin, position)
                self.assertLessEqual(position, row.end)
                self.assertLessEqual(row.position(row.column(position)), row.end)

    def test_a_part_of_a_long_line_is_short(self) -> None:
        layout = Layout(bytearray(b"x" * (10 * PART_BYTES + 1)), WIDTH)
        ends = {layout.row_at(position).end for position in range(1, PART_BYTES + 1)}
        self.assertEqual(max(ends), PART_BYTES + WIDTH)

    def test_parts_of_a_long_line_begin_at_characters(self) -> None:
        for character in "🇩🇪", "👩\u200d👩\u200d👧", "e\u0301":
            text = b"x" * (PART_BYTES - 3) + character.encode() * PART_BYTES
            part = Layout(text, WIDTH).row_at(PART_BYTES + CLUSTER_BYTES).part
            self.assertEqual((part - PART_BYTES + 3) % len(character.encode()), 0)
            self.assertLess(part - PART_BYTES, len(character.encode()))


def without_packages() -> ModuleType:
    """Layout as it is where Debian's packages for characters aren't."""
    specification = importlib.util.spec_from_file_location("plain_layout", layout.__file__)
    assert specification and specification.loader
    plain = importlib.util.module_from_spec(specification)
    with unittest.mock.patch.dict(sys.modules, {"regex": None, "wcwidth": None, "plain_layout": plain}):
        specification.loader.exec_module(plain)
    return plain


def walked(text: str, module: ModuleType = layout) -> list[str]:
    """The characters of a text, which are the same both ways."""
    data = text.encode("utf-8", "surrogateescape")
    stops, back = [0], [len(data)]
    while stops[-1] < len(data):
        stops.append(module.cluster_after(data, stops[-1]))
    while back[-1]:
        back.append(module.cluster_before(data, back[-1]))
    if back[::-1] != stops:
        raise AssertionError(f"forth {stops}, and back {back[::-1]}")
    return [decoded(data[a:b]) for a, b in zip(stops, stops[1:])]


class Characters(Case):
    """Characters are walked, drawn and split whole."""

    SIMPLE = ["a", "e\u0301", "👩\u200d👩\u200d👧", "é", "\r", "\n", "漢", "\t", "\u1112\u1161\u11ab",
              "\udcff", "\udc80", "❤\ufe0f", "x\u200b", "1\ufe0f\u20e3", "\u202e", "\x1b", "\r", "\r", " "]
    FULL = ["🇩🇪", "🇫🇷", "👍🏽", "कि", "நி", ENGLAND, "👨🏽\u200d🚀"]

    def test_a_walk_goes_over_whole_characters(self) -> None:
        self.assertEqual(walked("".join(self.SIMPLE + self.FULL)), self.SIMPLE + self.FULL)
        self.assertEqual(walked("🇩🇪" * 1_000), ["🇩🇪"] * 1_000)

    def test_without_packages(self) -> None:
        plain = without_packages()
        self.assertIs(plain.clusters, plain.simple_clusters)
        self.assertIs(plain.width_of, plain.simple_width)
        self.assertEqual(walked("".join(self.SIMPLE), plain), self.SIMPLE)
        for character in self.SIMPLE[:9]:
            self.assertEqual(plain.drawn(character), drawn(character))

    def test_widths(self) -> None:
        for character, width in (("a", 1), ("漢", 2), ("🎉", 2), ("e\u0301", 1), ("\u1112\u1161\u11ab", 2),
                                 ("🇩🇪", 2), ("\x1b", 1), ("\u202e", 1), ("\udcff", 1), ("\u0301", 1),
                                 ("\u200b", 1)):
            self.assertEqual(drawn(character)[1], width, character)
        self.assertEqual(drawn("\u0301")[0], "\u25cc\u0301")

    def test_marks_without_end(self) -> None:
        text = "e".encode() + "\u0301".encode() * 500_000
        for begin, step in ((500_001, cluster_before), (1, cluster_after)):
            position = begin
            for _ in range(100):
                position = step(text, position)
            self.assertTrue(0 < abs(position - begin) <= 100 * (CLUSTER_BYTES + 3))

    def test_a_place_in_a_long_line_is_found_at_once(self) -> None:
        for character in "x", "\u0301", "🇩🇪", "👩\u200d👩\u200d":
            text = Counted(character.encode() * (1_000_000 // len(character.encode())))
            for place in range(len(text) - 2_048, len(text), 256):
                for step in cluster_before, cluster_after:
                    before = Counted.looked_at
                    step(text, place)
                    self.assertTrue(0 < Counted.looked_at - before <= 4 * CLUSTER_BYTES, (character, step))

    def test_words(self) -> None:
        text = "one, two_3\r\r e\u0301té—पानी " + " " * 3_000 + "end" + "漢" * 2_000
        data = text.encode()
        stops = [0]
        while stops[-1] < len(data):
            stops.append(word_after(data, stops[-1]))
        words = ["one", ", two_3", "\r\r e\u0301té", "—पानी", " " * 3_001 + "end" + "漢" * 2_000]
        self.assertEqual([data[a:b].decode() for a, b in zip(stops, stops[1:])], words)
        back = [len(data)]
        while back[-1]:
            back.append(word_before(data, back[-1]))
        words = ["one, ", "two_3\r\r ", "e\u0301té—", "पानी" + " " * 3_001, "end" + "漢" * 2_000]
        self.assertEqual([data[a:b].decode() for a, b in zip(back[::-1], back[-2::-1])], words)
        for data in b"", b" ", b"\x80", b"\x80\xff" * 2_000, b"a":
            self.assertEqual((word_before(data, len(data)), word_after(data, 0)), (0, len(data)))

    def test_an_insertion_is_split_between_characters(self) -> None:
        for lead in range(4):
            data = b"x" * lead + "🎉".encode() * 3_000
            parts = [*split(data)]
            self.assertEqual(b"".join(parts), data)
            for part in parts:
                part.decode()
                self.assertLessEqual(len(part), MOST_INSERTED)
        self.assertEqual(b"".join(split(b"\x80" * 9_000)), b"\x80" * 9_000)


class Changes(Case):
    """Changes that are made together are made as one by one."""

    def test_at_random(self) -> None:
        chance = random.Random(3)
        for _ in range(500):
            begun = bytearray(chance.choices(b"abc", k=chance.randrange(20)))
            text, changes = bytearray(begun), []
            for _ in range(chance.randrange(6)):
                begin = chance.randrange(len(text) + 1)
                end = chance.randint(begin, len(text))
                changes.append(Change(begin, end, bytes(chance.choices(b"xyz", k=chance.randrange(4)))))
                text[begin:end] = changes[-1].new
            make(begun, changes)
            self.assertEqual(begun, text)


class Said(unittest.TestCase):
    """The words of the status line."""

    def test_what_is_said_twice_is_shown_once(self) -> None:
        screen = unittest.mock.Mock(progress=None)
        screen.keyboard.paste = None
        line = StatusLine("note", screen)
        status = Status(1, 1, 0, None, 0, trouble="The disk is full.")
        self.assertEqual(line.words(status, 0, None), ("The disk is full.", ""))
        line.say("The disk is full.")
        self.assertEqual(line.words(status, 0, None), ("The disk is full.", ""))
        line.say("Saved.")
        self.assertEqual(line.words(status, 0, None), ("Saved. The disk is full.", ""))
