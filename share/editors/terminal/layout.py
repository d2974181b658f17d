"""How a text is laid out in rows of a screen: lines end at 0DH, and long ones go on in the next row.

A *character* here is what people see as one: a letter with its marks, a flag, a family. Debian's python3-regex
finds where each ends, and python3-wcwidth how wide it is; without them simpler rules do."""
import importlib
import unicodedata
from collections.abc import Callable, Iterable
from dataclasses import dataclass
from functools import lru_cache

from share.editors.terminal.keys import CONTROL, DOT, UNREADABLE
from share.text.change import LINE_END

# The bytes of a text, or of a part of it.
Text = bytes | bytearray
# Where a character begins in its part of a line, what is drawn for it, and how many columns that takes.
Cell = tuple[int, str, int]

LINE_END_BYTE = LINE_END[0]
TAB = 8
# A longer line is laid out in parts, each beginning a row, so that a key in a line of a megabyte is answered
# at once.
PART_BYTES = 4_096
# No character takes more bytes, so that a run of marks without an end is walked in pieces. It is a multiple of
# a flag's size: a row of flags is parted into pairs from where this begins.
CLUSTER_BYTES = 256
# The bytes in which a word is looked for at a time.
STRETCH = 1_024
# What marks are drawn over that have no character before them.
BASE = "\u25cc"


@dataclass
class ScreenRow:
    """A row: where it begins and ends in the text, its cells, and where its part of a line begins."""

    begin: int
    end: int
    cells: list[Cell]
    part: int

    def column(self, position: int) -> int:
        """The column of a position in the row."""
        return sum(width for begin, _, width in self.cells if self.part + begin < position)

    def position(self, column: int) -> int:
        """The position of the character in a column, or the row's end."""
        at = 0
        for begin, _, width in self.cells:
            at += width
            if width and at > column:
                return self.part + begin
        return self.end


class AsideRow(ScreenRow):
    """A row that is none of the text, and where no position is."""

    def __init__(self, cells: list[Cell]):
        super().__init__(-1, -1, cells, -1)


def asides(lines: Iterable[str], width: int) -> list[ScreenRow]:
    """The rows of lines that are none of the text."""
    rows = (rows_of(line.encode("utf-8", "surrogateescape"), width) for line in lines)
    return [AsideRow(cells) for some in rows for _, _, cells in some]


def decoded(data: Text) -> str:
    """The code points of bytes. A byte that is no UTF-8 is one by itself."""
    return data.decode("utf-8", "surrogateescape")


def size_of(text: str) -> int:
    """How many bytes code points take."""
    return len(text) if text.isascii() else len(text.encode("utf-8", "surrogateescape"))


def simple_width(point: str) -> int:
    """How many columns a code point takes, by the tables of Python."""
    return 2 if unicodedata.east_asian_width(point) in "WF" else 1


def is_drawn_over(point: str) -> bool:
    """Whether a code point is drawn over the one before it, or says how that is drawn: marks, joiners, and
    the later letters of a Korean syllable."""
    if unicodedata.category(point) in ("Mn", "Me", "Cf"):
        return point not in DRAWN_FORMATS
    return "\u1160" <= point <= "\u11ff" or "\ud7b0" <= point <= "\ud7fb"


@lru_cache(4_096)
def look_of(point: str) -> tuple[str, int]:
    """What is drawn for a code point, and how many columns it takes: none where it is drawn over the one
    before it."""
    if "\ud800" <= point <= "\udfff":
        return UNREADABLE, 1
    if CONTROL.match(point):
        return DOT, 1
    return point, 0 if is_drawn_over(point) else max(1, width_of(point))


def simple_clusters(text: str) -> list[str]:
    """The characters of a text: each begins with what is drawn over nothing, and after no joiner."""
    begins = [place for place, point in enumerate(text)
              if not place or look_of(point)[1] and text[place - 1] != JOINER]
    return [text[begin:end] for begin, end in zip(begins, [*begins[1:], len(text)])]


def with_marks(found: list[str]) -> list[str]:
    """Characters, those that can't be seen with the one before them."""
    out: list[list[str]] = []
    for one in found:
        if out and look_of(one[0])[1] == 0:
            out[-1].append(one)
        else:
            out.append([one])
    return ["".join(parts) for parts in out]


def _clusters() -> Callable[[str], list[str]]:
    """The best that is installed here to find characters."""
    try:
        find = importlib.import_module("regex").compile(r"\X").findall
    except ImportError:
        return simple_clusters
    return lambda text: [*text] if text.isascii() else with_marks(find(text))


def _width() -> Callable[[str], int]:
    """The best that is installed here to measure."""
    try:
        found: Callable[[str], int] = importlib.import_module("wcwidth").wcwidth
    except ImportError:
        return simple_width
    return found


JOINER = "\u200d"
# What is a format character by its category, and is drawn all the same.
DRAWN_FORMATS = ("\xad\u0600\u0601\u0602\u0603\u0604\u0605\u06dd\u070f\u0890\u0891\u08e2\U000110bd"
                 "\U000110cd")
clusters, width_of = _clusters(), _width()


class Layout:
    """The rows of a text in a width, as long as the text stays as it is."""

    def __init__(self, text: Text, width: int):
        self.text, self.width = text, width
        self._parts: dict[int, list[ScreenRow]] = {}

    def row_at(self, position: int) -> ScreenRow:
        """The row in which a position lies."""
        rows = self._rows(self._part_begin(position))
        return next((row for row in reversed(rows) if row.begin <= position), rows[0])

    def after(self, row: ScreenRow) -> ScreenRow | None:
        """The row below; None below the last one."""
        if row.end >= len(self.text):
            return None
        return self.row_at(row.end + self._ends_line(row.end))

    def before(self, row: ScreenRow) -> ScreenRow | None:
        """The row above; None above the first one."""
        return self.row_at(row.begin - 1) if row.begin else None

    def moved(self, row: ScreenRow, count: int) -> ScreenRow:
        """The row some rows below another, or above it, or the last one on the way there."""
        step = self.before if count < 0 else self.after
        for _ in range(abs(count)):
            row = step(row) or row
        return row

    def goes_on(self, row: ScreenRow) -> bool:
        """Whether a row's line goes on in the row below."""
        return not self._ends_line(row.end)

    def below(self, row: ScreenRow, height: int) -> list[ScreenRow]:
        """A row and those below it, as many as a height has."""
        rows = [row]
        while len(rows) < height and (next_row := self.after(rows[-1])):
            rows.append(next_row)
        return rows

    def _ends_line(self, position: int) -> bool:
        return position >= len(self.text) or self.text[position] == LINE_END_BYTE

    def _part_begin(self, position: int) -> int:
        """Where the line, or the part of a long line, begins in which a position lies."""
        line = self.text.rfind(b"\r", 0, position) + 1
        number = (position - line) // PART_BYTES
        begin = self._cut(line, number)
        # The end of a line is in the part before it.
        if begin > position or number and begin == position and self._ends_line(position):
            begin = self._cut(line, number - 1)
        return begin

    def _part_end(self, begin: int) -> int:
        line = self.text.rfind(b"\r", 0, begin) + 1
        end = self.text.find(b"\r", begin)
        end = len(self.text) if end < 0 else end
        number = (begin - line) // PART_BYTES + 1
        return min(end, self._cut(line, number)) if line + number * PART_BYTES < end else end

    def _cut(self, line: int, number: int) -> int:
        """Where a part of a line begins: where a character does, at its place or soon after it."""
        limit = line + number * PART_BYTES
        if not number:
            return line
        near = next_boundary(self.text, limit - CLUSTER_BYTES)
        for one in clusters(decoded(self.text[near:limit + CLUSTER_BYTES].partition(b"\r")[0])):
            if near >= limit:
                return near
            near += size_of(one)
        return near if near >= limit else next_boundary(self.text, limit)

    def _rows(self, begin: int) -> list[ScreenRow]:
        if begin not in self._parts:
            rows = rows_of(bytes(self.text[begin:self._part_end(begin)]), self.width)
            self._parts[begin] = [ScreenRow(begin + first, begin + end, cells, begin) for first, end, cells in rows]
        return self._parts[begin]


# A text is laid out anew after each change of it, and most lines on the screen stay as they were.
@lru_cache(1_024)
def rows_of(part: bytes, width: int) -> list[tuple[int, int, list[Cell]]]:
    """Where the rows of a part of a line begin and end in it, and their cells. A row ends after its last
    blank, where it has one."""
    rows: list[tuple[int, int, list[Cell]]] = []
    cells: list[Cell] = []
    begin = at = blank = place = 0
    for character in pieces(decoded(part), width):
        seen, size = drawn(character)
        while at + size > width and cells:
            kept = blank or len(cells)
            next_begin = cells[kept][0] if kept < len(cells) else place
            rows.append((begin, next_begin, cells[:kept]))
            begin, cells, blank = next_begin, cells[kept:], 0
            at = sum(cell[2] for cell in cells)
        if character[0] == "\t":
            size = min(TAB - at % TAB, width - at)
            seen = " " * size
        cells.append((place, seen, size))
        at += size
        if character[0] in " \t":
            blank = len(cells)
        place += size_of(character)
    return [*rows, (begin, len(part), cells)]


def drawn(character: str) -> tuple[str, int]:
    """What is drawn for a character, and how many columns it takes: one at least."""
    if len(character) == 1 and (look := look_of(character))[1]:
        return look
    looks = [look_of(point) for point in character]
    seen, size = "".join(look for look, _ in looks), sum(size for _, size in looks)
    return (seen, size) if looks[0][1] else (BASE + seen, 1 + size)


def pieces(text: str, width: int) -> list[str]:
    """The characters of a text. One that is wider than a row comes in its parts."""
    out: list[str] = []
    for character in clusters(text):
        if len(character) > 2 and drawn(character)[1] > width:
            out += simple_parts(character)
        else:
            out.append(character)
    return out


def simple_parts(character: str) -> list[str]:
    """The parts of a character that are drawn beside each other."""
    return with_marks([*character])


def next_boundary(text: Text, position: int) -> int:
    """The first place from a position on at which a code point of UTF-8 begins."""
    position = max(0, position)
    end = position + 3 if position > 0 else 0
    while position < min(end, len(text)) and text[position] & 0xC0 == 0x80:
        position += 1
    return position


def cluster_before(text: Text, position: int) -> int:
    """Where the character before a position begins."""
    if not position or text[position - 1] == LINE_END_BYTE:
        return max(0, position - 1)
    begin = text.rfind(b"\r", max(0, position - CLUSTER_BYTES), position) + 1
    begin = begin or next_boundary(text, position - CLUSTER_BYTES)
    return position - size_of(clusters(decoded(text[begin:position]))[-1])


def cluster_after(text: Text, position: int) -> int:
    """Where the character after a position ends."""
    if position >= len(text) or text[position] == LINE_END_BYTE:
        return min(len(text), position + 1)
    end = text.find(b"\r", position, position + CLUSTER_BYTES)
    end = end if end >= 0 else next_boundary(text, min(len(text), position + CLUSTER_BYTES))
    return position + size_of(clusters(decoded(text[position:end]))[0])


def word_before(text: Text, position: int) -> int:
    """Where the word before a position begins."""
    seen = False
    while position:
        begin = next_boundary(text, position - STRETCH)
        for point in reversed(decoded(text[begin:position])):
            if not is_of_word(point) and seen:
                return position
            seen = seen or is_of_word(point)
            position -= size_of(point)
    return 0


def word_after(text: Text, position: int) -> int:
    """Where the word after a position ends."""
    seen = False
    while position < len(text):
        end = next_boundary(text, min(len(text), position + STRETCH))
        for point in decoded(text[position:end]):
            if not is_of_word(point) and seen:
                return position
            seen = seen or is_of_word(point)
            position += size_of(point)
    return len(text)


def is_of_word(point: str) -> bool:
    """Whether a code point is of a word: letters, digits, marks and the underscore."""
    return point.isalnum() or point == "_" or unicodedata.category(point)[0] == "M"
