"""A text as editors are shown it, in which a place is found quickly both by bytes and by an editor's units.

A note's line end is a carriage return; an editor's is a newline. Each stands for the other, so that both are kept,
whatever a text has. A byte that is no UTF-8 is shown as U+FFFD.
"""
from bisect import bisect_right
from itertools import accumulate
from operator import itemgetter

from share.text.change import Change, boundary
from share.text.units import UNITS, Units

AS_BYTES = "bytes"
# In what the size of a part is counted, and how it is got of all that is counted.
SIZES = AS_BYTES, *UNITS
GETTERS = {unit: itemgetter(unit) for unit in SIZES}
# The bytes of a part as it is made; changes may double them.
PIECE_SIZE = 4_096
# A character goes on with no more than this many bytes.
REACH = 3
_SWAPPED = bytes.maketrans(b"\r\n", b"\n\r")
_HALVES = dict.fromkeys(range(0xDC80, 0xDD00), "\ufffd")


class OutsideText(Exception):
    """A position is outside the text; in words."""


class Split(Exception):
    """A position is inside a character; in words."""


def swapped(data: bytes) -> bytes:
    """A note's bytes as an editor's, or an editor's as a note's."""
    return data.translate(_SWAPPED)


def readable(data: bytes) -> str:
    """What an editor shows of bytes that are an editor's."""
    try:
        return data.decode()
    except UnicodeDecodeError:
        return data.decode("utf-8", "surrogateescape").translate(_HALVES)


def _sizes_of(data: bytes) -> dict[str, int]:
    """The size of some bytes, in bytes and in each of the units as they are shown."""
    if data.isascii():
        return dict.fromkeys(SIZES, len(data))
    text = readable(data)
    return {AS_BYTES: len(data), "utf-8": len(text.encode()), "utf-16": len(text.encode("utf-16-le")) // 2,
            "utf-32": len(text)}


def _goes_on(byte: int) -> bool:
    """Whether a byte goes on with a character of UTF-8."""
    return byte & 0xC0 == 0x80


def _going_on(data: bytes) -> int:
    """The number of bytes, from the front on, that go on with a character."""
    return next((number for number, byte in enumerate(data) if not _goes_on(byte)), len(data))


def _pieces(data: bytes) -> list[bytes]:
    """Bytes in parts, none of which begins inside a character that the one before it begins."""
    parts, begin = [], 0
    while begin < len(data):
        if len(data) - begin <= 2 * PIECE_SIZE:
            parts.append(data[begin:])
            break
        end = begin + PIECE_SIZE
        end += _going_on(data[end:end + REACH])
        parts.append(data[begin:end])
        begin = end
    return parts


class Measured:
    """A text in parts. Bytes are a note's, and are handed over and given as such."""

    def __init__(self, data: bytes):
        self._parts: list[bytes] = []
        # The sizes of the parts, and where the first ones end, which is counted on as it is asked for.
        self._sizes: dict[str, list[int]] = {unit: [] for unit in SIZES}
        self._ends: dict[str, list[int]] = {unit: [] for unit in SIZES}
        self._set(0, 0, _pieces(swapped(data)))

    @property
    def size(self) -> int:
        """Its length in bytes."""
        return self._end(AS_BYTES)

    def as_note(self) -> bytes:
        """The note's bytes."""
        return swapped(self.as_file())

    def as_file(self) -> bytes:
        """The bytes of the text as a file of this system."""
        return b"".join(self._parts)

    def text(self) -> str:
        """What editors show."""
        return readable(self.as_file())

    def length(self, units: Units) -> int:
        """Its length in units."""
        return self._end(units.name)

    def slice(self, begin: int, end: int) -> bytes:
        """The note's bytes from one place to another."""
        return swapped(self._slice(begin, end)) if begin < end else b""

    def position(self, place: int, units: Units) -> int:
        """The number of units before a byte."""
        number, begin = self._find(place)
        before = self._parts[number][:place - begin] if number < len(self._parts) else b""
        return self._begin(number, units.name) + (
            len(before) if before.isascii() else units.count(units.encode(readable(before))))

    def place(self, position: int, units: Units) -> int:
        """The number of bytes before a position in units; Split where it is inside a character."""
        ends = self._ends_of(units.name)
        if not 0 <= position <= (ends[-1] if ends else 0):
            raise OutsideText(f"Position {position} is outside the text.")
        number = bisect_right(ends, position)
        left = position - (ends[number - 1] if number else 0)
        return self._begin(number, AS_BYTES) + (_bytes_of(self._parts[number], left, units, position) if left else 0)

    def boundary(self, place: int) -> int:
        """The begin of the character within which a place is; the place, where it is at one."""
        begin = max(0, place - REACH)
        return begin + boundary(self._slice(begin, min(self.size, place + 1)), place - begin) if place else 0

    def is_whole(self, change: Change) -> bool:
        """Whether a change cuts no character, and joins none of what is beside it."""
        return not (_goes_on(self._byte(change.begin)) or change.end > change.begin and _goes_on(self._byte(change.end)))

    def whole(self, change: Change) -> Change:
        """A change that does the same with whole characters: it has more where one is cut, or joined."""
        begin, end = change.begin, change.end
        first = self._byte(begin)
        last = self._byte(end) if end > begin else first
        if begin > 0 and (_goes_on(first) or _goes_on(change.new[0] if change.new else last)):
            # Where none of the bytes before can begin a character with what follows, it ends there.
            back = _going_on(self._slice(max(0, begin - REACH), begin)[::-1]) + 1
            begin -= back if back <= min(REACH, begin) else 0
        if _goes_on(last):
            end += _going_on(self._slice(end, min(end + REACH, self.size)))
        if (begin, end) == (change.begin, change.end):
            return change
        return Change(begin, end, self.slice(begin, change.begin) + change.new + self.slice(change.end, end))

    def replace(self, change: Change) -> None:
        """Makes a change of whole characters."""
        low, before = high, up_to = self._find(change.begin)
        if change.end > change.begin:
            high, up_to = self._find(change.end)
        tail = self._parts[high][change.end - up_to:] if high < len(self._parts) else b""
        if low == len(self._parts) and low:
            # What comes in at the end is the last part's, too.
            low -= 1
            before -= len(self._parts[low])
        head = self._parts[low][:change.begin - before] if self._parts else b""
        self._set(low, high + 1, _pieces(head + swapped(change.new) + tail))

    def _set(self, begin: int, end: int, parts: list[bytes]) -> None:
        """Puts parts in the place of others."""
        self._parts[begin:end] = parts
        found = [*map(_sizes_of, parts)]
        for unit, sizes in self._sizes.items():
            sizes[begin:end] = map(GETTERS[unit], found)
            del self._ends[unit][begin:]

    def _ends_of(self, unit: str) -> list[int]:
        ends, sizes = self._ends[unit], self._sizes[unit]
        if len(ends) < len(sizes):
            # Those after the last known one, which comes first then.
            ends.extend(accumulate(sizes[len(ends):], initial=ends.pop()) if ends else accumulate(sizes))
        return ends

    def _begin(self, number: int, unit: str) -> int:
        """Where a part begins."""
        return self._ends_of(unit)[number - 1] if number else 0

    def _end(self, unit: str) -> int:
        ends = self._ends_of(unit)
        return ends[-1] if ends else 0

    def _find(self, place: int) -> tuple[int, int]:
        """The part that has a byte, and where it begins."""
        ends = self._ends_of(AS_BYTES)
        number = bisect_right(ends, place)
        return number, ends[number - 1] if number else 0

    def _byte(self, place: int) -> int:
        """A byte; none goes on after the last one."""
        number, begin = self._find(place)
        return self._parts[number][place - begin] if number < len(self._parts) else 0

    def _slice(self, begin: int, end: int) -> bytes:
        low, before = self._find(begin)
        if end < before + len(self._parts[low] if low < len(self._parts) else b""):
            return self._parts[low][begin - before:end - before]
        high, _ = self._find(end)
        return b"".join(self._parts[low:high + 1])[begin - before:end - before]


def _bytes_of(data: bytes, position: int, units: Units, told: int) -> int:
    """The number of bytes before a position in a part."""
    before = data[:position]
    if len(before) == position and before.isascii():
        return position
    text = readable(data)
    cut = units.decode(units.encode(text)[:units.size * position])
    # What was cut isn't a begin of the text any more, or is too long.
    if not text.startswith(cut) or units.count(units.encode(cut)) != position:
        raise Split(f"Position {told} is inside a character.")
    return len(data.decode("utf-8", "surrogateescape")[:len(cut)].encode("utf-8", "surrogateescape"))
