"""What a change of a text is, how positions follow it, and how it is found by comparing the text before and
after."""
import re
from collections.abc import Callable
from dataclasses import dataclass, field

from share.text.names import Names

# The line end inside a text.
LINE_END = b"\r"
# What is between words, and how many bytes a word may have.
SPACE, LONGEST_WORD = re.compile(rb"[ \t\r\n]"), 100
# The bytes that are compared at once; only where these differ they are compared one by one.
BLOCK = 4_096


@dataclass
class Change:
    """The bytes from `begin` to `end` gave way to others."""

    begin: int
    end: int
    new: bytes
    # The names of what came or of what went, where it is one stretch of them and they are known.
    names: Names | None = field(default=None, compare=False)

    # Whether whole lines come in at the begin of a line, with which a place there goes; who knows the text says so.
    opens_line: bool = field(default=False, compare=False)

    def look(self, before: bytes, size: int) -> None:
        """Notes whether whole lines come in at the begin of a line, by the byte before them, or none, and the size of the text before
        the change. An empty text has no line."""
        self.opens_line = self.begin == self.end and size > 0 and before in (b"", LINE_END) and self.new.endswith(LINE_END)

    def moved(self, position: int, is_end: bool = False) -> int:
        """Where a position is then: after the same character, or where that was; at the begin of a line with that, but for the end of
        a selection."""
        if position < self.begin or position == self.begin and (is_end or not self.opens_line):
            return position
        if position < self.end:
            return self.begin
        return position + len(self.new) - (self.end - self.begin)

    def moved_both(self, cursor: int, anchor: int | None) -> tuple[int, int | None]:
        """Where a cursor and the other end of a selection are then."""
        if anchor is None:
            return self.moved(cursor), None
        return self.moved(cursor, anchor < cursor), self.moved(anchor, cursor < anchor)


def make(text: bytearray, changes: list[Change]) -> None:
    """Makes changes, each of the text that those before it leave. Those that rise are made in one go, since
    each by itself moves all that is after it."""
    begin = at = 0
    new = bytearray()
    for one in changes:
        gap = one.begin - begin - len(new)
        if gap < 0:
            text[begin:at] = new
            begin, at, gap, new = one.begin, one.begin, 0, bytearray()
        new += text[at:at + gap] + one.new
        at += gap + one.end - one.begin
    text[begin:at] = new


def change(before: bytes, after: bytes) -> Change:
    """The least change of one stretch of whole characters that makes the one text of the other."""
    most, ends = min(len(before), len(after)), (len(before), len(after))
    begin = _common_length(lambda place, size: before[place:place + size] == after[place:place + size], most)
    begin = boundary(after, boundary(before, begin))
    back = _common_length(lambda place, size: before[ends[0] - place - size:ends[0] - place]
                          == after[ends[1] - place - size:ends[1] - place], most - begin)
    while back and after[ends[1] - back] & 0xC0 == 0x80:
        back -= 1
    return Change(begin, ends[0] - back, bytes(after[begin:ends[1] - back]))


def change_of_words(before: bytes, after: bytes) -> Change:
    """The same, of whole words: what is typed within it meanwhile ends beside a word, and not in one."""
    one = change(before, after)
    # What both texts have between the change and the nearest space.
    begin = begins_word(before, one.begin)
    end = one.end if one.end == one.begin == begin else ends_word(before, one.end)
    return Change(begin, end, bytes(after[begin:len(after) - len(before) + end]))


def begins_word(text: bytes, position: int) -> int:
    """Where the word begins that goes on at a position; the position, where no space is near."""
    found = SPACE.search(text[max(0, position - LONGEST_WORD):position][::-1])
    return position - found.start() if found else position if position > LONGEST_WORD else 0


def ends_word(text: bytes, position: int) -> int:
    """Where the word ends, with the space after it, that a position follows; the position, where no space is near."""
    begin = max(0, position - 1)
    found = SPACE.search(text[begin:begin + LONGEST_WORD])
    return begin + found.end() if found else len(text) if len(text) <= begin + LONGEST_WORD else position


def boundary(text: bytes, position: int) -> int:
    """The last place up to a position at which a character of UTF-8 begins; bytes that are no UTF-8 stand for
    themselves."""
    for back in range(min(3, position) + 1):
        if position - back == len(text) or text[position - back] & 0xC0 != 0x80:
            return position - back
    return position


def _common_length(equal: Callable[[int, int], bool], most: int) -> int:
    """The number of equal bytes from a place on; `equal` compares a place, with a size."""
    done = 0
    while done < most and equal(done, min(BLOCK, most - done)):
        done += min(BLOCK, most - done)
    size = min(BLOCK, most - done)
    while size:
        half = (size + 1) // 2
        if equal(done, half):
            done += half
            size -= half
        else:
            size = half if half < size else 0
    return done


def found(text: bytearray, cursor: int, words: str) -> int:
    """The next place of words after a cursor, or from the front on; below 0 where there is none."""
    wanted = words.encode("utf-8", "ignore")
    place = text.find(wanted, cursor + 1)
    return place if place >= 0 else text.find(wanted)
