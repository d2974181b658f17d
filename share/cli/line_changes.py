"""What changes of a text, in lines and in words."""
import difflib
from itertools import accumulate

from share.editors.mirror import TextChange

# The most lines that are compared one by one, which takes the third power of their number; more are one change.
MOST_COMPARED = 300


def line_changes(old: str, new: str) -> list[TextChange]:
    """The changes that make the one text of the other, line by line, from the last one on. A line end stays where lines give way to
    lines, so that what another writes at their end meanwhile stays there."""
    before, now = old.splitlines(keepends=True), new.splitlines(keepends=True)
    begin = _common_lines(before, now)
    back = _common_lines(before[begin:][::-1], now[begin:][::-1])
    ends = [*accumulate(map(len, before), initial=0)]
    before, now = before[begin:len(before) - back], now[begin:len(now) - back]
    if max(len(before), len(now)) > MOST_COMPARED:
        return [_without_line_end(ends[begin], ends[begin + len(before)], before, now)]
    found = difflib.SequenceMatcher(None, before, now, autojunk=False).get_opcodes()
    return [_without_line_end(ends[begin + first], ends[begin + last], before[first:last], now[low:high])
            for what, first, last, low, high in reversed(found) if what != "equal"]


def _without_line_end(begin: int, end: int, before: list[str], now: list[str]) -> TextChange:
    """A change of some lines into others, without the last line end that both have."""
    both = before[-1:] + now[-1:]
    same = len(both) == 2 and all(line.endswith("\n") for line in both)
    return begin, end - same, "".join(now)[:-1 if same else None]


def _common_lines(some: list[str], others: list[str]) -> int:
    """How many lines are the same, from the first one on."""
    return next((number for number, (one, other) in enumerate(zip(some, others)) if one != other),
                min(len(some), len(others)))


def word_changes(text: str, old: str, new: str) -> list[TextChange]:
    """The changes that put new in the place of old, from the last one on."""
    found, at = [], text.find(old)
    while at >= 0:
        found.append((at, at + len(old), new))
        at = text.find(old, at + len(old))
    return found[::-1]
