"""Where the threads of a margin stand in the text, and whether they do. The program is asked where their characters are shown."""
from bisect import bisect_right
from collections.abc import Iterable, Sequence
from dataclasses import dataclass
from typing import NamedTuple

from share.engine.whereabouts import Extent, Whereabouts
from share.review.margin import AboutText
from share.review.record import Anchor, MarginKind
from share.text.change import Change
from share.text.delta import all_composed, of_change
from share.text.names import Name, Names
from share.text.units import UNITS

# Bytes of a note's text are counted as units of one byte.
_BYTES = UNITS["utf-8"]


@dataclass(slots=True)
class Spot:
    """How a thread stands to the text. Places are in bytes."""

    # Whether its characters are those that its author saw.
    holds: bool = False
    # Where it is shown; nowhere where it doesn't hold, or as long as its place isn't known.
    begin: int | None = None
    end: int = 0
    # The hidden character at whose place it is, where it is at one; and whether all that it is about is hidden.
    hidden: Name | None = None
    is_gone: bool = False
    # Of a suggestion: whether it was accepted, and whether what it is about is otherwise than it was.
    is_accepted: bool = False
    is_changed: bool = False

    def meets(self, begin: int, end: int) -> bool:
        """Whether it is shown within a stretch, or at it where one of both is a place."""
        if self.begin is None:
            return False
        if self.begin == self.end or begin == end:
            return self.begin <= end and begin <= self.end
        return self.begin < end and begin < self.end


class Placed(NamedTuple):
    """How a thread stands to the text, and all the characters that may be where it is, as far as they are shown."""

    spot: Spot
    all: tuple[int, int] | None
    # Whether all of them are shown.
    is_whole: bool


def asked(about: AboutText) -> list[Names]:
    """The characters of a thread that may be shown: those that it is about, then the replacement."""
    behind = about.anchor.behind
    return [*about.anchor.at, *([Names(*behind, 1)] if behind and behind[0] else []), *about.new]


def placed(about: AboutText, whereabouts: Whereabouts) -> Placed:
    """How a thread stands to the text whose characters are here, but for places of hidden ones."""
    anchor, names = about.anchor, asked(about)
    found = [*map(whereabouts.of, names)]
    many = len(found) - len(about.new)
    shown, new = _joined(found[:many]), _joined(found[many:])
    spot = Spot(holds=True)
    if about.kind is MarginKind.SUGGESTION:
        spot.is_accepted = bool(new) if about.new else not shown
        spot.is_changed = bool(anchor.at) and not _is_as_it_was(anchor.at, found)
    # An accepted one is where its replacement is.
    places = new if anchor.behind else shown or new
    if places:
        spot.begin, spot.end = _from_to(places)
    elif anchor.behind and (shown or not anchor.behind[0]):
        spot.begin = spot.end = shown[0].begin + 1 if shown else 0
    else:
        spot.hidden, spot.is_gone = head(anchor), not anchor.behind
    both = shown + new
    is_whole = sum(one.many for one in both) == sum(one.length for one in names)
    return Placed(spot, _from_to(both) if both else None, is_whole)


def head(anchor: Anchor) -> Name:
    """The character at whose place a thread is where none of its characters is shown."""
    return anchor.behind or (anchor.at[0].site, anchor.at[0].at)


def _joined(found: Iterable[Extent | None]) -> list[Extent]:
    return [one for one in found if one]


def _from_to(found: Sequence[Extent]) -> tuple[int, int]:
    return min(one.begin for one in found), max(one.end for one in found)


def _is_as_it_was(at: Sequence[Names], found: Sequence[Extent | None]) -> bool:
    """Whether all of some characters are shown, in their order, with nothing between them."""
    end: int | None = None
    for names, one in zip(at, found):
        if not one or not one.is_in_a_row or one.many != names.length or end not in (None, one.begin):
            return False
        end = one.end
    return True


class Followed:
    """Which characters changes of a text have kept, and where these are since."""

    def __init__(self, changes: Sequence[Change]):
        op = all_composed([of_change(one.begin, one.end, one.new) for one in changes], _BYTES)
        # Where each stretch that was kept began, and begins; and how long it is.
        self._old, self._new, self._lengths = list[int](), list[int](), list[int]()
        old = new = 0
        for part in op:
            if isinstance(part, bytes):
                new += len(part)
            elif part < 0:
                old -= part
            else:
                self._add(old, new, part)
                old, new = old + part, new + part
        self._add(old, new, 1 << 60)

    def _add(self, old: int, new: int, length: int) -> None:
        self._old.append(old)
        self._new.append(new)
        self._lengths.append(length)

    def now(self, at: int) -> int | None:
        """Where a character is that was there; None where it was deleted."""
        number = bisect_right(self._old, at) - 1
        if number < 0 or at >= self._old[number] + self._lengths[number]:
            return None
        return self._new[number] + at - self._old[number]

    def before(self, begin: int, end: int) -> tuple[int, int]:
        """A stretch of the text before the changes that has all which is within a stretch now, or beside it."""
        first, last = bisect_right(self._new, begin - 1) - 1, bisect_right(self._new, end) - 1
        low = 0 if first < 0 else self._old[first] + min(begin - 1 - self._new[first], self._lengths[first] - 1)
        if last < 0 or end >= self._new[last] + self._lengths[last]:
            # What is next now is what was kept after that.
            return low, self._old[last + 1]
        return low, self._old[last] + end - self._new[last]

    def around(self, begin: int, end: int) -> tuple[int, int]:
        """A stretch of the text now that has all which is or was within a stretch before the changes; it begins before 0 where nothing of
        what was kept was before that."""
        first, last = bisect_right(self._old, begin) - 1, bisect_right(self._old, end - 1) - 1
        low = -1 if first < 0 else self._new[first] + min(begin - self._old[first], self._lengths[first] - 1)
        if last < 0 or end > self._old[last] + self._lengths[last]:
            # What was next and is still there.
            return low, self._new[last + 1] + 1
        return low, self._new[last] + end - self._old[last]

    def around_then(self, begin: int, end: int) -> tuple[int, int]:
        """A stretch of the text before the changes that has all which is within a stretch now, or beside it, as `around` takes it."""
        low, high = self.before(begin, end)
        return -1 if begin < 0 else low, high + 1

    def moved_back(self, spot: Spot) -> bool:
        """Has a spot be where it was before the changes; whether its ends were there."""
        if spot.begin is None:
            return spot.hidden is None
        first, last = self._then(spot.begin), self._then(spot.end - 1) if spot.end else -1
        if last is None or spot.begin < spot.end and first is None:
            return False
        spot.begin, spot.end = first if spot.begin < spot.end else last + 1, last + 1
        return True

    def _then(self, at: int) -> int | None:
        """Where a character was; None where it came since."""
        number = bisect_right(self._new, at) - 1
        if number < 0 or at >= self._new[number] + self._lengths[number]:
            return None
        return self._old[number] + at - self._new[number]

    def moved(self, spot: Spot) -> bool:
        """Moves a spot of which no character was hidden or shown since; whether all is known of it then."""
        if spot.begin is None:
            return spot.hidden is None
        if spot.begin == spot.end:
            # What came in at a place stands behind it, unless that is a hidden character's.
            last = self.now(spot.begin - 1) if spot.begin else -1
            is_lost = last is None or spot.hidden is not None and self.now(spot.begin) != last + 1
            spot.begin = spot.end = 0 if last is None else last + 1
        else:
            size, first, last = spot.end - spot.begin, self.now(spot.begin), self.now(spot.end - 1)
            # Where something came in between it may be otherwise.
            is_lost = first is None or last is None or last + 1 - first != size
            spot.begin, spot.end = first or 0, (last or 0) + 1
        if is_lost:
            spot.begin = None
        return not is_lost
