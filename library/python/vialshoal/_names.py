"""Sets of characters' names, as ranges that rise and don't touch, and which names messages show and hide."""
from __future__ import annotations

import struct
from bisect import bisect_right
from collections.abc import Iterable, Iterator
from itertools import islice
from typing import NamedTuple

from ._answers import NameRange

_INSERT, _DELETE, _LOOKS = 1, 2, 3
# Where a message has what it does, and its site; where an Insert has how long its site's file was, and its looks.
_KIND, _SITE, _BODY, _AT, _FONT = 3, 6, 20, 26, 30
_RANGE, _WIDE, _SHORT = struct.Struct(">HII"), struct.Struct(">I"), struct.Struct(">H")


def united(ranges: Iterable[NameRange]) -> list[NameRange]:
    """All names of these ranges."""
    found: list[NameRange] = []
    for it in sorted(ranges):
        last = found[-1] if found else None
        if last is not None and last.site == it.site and it.offset <= last.offset + last.length:
            end = max(last.offset + last.length, it.offset + it.length)
            found[-1] = NameRange(it.site, last.offset, end - last.offset)
        elif it.length:
            found.append(it)
    return found


def parts(it: NameRange, of: list[NameRange]) -> Iterator[tuple[NameRange, bool]]:
    """The parts of a range, in order, each with whether its names are of a set."""
    at, end = it.offset, it.offset + it.length
    first = bisect_right(of, (it.site, at), key=lambda one: (one.site, one.offset + one.length))
    for one in islice(of, first, None):
        if (one.site, one.offset) >= (it.site, end):
            break
        beg, last = max(one.offset, at), min(one.offset + one.length, end)
        if beg > at:
            yield NameRange(it.site, at, beg - at), False
        yield NameRange(it.site, beg, last - beg), True
        at = last
    if at < end:
        yield NameRange(it.site, at, end - at), False


def without(ranges: Iterable[NameRange], other: list[NameRange]) -> list[NameRange]:
    """The names of one set that aren't of another."""
    return [part for it in ranges for part, is_of_other in parts(it, other) if not is_of_other]


class Effect(NamedTuple):
    """The names that edits show, and those that they hide."""

    came: list[NameRange]
    went: list[NameRange]


def _set_at(message: bytes, at: int) -> Iterator[NameRange]:
    count = _SHORT.unpack_from(message, at)[0]
    return (NameRange(*_RANGE.unpack_from(message, at + 2 + _RANGE.size * index)) for index in range(count))


def effect_of(message: bytes) -> Effect:
    """What a message shows and hides."""
    kind = message[_KIND]
    if kind == _INSERT:
        site, length = (_SHORT.unpack_from(message, at)[0] for at in (_SITE, _FONT + 1 + message[_FONT] + 2))
        return Effect([NameRange(site, _WIDE.unpack_from(message, _AT)[0], length)], [])
    if kind == _LOOKS:
        return Effect([], [])
    names = united(_set_at(message, _BODY))
    return Effect([], names) if kind == _DELETE else Effect(names, [])


def both(one: Effect, other: Effect) -> Effect:
    """What two edits show and hide, the one after the other."""
    return Effect(united([*without(one.came, other.went), *without(other.came, one.went)]),
                  united([*without(one.went, other.came), *without(other.went, one.came)]))


def effect_of_all(messages: Iterable[bytes]) -> Effect:
    """What messages show and hide."""
    effect = Effect([], [])
    for message in messages:
        effect = both(effect, effect_of(message))
    return effect
