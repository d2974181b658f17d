"""What differs between two texts of a note of which the later one was begun anew, since other messages count now: told by the
names of the characters, so that a cursor, and an edit on its way, stay with their character.

Two histories of a site give the same names to others of its characters from where they part. Before that a name means the
same one in both.
"""
import math
from bisect import bisect_right
from collections.abc import Callable, Iterator, Sequence
from itertools import chain
from typing import NamedTuple

from share.admission.ledger import Branch
from share.admission.lines import Path
from share.format.history import Messages
from share.program.site import Site
from share.text.change import Change, make
from share.text.names import Names

# Where more stretches than this differ, they aren't told one by one.
MOST_DIFFERENCES = 2_000


class Shown(NamedTuple):
    """What a site shows, the names of that, and the messages that it has."""

    text: bytes
    names: list[Names]
    messages: Messages


class _Same(NamedTuple):
    """Characters that are in both texts: where they begin in each, and their number."""

    before: int
    now: int
    length: int


def shown_by(site: Site) -> Shown:
    """What a site shows now."""
    text = site.text()
    return Shown(text, site.names(0, len(text)), site.history[:])


def differences(before: Shown, now: Shown) -> list[Change] | None:
    """What differs, each as a change of the text that those before it leave; None where that can't be told by names."""
    return differences_by(before, now, _common_ends(before.messages, now.messages))


def differences_by(before: Shown, now: Shown, kept: Callable[[int], float] = lambda site: math.inf) -> list[Change] | None:
    """What differs, given up to which offset the names of a site mean the same in both."""
    changes, at, begin = list[Change](), 0, 0
    same = _same(before.names, now.names, kept)
    for one in chain(same, [_Same(len(before.text), len(now.text), 0)]):
        if one.before < at or one.now < begin or len(changes) > MOST_DIFFERENCES:
            return None
        if one.before > at or one.now > begin:
            changes.append(Change(begin, begin + one.before - at, now.text[begin:one.now]))
        at, begin = one.before + one.length, one.now + one.length
    text = bytearray(before.text)
    make(text, changes)
    return changes if text == now.text else None


def _same(before: Sequence[Names], now: Sequence[Names], kept: Callable[[int], float]) -> Iterator[_Same]:
    """The characters that both texts show, in the order of the first one."""
    places: dict[int, list[tuple[int, int, int]]] = {}
    for at, one in zip(_begins(now), now):
        places.setdefault(one.site, []).append((one.at, one.length, at))
    for found in places.values():
        found.sort()
    for at, one in zip(_begins(before), before):
        found, last = places.get(one.site, []), min(one.at + one.length, kept(one.site))
        for begin, length, place in found[max(0, bisect_right(found, (one.at, math.inf, 0)) - 1):]:
            first, end = max(begin, one.at), min(begin + length, last)
            if begin >= last:
                break
            if first < end:
                yield _Same(at + first - one.at, place + first - begin, int(end) - first)


def _begins(names: Sequence[Names]) -> Iterator[int]:
    """The position at which each of some stretches begins."""
    at = 0
    for one in names:
        yield at
        at += one.length


def _common_ends(before: Messages, now: Messages) -> Callable[[int], float]:
    """Up to which offset the names of each site mean the same characters after two histories."""
    old, new = _lines(before), _lines(now)
    ends = {site: _common_end(old[site], new[site]) for site in old.keys() & new.keys()}
    for one in _in_no_entry(before):
        ends[one.site] = min(ends.get(one.site, 0.0), one.at)
    return lambda site: ends.get(site, 0.0)


def _lines(messages: Messages) -> dict[int, tuple[Branch | Path, int]]:
    """The line of each site whose messages are in entries, and the number of these."""
    return {part.holder.site: (part.holder, part.end) for part in messages.parts() if isinstance(part.holder, Branch | Path)}


def _in_no_entry(messages: Messages) -> Iterator[Names]:
    """What those messages insert that are in no entry yet."""
    for part in messages.parts():
        if not isinstance(part.holder, Branch | Path):
            yield from (one.new for one in part.holder.between(part.begin, part.end) if one.new)


def _common_end(old: tuple[Branch | Path, int], new: tuple[Branch | Path, int]) -> float:
    """Up to which offset two histories of a site have the same characters."""
    (one, end), (other, other_end) = old, new
    last = min(_in_common(one, other), end, other_end)
    return next((each.at for each in one.between(last, end) if each.data), math.inf)


def _in_common(one: Branch | Path, other: Branch | Path) -> int:
    """How many of the first messages of two histories of a site are the same."""
    if isinstance(one, Path) and isinstance(other, Path):
        return one.shared(other, len(one))
    assert isinstance(one, Branch) and isinstance(other, Branch)
    return one.shared(other)
