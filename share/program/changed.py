"""Compare a note's text at two times of its history, by the names of its characters.

A run of the program takes the messages of the earlier time, and then the later ones. A character has one name in both texts. Text that
was cut and pasted elsewhere counts as deleted and as inserted.
"""
import re
from array import array
from collections.abc import Iterator, Mapping, Sequence
from contextlib import closing
from dataclasses import dataclass
from itertools import count, groupby
from typing import NamedTuple

from share.admission.fronts import sites_of
from share.format.history import Messages
from share.format.operation import DELETE, RESTORE
from share.program.difference import shown_by
from share.program.replay import Came
from share.program.site import Site
from share.text.names import Names

# Adjacent characters that are all in another text, or all missing there.
ALIKE = re.compile(rb"\x00+|\x01+")


class Went(NamedTuple):
    """Characters that aren't shown any more: where they stood in the later text, their bytes, the site that wrote them, and the site
    that deleted them."""

    at: int
    data: bytes
    site: int
    by: int


class WhatChanged(NamedTuple):
    """The later text, its new stretches, and the deleted ones. Each stretch has one author and one person who did this. All stretches that
    were deleted between the same two remaining characters have the place of the first one, because a replacement stands inside the
    passage that it replaces."""

    text: bytes
    came: list[Came]
    went: list[Went]


class _Apart(NamedTuple):
    """Characters of a text that another one doesn't show: how many before them are in both, their position, and their names."""

    kept: int
    position: int
    names: Names


@dataclass
class _Gap:
    """The deleted stretches between two remaining characters, their place in the later text, and whether there are new characters."""

    gone: Sequence[_Apart]
    place: int
    has_new: bool


def changed(then: Messages, since: Messages) -> WhatChanged:
    """Compare the text of some messages with the text after later ones."""
    # The site's own message is none of another one's.
    with closing(Site(_free_number(then + since), then)) as site:
        before = shown_by(site)
        site.take(since)
        now = shown_by(site)
        came = _apart(now.names, before.names)
        gaps = _gaps(_apart(before.names, now.names), came)
        _look_where([gap for gap in gaps if gap.has_new], site)
    doers = _Doers(since)
    went = [Went(gap.place, before.text[one.position + part.begin:one.position + part.end], one.names.site, part.by)
            for gap in gaps for one in gap.gone for part in doers.of(one.names)]
    return WhatChanged(now.text, _came_by_author(came, doers), _went_by_author(went))


class _Part(NamedTuple):
    """A part of a stretch of characters, and the site that showed or hid these last."""

    begin: int
    end: int
    by: int


class _Doers:
    """The sites that deleted characters, or restored them, by some messages. The last site counts."""

    def __init__(self, messages: Messages):
        # By the characters' sites, a number for each of these up to the last one: that of a site among those that did something, or 0.
        self._done, self._sites = dict[int, "array[int]"](), [0]
        numbers = dict[int, int]()
        for one in sorted((one for one in messages.runs() if one.kind in (DELETE, RESTORE)), key=lambda one: (one.stamp, one.site)):
            if one.site not in numbers:
                numbers[one.site] = len(self._sites)
                self._sites.append(one.site)
            for names in one.mentions:
                self._mark(names, numbers[one.site])

    def _mark(self, names: Names, number: int) -> None:
        done = self._done.setdefault(names.site, array("I"))
        done.frombytes(bytes(done.itemsize * max(0, names.at + names.length - len(done))))
        done[names.at:names.at + names.length] = array("I", [number]) * names.length

    def of(self, names: Names) -> Iterator[_Part]:
        """Divide a stretch by the site that deleted or restored it. If no site did, that is its author."""
        done = self._done.get(names.site, array("I"))[names.at:names.at + names.length]
        done.frombytes(bytes(done.itemsize * (names.length - len(done))))
        begin = 0
        for number, some in groupby(done):
            end = begin + len([*some])
            yield _Part(begin, end, self._sites[number] or names.site)
            begin = end


def _free_number(messages: Messages) -> int:
    """Return a number under which none of these messages was written."""
    taken = sites_of(messages)
    return next(number for number in count(1) if number not in taken)


def _apart(names: Sequence[Names], others: Sequence[Names]) -> list[_Apart]:
    """Return the stretches of a text that another text lacks."""
    marks, found, kept, position = _is_shown_in(others), list[_Apart](), 0, 0
    for one in names:
        of_one = marks.get(one.site, b"")[one.at:one.at + one.length].ljust(one.length, b"\0")
        for alike in ALIKE.finditer(of_one):
            begin, end = alike.span()
            if of_one[begin]:
                kept += end - begin
            else:
                found.append(_Apart(kept, position + begin, Names(one.site, one.at + begin, end - begin)))
        position += one.length
    return found


def _is_shown_in(names: Sequence[Names]) -> Mapping[int, bytes | bytearray]:
    """Return a byte for each character of each site, up to the last of these: 1 for one of these, 0 for others."""
    ends: dict[int, int] = {}
    for one in names:
        ends[one.site] = max(ends.get(one.site, 0), one.at + one.length)
    marks = {site: bytearray(end) for site, end in ends.items()}
    for one in names:
        marks[one.site][one.at:one.at + one.length] = b"\1" * one.length
    return marks


def _gaps(gone: Sequence[_Apart], came: Sequence[_Apart]) -> list[_Gap]:
    """Group the deleted stretches by their place, which is directly behind the remaining character before them."""
    gaps, length, number = list[_Gap](), 0, 0
    for kept, some in groupby(gone, lambda one: one.kept):
        while number < len(came) and came[number].kept < kept:
            length += came[number].names.length
            number += 1
        gaps.append(_Gap([*some], kept + length, number < len(came) and came[number].kept == kept))
    return gaps


def _look_where(gaps: Sequence[_Gap], site: Site) -> None:
    """Find the place of each first deleted character among the new ones, by restoring it. A full note refuses that."""
    firsts = [gap.gone[0].names._replace(length=1) for gap in gaps]
    site.restore(firsts)
    shown = 0
    for gap, stretches in zip(gaps, site.where(firsts)):
        if stretches:
            gap.place = stretches[0].position - shown
            shown += 1


def _came_by_author(came: Sequence[_Apart], doers: _Doers) -> list[Came]:
    """Return the new stretches. Adjacent ones are joined if they have the same author, and the same site brought them."""
    out: list[Came] = []
    for _, position, names in came:
        for part in doers.of(names):
            one = Came(position + part.begin, position + part.end, names.site, part.by)
            if out and (out[-1].end, *out[-1][2:]) == (one.begin, *one[2:]):
                out[-1] = out[-1]._replace(end=one.end)
            else:
                out.append(one)
    return out


def _went_by_author(went: Sequence[Went]) -> list[Went]:
    """Return the deleted stretches. Adjacent ones are joined if they have the same author, and the same site deleted them."""
    return [Went(at, b"".join(one.data for one in some), site, by)
            for (at, site, by), some in groupby(went, lambda one: (one.at, one.site, one.by))]
