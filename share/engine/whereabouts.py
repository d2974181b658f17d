"""Where many stretches of characters are shown, of which the program is asked once for each character, however many share it."""
from bisect import bisect_left, bisect_right
from collections.abc import Iterable, Sequence
from itertools import accumulate
from typing import NamedTuple

from share.program.effects import Stretch
from share.program.site import Site
from share.review.places import Least
from share.text.names import Name, Names, united


class Extent(NamedTuple):
    """Where those of some characters are that are shown: from the first one to behind the last one, and how many these are."""

    begin: int
    end: int
    many: int
    # Whether they are shown one after the other, as they are named.
    is_in_a_row: bool


class _OfSite:
    """Where characters of a site are shown."""

    def __init__(self, found: Sequence[Stretch]):
        self._found = found
        self._begins, self._ends = [one.at for one in found], [one.at + len(one.data) for one in found]
        self._firsts, self._lasts = Least([one.position for one in found]), Least([-one.position - len(one.data) for one in found])
        self._before = [*accumulate((len(one.data) for one in found), initial=0)]

    def extent(self, at: int, length: int) -> Extent | None:
        """Where those from one on are."""
        first, last, begin, end, many = self._near(at, at + length)
        if not many:
            return None
        begins, ends = self._found[first].position + begin, self._found[last].position + end
        if first < last:
            before = min(begins, self._found[last].position, self._firsts.of(first + 1, last))
            ends = max(ends, self._found[first].position + len(self._found[first].data), -self._lasts.of(first + 1, last))
            return Extent(before, ends, many, False)
        return Extent(begins, ends, many, True)

    def _near(self, at: int, end: int) -> tuple[int, int, int, int, int]:
        """The stretches that have the first and the last of some characters that are shown, which of theirs these are, and how many."""
        first, last = bisect_right(self._ends, at), bisect_left(self._begins, end) - 1
        if first > last:
            return first, last, 0, 0, 0
        begin, after = max(0, at - self._begins[first]), min(end, self._ends[last]) - self._begins[last]
        return first, last, begin, after, self._before[last] + after - self._before[first] - begin

    def nth(self, at: int, length: int, number: int) -> int:
        """Which of those from one on is shown as the one of this number."""
        first, _, begin, _, _ = self._near(at, at + length)
        number += self._before[first] + begin
        found = bisect_right(self._before, number) - 1
        return self._begins[found] + number - self._before[found]

    def shown(self) -> Iterable[tuple[int, int]]:
        """Where each stretch begins, and its length."""
        return zip(self._begins, (len(one.data) for one in self._found))


class Whereabouts:
    """Where characters are shown that may be asked for."""

    def __init__(self, names: Iterable[Names], site: Site):
        asked, found = united({*names}), dict[int, list[Stretch]]()
        for one, answer in zip(asked, site.where(asked) if asked else ()):
            found.setdefault(one.site, []).extend(answer)
        self._sites = {number: _OfSite(some) for number, some in found.items() if some}

    def of(self, names: Names) -> Extent | None:
        """Where these are; None where none is shown."""
        site = self._sites.get(names.site)
        return site.extent(names.at, names.length) if site else None

    def some(self, names: Iterable[Names], which: int) -> Name | None:
        """One of these that is shown, by a number that chooses; None where none is."""
        found = [(one, extent.many) for one in names if (extent := self.of(one))]
        which %= sum(many for _, many in found) or 1
        for one, many in found:
            if which < many:
                return one.site, self._sites[one.site].nth(one.at, one.length, which)
            which -= many
        return None

    def shown(self) -> list[Names]:
        """All that are shown."""
        return [Names(number, *one) for number, site in self._sites.items() for one in site.shown()]
