"""Which threads speak of which characters: anchors by the names that they have, or by where these are. Adding a stretch costs the same
however long it is and however many there are, and looking for some characters costs no more for anchors of others."""
from bisect import bisect_left, bisect_right
from collections.abc import Hashable, Iterable, Sequence
from typing import Generic, TypeVar

from share.text.names import Names

OfNames = TypeVar("OfNames", bound=Hashable)
OfSpans = TypeVar("OfSpans")


class NameIndex(Generic[OfNames]):
    """Stretches of names, each of something. One of up to 2^k names lies in one or two of the blocks of 2^k."""

    def __init__(self) -> None:
        # By site and k, and by the number of a block.
        self._levels: dict[int, dict[int, dict[int, dict[Names, set[OfNames]]]]] = {}

    def __bool__(self) -> bool:
        return bool(self._levels)

    def add(self, names: Iterable[Names], of: OfNames) -> None:
        """Adds stretches."""
        for one in names:
            level = (one.length - 1).bit_length()
            blocks = self._levels.setdefault(one.site, {}).setdefault(level, {})
            for block in {one.at >> level, one.at + one.length - 1 >> level}:
                blocks.setdefault(block, {}).setdefault(one, set()).add(of)

    def meeting(self, names: Iterable[Names]) -> set[OfNames]:
        """Of what there are stretches that have one of these names."""
        found = set[OfNames]()
        for one in names:
            end = one.at + one.length
            for level, blocks in self._levels.get(one.site, {}).items():
                first, last = one.at >> level, end - 1 >> level
                near = range(first, last + 1) if last - first < len(blocks) else [block for block in blocks if first <= block <= last]
                for block in near:
                    for (_, at, length), of in blocks.get(block, {}).items():
                        if at < end and one.at < at + length:
                            found |= of
        return found


class NameSet:
    """Names, of which more are added. Asking for some costs the same however many times others are added."""

    def __init__(self) -> None:
        # By site where each range begins and ends: they rise and don't touch.
        self._ranges: dict[int, tuple[list[int], list[int]]] = {}

    def add(self, names: Iterable[Names]) -> None:
        """Adds names."""
        for site, at, length in names:
            begins, ends = self._ranges.setdefault(site, ([], []))
            first, last = bisect_left(ends, at), bisect_right(begins, at + length)
            begin, end = (min(at, begins[first]), max(at + length, ends[last - 1])) if first < last else (at, at + length)
            if last - first != 1 or (begin, end) != (begins[first], ends[first]):
                begins[first:last], ends[first:last] = [begin], [end]

    def meets(self, names: Iterable[Names]) -> bool:
        """Whether it has one of these names."""
        for site, at, length in names:
            begins, ends = self._ranges.get(site, ([], []))
            first = bisect_right(ends, at)
            if first < len(begins) and begins[first] < at + length:
                return True
        return False

    def lacks(self, names: Iterable[Names]) -> list[Names]:
        """Those of these names that it doesn't have."""
        found = list[Names]()
        for site, at, length in names:
            begins, ends = self._ranges.get(site, ([], []))
            end, number = at + length, bisect_right(ends, at)
            while number < len(begins) and begins[number] < end:
                if at < begins[number]:
                    found.append(Names(site, at, begins[number] - at))
                at, number = ends[number], number + 1
            if at < end:
                found.append(Names(site, at, end - at))
        return found


class Least:
    """The least of any of some numbers in a row."""

    def __init__(self, numbers: Sequence[int]):
        self._size = 1 << max(0, len(numbers) - 1).bit_length()
        self._tree = [1 << 62] * self._size + [*numbers] + [1 << 62] * (self._size - len(numbers))
        for node in range(self._size - 1, 0, -1):
            self._tree[node] = min(self._tree[2 * node], self._tree[2 * node + 1])

    def of(self, first: int, end: int) -> int:
        """The least from one to before another."""
        found, first, end = 1 << 62, first + self._size, end + self._size
        while first < end:
            if first & 1:
                found, first = min(found, self._tree[first]), first + 1
            if end & 1:
                end -= 1
                found = min(found, self._tree[end])
            first, end = first >> 1, end >> 1
        return found

    def below(self, most: int, end: int) -> list[int]:
        """Which of those before one are less than a number."""
        found, nodes = list[int](), [(1, 0, self._size)]
        while nodes:
            node, first, size = nodes.pop()
            if first >= end or self._tree[node] >= most:
                continue
            if size == 1:
                found.append(first)
            else:
                nodes += (2 * node, first, size // 2), (2 * node + 1, first + size // 2, size // 2)
        return found


class Spans(Generic[OfSpans]):
    """Stretches of a text, each of something. Looking for those that meet one costs no more for all others."""

    def __init__(self, spans: Iterable[tuple[int, int, OfSpans]]):
        found = sorted(spans, key=lambda one: one[0])
        self._begins, self._of = [begin for begin, _, _ in found], [of for _, _, of in found]
        self._ends = Least([-end for _, end, _ in found])

    def meeting(self, begin: int, end: int) -> list[OfSpans]:
        """Of what there are stretches that meet one."""
        return [self._of[number] for number in self._ends.below(-begin, bisect_left(self._begins, end))]
