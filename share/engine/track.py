"""What becomes of places in a text as it changes, for who answers later."""
from bisect import bisect_left, bisect_right
from collections.abc import Iterator
from itertools import accumulate

from share.text.delta import Op, all_composed, in_text
from share.text.units import Units

# More changes than these are joined.
MOST_TRACKED = 1_000


class Track:
    """The changes of a text since some time, in units. The engine's thread alone calls it."""

    def __init__(self, units: Units):
        self.units = units
        self._ops: list[Op] = []

    def changed(self, op: Op) -> None:
        """Notes a change."""
        self._ops.append(op)
        if len(self._ops) > MOST_TRACKED:
            self._ops = [all_composed(self._ops, self.units)]

    def moves(self) -> "MovedPlaces":
        """What all of them do."""
        return MovedPlaces(all_composed(self._ops, self.units), self.units)


class MovedPlaces:
    """Changes, counted in the text before all of them."""

    def __init__(self, op: Op, units: Units):
        self._changes = in_text(op, units)
        self._begins = [begin for begin, _, _ in self._changes]
        # By how much the first ones of them move what is behind.
        self._shifts = [0, *accumulate(units.count(data) - (end - begin) for begin, end, data in self._changes)]

    def place(self, place: int) -> int:
        """Where a place is then, before what comes in there."""
        return self._moved(place, bisect_left(self._begins, place))

    def stretch(self, begin: int, end: int) -> Iterator[tuple[int, int]]:
        """What is left of a stretch then, but for what comes in within it."""
        cuts = [at for at, _, data in self._changes[bisect_right(self._begins, begin):bisect_left(self._begins, end)] if data]
        for first, last in zip([begin, *cuts], [*cuts, end]):
            found = self._moved(first, bisect_right(self._begins, first)), self.place(last)
            if found[0] < found[1]:
                yield found

    def _moved(self, place: int, number: int) -> int:
        """Where a place is after this many changes, which begin before it, or there."""
        return max(place, self._changes[number - 1][1]) + self._shifts[number] if number else place
