"""What came from others and is taken in a part at a time, so that keys are answered between.

Some operations cost far more than others: a letter may have to pass everything that was typed at its place. So a few are taken
at a time, and more while that is quick.
"""
from collections import deque
from collections.abc import Iterator

from share.format.chunk import unpacked
from share.format.history import Messages, Part
from share.format.operation import INSERT, Operation

# The cost of an operation is counted in letters that are typed one after the other: finding a place counts as 250 of them, and
# each four characters of a stretch as one.
COST_OF_A_PLACE, CHARACTERS = 250, 4
# The cost of what is handed in at once: at the beginning, and its bounds.
FIRST_COST, LEAST_COST, MOST_COST = 16 * COST_OF_A_PLACE, COST_OF_A_PLACE, 128 * COST_OF_A_PLACE
# It is halved after a call that took more processor time, and doubled after one that took less.
SLOW_CALL_SECONDS, QUICK_CALL_SECONDS = 0.02, 0.005
# A piece of a run has no more letters, so that a chunk has room for it however they are spelled.
MOST_LETTERS = 4_000


class Pace:
    """How much is done at once, which lies between two bounds."""

    def __init__(self, begin: int, least: int, most: int):
        self.most = begin
        self._bounds = least, most

    def took(self, seconds: float) -> None:
        """Adjusts it to the processor time that it took."""
        if seconds > SLOW_CALL_SECONDS:
            self.most = max(self._bounds[0], self.most // 2)
        elif seconds < QUICK_CALL_SECONDS:
            self.most = min(self._bounds[1], self.most * 2)


class Coming:
    """Operations that count and that a site hasn't been handed yet, the next one first."""

    def __init__(self) -> None:
        self._parts: deque[Part] = deque()
        self._many, self.pace = 0, Pace(FIRST_COST, LEAST_COST, MOST_COST)

    def __len__(self) -> int:
        return self._many

    def add(self, messages: Messages) -> None:
        """Adds operations at the end."""
        self._parts += messages.parts()
        self._many += len(messages)

    def first(self) -> Messages:
        """The first ones, those that are handed in at once."""
        found, left = Messages(), self.pace.most
        before: Operation | None = None
        for part in self._parts:
            end = part.begin
            for one in _operations(part):
                left -= _cost(one, before)
                if left < 0 and before is not None:
                    found.add(part._replace(end=end))
                    return found
                end, before = end + one.size, one
            found.add(part)
        return found

    def drop(self, many: int) -> None:
        """Removes operations from the front."""
        self._many -= many
        while many:
            part = self._parts.popleft()
            size = min(many, part.end - part.begin)
            if part.begin + size < part.end:
                self._parts.appendleft(part._replace(begin=part.begin + size))
            many -= size


def _operations(part: Part) -> Iterator[Operation]:
    """The operations of a part, letters typed one after the other in one, or in pieces where they are many."""
    for chunk, known, _ in part.holder.parts(part.begin, part.end):
        for one in known or unpacked(chunk):
            for begin in range(0, one.size, MOST_LETTERS):
                yield one.part(begin, min(begin + MOST_LETTERS, one.size))


def _cost(one: Operation, before: Operation | None) -> int:
    """What an operation may cost, given the one before it."""
    if one.kind != INSERT:
        return sum(COST_OF_A_PLACE + names.length // CHARACTERS for names in one.mentions)
    # Nothing else can be after a letter that came just before.
    goes_on = before is not None and before.kind == INSERT and [
        names[:2] for names in one.mentions] == [(before.site, before.at + len(before.data) - 1)]
    return len(one.data) + (0 if goes_on else COST_OF_A_PLACE)
