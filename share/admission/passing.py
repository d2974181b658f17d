"""What was let through of a chain, of entries or of messages: how far, and which stamps its characters have."""
from array import array
from bisect import bisect_right

from share.format.history import Holder
from share.format.operation import Operation


class Passing:
    """A chain of which messages are let through, one after the other; and for what it waits."""

    __slots__ = ("front", "length", "stamp", "at", "ended", "needs", "time", "_begins", "_stamps", "_rises")

    # What has its messages.
    branch: Holder

    def __init__(self) -> None:
        # How often it began to wait for something.
        self.time = 0
        self.begin_anew()

    def begin_anew(self) -> None:
        """Lets nothing through yet."""
        # How many of the messages were let through, how long the site's file is then, and the stamp of the last one.
        self.front = self.length = self.stamp = 0
        # Which of the parts that are let through together has the message that is next.
        self.at = 0
        # Whether the next message is wrong.
        self.ended = False
        # The sites of which it mentions characters that aren't there, from where on, and how long their files have to be.
        self.needs: dict[int, tuple[int, int]] = {}
        # Where the characters begin whose stamps don't go on from those before them, the stamp of the first, and whether
        # that of each further one is one greater.
        self._begins, self._stamps, self._rises = array("I"), array("Q"), bytearray()

    def next(self) -> Operation | None:
        """The messages that are next to be let through."""
        raise NotImplementedError

    def pass_on(self, run: Operation, up_to: float) -> None:
        """Lets the next messages through, and perhaps more that type on after them, up to a stamp."""
        raise NotImplementedError

    def stamp_of(self, at: int) -> int:
        """The stamp of the insertion of the character at an offset, which was let through."""
        row = bisect_right(self._begins, at) - 1
        return self._stamps[row] + (at - self._begins[row] if self._rises[row] else 0)

    def _passed(self, stamp: int, size: int, rises: bool) -> None:
        """Notes the stamps of characters, the next ones of the site: of the first, and whether that of each further one is one
        greater."""
        at = self.length
        self.length += size
        if not (rises and self._rises and self._rises[-1] and stamp == self._stamps[-1] + at - self._begins[-1]):
            self._begins.append(at)
            self._stamps.append(stamp)
            self._rises.append(rises)
