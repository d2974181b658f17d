"""A log carries entries between disks. It isn't the note: what it loses is brought back from the disks, and
what it has is judged before it counts.

A log has two back ends behind one interface: a file of SQLite, and a stream of a Redis server. Both carry bytes
that they don't open.
"""
from abc import ABC, abstractmethod
from collections.abc import Sequence
from typing import NamedTuple

from share.log.bell import Bell

# The place before all entries.
START = ""
# How many entries a reading gives at most.
READ_AT_ONCE = 2_000
# How long an editor counts as on after it has last said so.
ON_SECONDS = 15
# Of no more than this many is said that they are on.
MOST_ON = 1_000


class Unreachable(Exception):
    """The log can't be had now, and may be later."""


class LogLost(Exception):
    """The log isn't the one that was opened any more: it was removed, emptied, replaced or damaged, and has to
    be opened and read anew. What was damaged was set aside."""


class InLog(NamedTuple):
    """What stands at a place of the log: the bytes of an entry, or None where it can't be one (it is too long,
    or something else)."""

    place: str
    raw: bytes | None


class PresenceChannel(ABC):
    """What is said to all who are on at once, and kept nowhere. It raises what a log does, and then has to be opened again."""

    @abstractmethod
    def say(self, presence: bytes) -> None:
        """Says something to all who hear it, this one included."""

    @abstractmethod
    def hear(self, seconds: float, bell: Bell) -> list[bytes]:
        """What was said since, as soon as there is something; nothing when the time is over, or the bell rings. What is too long
        to be presence is left out."""

    @abstractmethod
    def close(self) -> None:
        """Hears no more."""


class Log(ABC):
    """A log of one note that one thread has opened. What can't be reached raises Unreachable, what has to be
    opened again LogLost, and what is no log, or another note's, Trouble."""

    # How long it is watched before it is seen whether it still is the one that was read.
    watch_seconds = 0.5
    # The most bytes of what a reading gives, but for the last entry or some.
    most_read = 2**20
    # Whether the last reading came to the end that the log had then.
    at_end = False
    # Whether entries can be taken out of it; and how many were by the time that somebody last read, or asked how many there are.
    can_take_out, taken_out = False, 0

    @abstractmethod
    def append(self, raws: Sequence[bytes]) -> None:
        """Appends entries so that they last. One that is held already, byte for byte, is left as it is."""

    @abstractmethod
    def read(self, after: str) -> list[InLog]:
        """What stands after a place, PAGE at most. Nothing that is longer than an entry may be is read."""

    @abstractmethod
    def watch(self, after: str, seconds: float, bell: Bell | None = None) -> None:
        """Returns when something stands after a place, when the time is over, or the bell rings."""

    def take_out(self, fold: bytes, folded: Sequence[bytes]) -> None:
        """Takes out entries all messages of which are in a fold, which the log has. What isn't there is passed over, and the last entry
        stays."""

    @abstractmethod
    def size(self) -> int:
        """How many entries there are, those that were taken out among them."""

    @abstractmethod
    def size_to(self, after: str) -> int:
        """How many entries there are up to a place, all that were taken out among them."""

    def told(self) -> str:
        """What the server tells of itself, each thing once."""
        return ""

    @abstractmethod
    def meet(self, token: bytes, presence: bytes) -> list[bytes]:
        """Says under a token that an editor is on, and gives what all who are on have said last, this one
        included."""

    def end(self) -> tuple[str, int]:
        """The place of the last entry, and how many there are, none that was taken out among them."""
        after, many = START, 0
        while page := self.read(after):
            after, many = page[-1].place, many + len(page)
        return after, many

    def bytes_kept(self) -> int:
        """How many bytes the log takes where it is kept; 0 where it doesn't know."""
        return 0

    def met(self) -> list[bytes]:
        """What all who are on have said last by `meet`, with nothing said; none where the log has no channel."""
        return []

    def channel(self) -> PresenceChannel | None:
        """Begins to hear what is said to all; None where the log has no channel."""
        return None

    def claimed(self, kind: int, at: int) -> set[int] | None:
        """The sites that entries of this kind claim, whoever wrote these, each of which is at a place of their bytes; None where it takes
        as long to say that as to read them all."""
        return None

    def quick(self) -> None:
        """What is written is to last over kills, and not over the loss of power, where that is quicker."""

    @abstractmethod
    def leave(self, token: bytes) -> None:
        """Says that an editor is on no more."""

    @abstractmethod
    def close(self) -> None:
        """Lets go of the log."""
