"""What a log is known to have of a note's file: a byte for each place of the file, behind one lock.

A place that was read in the log is there. What the log was given counts as there until the log was read to its end
without it. While the log is read again from its front, what it had before counts until that is done.
"""
import threading
from collections.abc import Iterable

# The marks of a place: it was read in the log; the log was given it; the log had it before it is read again; it has
# an edit of this person; it isn't to be given; and it is folded in another one, so that the log needs no more than that.
WAS_READ, WAS_GIVEN, WAS_HAD, OWN_EDIT, HELD_BACK, FOLDED = 1, 2, 4, 8, 16, 32
IN_LOG = WAS_READ | WAS_GIVEN | WAS_HAD
_AFTER_BEGIN = bytes(mark & (OWN_EDIT | FOLDED) | (WAS_HAD if mark & IN_LOG else 0) for mark in range(256))
_AFTER_END = bytes(mark & (OWN_EDIT | FOLDED | WAS_READ | WAS_GIVEN) for mark in range(256))
_LET_GO = bytes(mark & ~HELD_BACK for mark in range(256))
_MARKED = {bit: bytes(mark | bit for mark in range(256)) for bit in (WAS_READ, WAS_GIVEN, OWN_EDIT, HELD_BACK, FOLDED)}


class Carried:
    """What a log has of one file. Any thread may call it."""

    def __init__(self, file: tuple[int, int] | None):
        # What tells the file from one that takes its name, whose places are others.
        self.file = file
        # How often the log was read whole, from its front to where its end was then.
        self.whole = 0
        # The last place of the file that was looked at, and the number of the last entry that was withdrawn by then.
        self.looked = self.withdrawn = 0
        self._lock = threading.Lock()
        self._marks = bytearray()
        # How often what was held back was let go.
        self.lettings = 0
        # The places that the log was given and that weren't read there yet.
        self._given: set[int] = set()
        # No place before this one is lacking.
        self._first = 1
        self._unsent = 0
        # No more of this person's edits than this can be unsent, by what the file says.
        self._most_unsent = 0

    @property
    def unsent(self) -> int:
        """How many edits of this person the log isn't known to have."""
        return self._unsent

    @property
    def unsent_by_file(self) -> int:
        """The same, where until the log was read whole the file says what it may lack."""
        return self._unsent if self.whole else min(self._unsent, self._most_unsent)

    def file_says(self, unsent: int) -> None:
        """Takes over how many of the edits that were found the log may lack, by what the file says."""
        with self._lock:
            self._most_unsent = unsent

    def has(self, place: int) -> bool:
        """Whether the log is known to have what is at a place."""
        with self._lock:
            return bool(self._of(place) & IN_LOG)

    def was_read(self, place: int) -> bool:
        """Whether what is at a place was read in the log, since that was last begun to be read from its front."""
        with self._lock:
            return bool(self._of(place) & WAS_READ)

    def found(self, last: int, own: Iterable[int]) -> None:
        """Takes over that the file was looked at up to a place, and where this person's edits are."""
        with self._lock:
            self._mark_own(own)
            self._grow(last)
            self.looked = max(self.looked, last)

    def made(self, own: Iterable[int]) -> None:
        """Takes over that this person made edits, which are at these places."""
        with self._lock:
            self._mark_own(own)

    def took_back(self, number: int, places: Iterable[int]) -> None:
        """Takes over which places were withdrawn, up to a number: nothing has to be sent of these."""
        with self._lock:
            self._unmark(places, OWN_EDIT)
            self.withdrawn = max(self.withdrawn, number)

    def fold(self, places: Iterable[int]) -> None:
        """Takes over that what is at these places is folded in something that is in the file for good: the log isn't to be given it, nor
        has it lost it."""
        with self._lock:
            places = [*places]
            self._mark(places, FOLDED)
            self._given.difference_update(places)

    def is_folded(self, place: int) -> bool:
        """Whether what is at a place is folded."""
        with self._lock:
            return bool(self._of(place) & FOLDED)

    def took_out(self, places: Iterable[int]) -> None:
        """What is at these places, which is folded, was taken out of the log."""
        with self._lock:
            self._unmark(places, IN_LOG)

    def begin(self) -> None:
        """The log is to be read from its front."""
        with self._lock:
            self._marks, self.lettings = self._marks.translate(_AFTER_BEGIN), self.lettings + 1
            self._given.clear()
            self._first = 1

    def read(self, places: Iterable[int]) -> None:
        """These places were read in the log."""
        with self._lock:
            places = [*places]
            self._mark(places, WAS_READ)
            self._given.difference_update(places)

    def missing(self) -> list[int]:
        """The places that the log had as `begin` was called, and that weren't read there since."""
        with self._lock:
            return [place for place, mark in enumerate(self._marks) if mark & (IN_LOG | FOLDED) == WAS_HAD]

    def end(self) -> None:
        """All that the log had as `begin` was called was read; it isn't known to have any more what is missing."""
        with self._lock:
            self._marks, self.lettings = self._marks.translate(_AFTER_END), self.lettings + 1
            self._unsent = self._marks.count(OWN_EDIT)
            self._first = 1
            self.whole += 1

    def gave(self, places: Iterable[int]) -> None:
        """The log was given these places, and has said that it has them."""
        with self._lock:
            places = [place for place in places if not self._of(place) & WAS_READ]
            self._mark(places, WAS_GIVEN)
            self._given.update(place for place in places if not self._of(place) & FOLDED)

    def given(self) -> frozenset[int]:
        """What the log was given and wasn't read there yet."""
        with self._lock:
            return frozenset(self._given)

    def many_given(self) -> int:
        """How much the log was given and wasn't read there yet."""
        return len(self._given)

    def came_to_end(self, given: frozenset[int]) -> int:
        """The log was read to its end, and had been given this before. What wasn't read there it has lost, isn't known to
        have any more, and isn't to be given until `lets_go` is called; how many places these are."""
        with self._lock:
            lost = given & self._given
            self._given -= lost
            self._mark(lost, HELD_BACK)
            self._unmark(lost, WAS_GIVEN)
            return len(lost)

    def lets_go(self) -> None:
        """What is held back is lacking again."""
        with self._lock:
            self._marks, self.lettings = self._marks.translate(_LET_GO), self.lettings + 1
            self._first = 1

    def next_lacking(self) -> int | None:
        """The first place that was looked at, that the log isn't known to have, and that isn't held back."""
        with self._lock:
            found = [place for mark in (0, OWN_EDIT) if (place := self._marks.find(mark, self._first)) >= 0]
            self._first = min(found, default=len(self._marks))
            return self._first if self._first <= self.looked else None

    def is_given(self) -> bool:
        """Whether the log was read whole, and is known to have all that it is to have of what was looked at."""
        return self.whole > 0 and self.next_lacking() is None

    def holds_back(self, places: Iterable[int], lettings: int) -> None:
        """These places weren't to be given, or had nothing, when all had been let go this often."""
        with self._lock:
            if lettings == self.lettings:
                self._mark(places, HELD_BACK)

    def _of(self, place: int) -> int:
        return self._marks[place] if place < len(self._marks) else 0

    def _grow(self, last: int) -> None:
        self._marks.extend(bytes(max(0, last + 1 - len(self._marks))))

    def _mark_own(self, places: Iterable[int]) -> None:
        before = self._unsent
        self._mark(places, OWN_EDIT)
        self._most_unsent += self._unsent - before

    def _mark(self, places: Iterable[int], bit: int) -> None:
        places = [*places]
        self._grow(max(places, default=-1))
        if places and places == [*range(places[0], places[0] + len(places))]:
            stretch = slice(places[0], places[-1] + 1)
            self._unsent -= _many_unsent(self._marks[stretch])
            self._marks[stretch] = self._marks[stretch].translate(_MARKED[bit])
            self._unsent += _many_unsent(self._marks[stretch])
            return
        for place in places:
            self._change(place, self._marks[place] | bit)

    def _unmark(self, places: Iterable[int], bit: int) -> None:
        for place in places:
            if place < len(self._marks):
                self._change(place, self._marks[place] & ~bit)

    def _change(self, place: int, mark: int) -> None:
        self._unsent += (mark & ~HELD_BACK == OWN_EDIT) - (self._marks[place] & ~HELD_BACK == OWN_EDIT)
        self._marks[place] = mark


def _many_unsent(marks: bytearray) -> int:
    """How many of these places have an edit of this person that the log isn't known to have."""
    return marks.count(OWN_EDIT) + marks.count(OWN_EDIT | HELD_BACK)
