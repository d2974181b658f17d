"""A note's entries as a relay keeps them: its log, which one thread alone has open, and looks whether it was lost or others wrote to it."""
import contextlib
from collections.abc import Sequence
from typing import NamedTuple

from share.log.base import START, InLog, Log, LogLost
from share.relay.shelf import Shelf

# Of more new entries than so many bytes it is only said that they are there.
MOST_NEWS = 2**16


class NoteIsFull(Exception):
    """The log has as many bytes as it may have."""


class NoSuchPlace(Exception):
    """The log stands, and has no such place, or not any more."""


class News(NamedTuple):
    """What is new in a log after a place; nothing where that is much. Where it ends now, and how many entries it has."""

    after: str
    entries: Sequence[InLog]
    end: str
    size: int

    def is_empty(self) -> bool:
        """Whether nothing is new."""
        return self.after == self.end


class Reading(NamedTuple):
    """What stands after a place, whether that is all, and what was new by then."""

    entries: Sequence[InLog]
    at_end: bool
    news: News


class KeptNote:
    """The log of a note, from one thread."""

    def __init__(self, shelf: Shelf, note: bytes, most_bytes: int):
        self._shelf, self._note, self._most_bytes = shelf, note, most_bytes
        self._log: Log | None = None
        # Where the log ended as it was looked at last, and how many entries it had; and how many were taken out before it was opened.
        self._end, self._size, self._taken_out = START, 0, 0

    def is_there(self) -> bool:
        """Whether something of the note is kept."""
        return self._log is not None or self._shelf.has(self._note)

    def append(self, raws: Sequence[bytes]) -> News:
        """Appends entries so that they last; what is new by that."""
        try:
            log = self._log or self._opened()
            if log.bytes_kept() + sum(map(len, raws)) > self._most_bytes:
                raise NoteIsFull
            log.append(raws)
            return self._news(log)
        except LogLost:
            self.close()
            raise

    def read(self, after: str, most: int) -> Reading:
        """What stands after a place, of no more bytes unless one entry alone has more."""
        news, log = self.look(), self._log
        if not log:
            if after != START:
                raise NoSuchPlace
            return Reading([], True, news)
        log.most_read = most
        try:
            page = log.read(after) if after != self._end else []
            self._check(log)
        except LogLost as why:
            # The log itself was just seen to stand.
            raise NoSuchPlace from why
        return Reading(page, (page[-1].place if page else after) == self._end, news)

    def look(self) -> News:
        """Looks at the log; what is new."""
        try:
            if not self._log and self._shelf.has(self._note):
                self._opened()
            return self._news(self._log) if self._log else News(START, [], START, 0)
        except LogLost:
            self.close()
            raise

    def close(self) -> None:
        """Lets go of the log, which is opened again as it is needed."""
        if self._log:
            self._log.close()
        self._log, self._end, self._size = None, START, 0

    def _opened(self) -> Log:
        with contextlib.ExitStack() as failing:
            log = failing.enter_context(contextlib.closing(self._shelf.open(self._note)))
            self._end, self._size = log.end()
            self._taken_out = log.taken_out
            failing.pop_all()
        self._log = log
        return log

    def _check(self, log: Log) -> None:
        """Sees that nothing was taken out since: else those who read to the end counted more entries than those who begin."""
        if log.taken_out != self._taken_out:
            raise LogLost("Entries were taken out of a log that the relay had open: all read it from the front.")

    def _news(self, log: Log) -> News:
        before, found, room = self._end, list[InLog](), MOST_NEWS
        log.most_read = MOST_NEWS
        while page := log.read(self._end):
            self._end, self._size = page[-1].place, self._size + len(page)
            room -= sum(len(one.raw or b"") for one in page)
            found = [*found, *page] if room > 0 else []
        self._check(log)
        return News(before, found, self._end, self._size)
