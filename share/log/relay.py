"""A log at a relay, for all who reach it, by HTTPS alone. The relay takes entries only of those who prove to have the note's link; and it
may be anyone's, so each answer is looked at."""
import re
import threading
from collections import deque
from collections.abc import Callable, Sequence
from contextlib import closing, nullcontext

from share.format.entry import Form
from share.format.link import OF_SECOND_FORM_ALONE
from share.format.second.form import SealedRecords
from share.log.base import MOST_ON, START, InLog, Log, LogLost, PresenceChannel, Unreachable
from share.log.bell import Bell
from share.log.page_size import PageSize
from share.log.relay_line import RelayLine
from share.log.relay_messages import MOST_BYTES_OF_PAGE, RelayPage, in_messages
from share.text.errors import Trouble

# The most bytes of entries that came unasked and weren't read yet, and what one takes in memory beside its own.
MOST_FOLLOWING, OVERHEAD_OF_ENTRY = MOST_BYTES_OF_PAGE, 200
# A place of a relay's, and how many entries there are up to it.
RELAY_PLACE = re.compile(r"([!-~]{1,64})/([0-9]{1,18})")
BROKEN = "the connection broke"


class RelayLogs:
    """Opens a note's log at a relay, as often as it is called: those that are open at once have one line."""

    def __init__(self, url: str, form: Form):
        if not isinstance(form, SealedRecords):
            raise Trouble(f"{OF_SECOND_FORM_ALONE} bin/note renew NAME --log {url} copies the note NAME into one.")
        self._url, self._form = url, form
        self._lock, self._users = threading.Lock(), 0
        self._line: RelayLine | None = None

    def __call__(self) -> "RelayLog":
        with self._lock:
            line = self._line = self._line or RelayLine(self._url, self._form)
            self._users += 1
        try:
            line.check()
            return RelayLog(line, self._leave)
        except BaseException:
            self._leave()
            raise

    def _leave(self) -> None:
        with self._lock:
            self._users -= 1
            if not self._users and self._line:
                self._line.close()
                self._line = None


class Following:
    """What a relay has told of a log beyond what was read of it. The line's thread puts it in, the log's takes it out."""

    def __init__(self) -> None:
        self.bell, self._lock = Bell(), threading.Lock()
        self._pages, self._bytes = deque[RelayPage](), 0
        # Whether there may be more than these pages; and what the relay tells besides.
        self._has_more, self._told = False, ""

    def came(self, page: RelayPage) -> None:
        """Entries came."""
        with self._lock:
            self._bytes += _memory_of(page)
            if page.entries and self._bytes <= MOST_FOLLOWING:
                self._pages.append(page)
            else:
                self._has_more = True
        self.bell.ring()

    def said(self, presence: bytes) -> None:
        """Presence isn't followed here."""

    def told(self, words: str) -> None:
        """The relay tells something."""
        with self._lock:
            self._told = words
        self.bell.ring()

    def take_told(self) -> str:
        """What it told last, once."""
        with self._lock:
            words, self._told = self._told, ""
            return words

    def broke(self) -> None:
        """The line broke."""
        with self._lock:
            self._has_more = True
        self.bell.ring()

    def has(self) -> bool:
        """Whether there is something to read."""
        with self._lock:
            return bool(self._pages) or self._has_more

    def take(self, after: str) -> RelayPage | None:
        """The page that goes on after a place; None where the relay has to be asked, and then nothing else is kept."""
        with self._lock:
            self.bell.silence()
            if self._pages and self._pages[0].after == after and not self._has_more:
                page = self._pages.popleft()
                self._bytes -= _memory_of(page)
                return page
            self._pages.clear()
            self._bytes, self._has_more = 0, False
            return None


class RelayLog(Log):
    """A log at a relay, by a line that other logs of the note may use, too."""

    # The relay itself says what is new, and looks whether something was lost.
    watch_seconds = 60.0

    def __init__(self, line: RelayLine, left: Callable[[], None]):
        self._line, self._left = line, left
        self._size, self._following = PageSize(), Following()
        # Where it was read to the end, so that the relay says what is new.
        self._at: str | None = None
        line.add(self._following)

    def append(self, raws: Sequence[bytes]) -> None:
        for part in in_messages(raws):
            self._line.append(part)

    def read(self, after: str) -> list[InLog]:
        place, count = _relay_place(after)
        page = self._following.take(place) or self._asked(place)
        places = [one.place for one in page.entries]
        if len({*places, place}) != len(places) + 1 or not (places or page.at_end):
            raise self._line.strange()
        # They can't be more or fewer: the relay tells how many there are in one breath with the last ones.
        if page.at_end and page.size != count + len(places):
            raise LogLost(f"{self._line.url} has lost entries.") if after != START else self._line.strange()
        self._at = (places or [place])[-1] if page.at_end else None
        self.at_end = page.at_end and not self._following.has()
        return [InLog(f"{one.place}/{number}", one.raw) for number, one in enumerate(page.entries, count + 1)]

    def watch(self, after: str, seconds: float, bell: Bell | None = None) -> None:
        place, _ = _relay_place(after)
        if place != self._at and (page := self._asked(place)).entries:
            self._following.came(page)
            return
        self._at = place
        if not self._following.has():
            with nullcontext(bell) if bell else closing(Bell()) as waking:
                waking.waits(seconds, self._following.bell)

    def told(self) -> str:
        return self._following.take_told()

    def size(self) -> int:
        return self._line.read(0, START).size

    def size_to(self, after: str) -> int:
        # The reading that came to this place has seen that they are there.
        return _relay_place(after)[1]

    def meet(self, token: bytes, presence: bytes) -> list[bytes]:
        # There is no table: who doesn't hear the channel can't reach the relay.
        self._line.check()
        return []

    def channel(self) -> "RelayChannel":
        return RelayChannel(self._line)

    def leave(self, token: bytes) -> None:
        pass

    def close(self) -> None:
        self._line.remove(self._following)
        self._following.bell.close()
        self._left()

    def _asked(self, place: str) -> RelayPage:
        # Where this fails nothing comes unasked, either.
        self._at = None
        room = min(self._size.room, self.most_read)
        with self._size.timed():
            return self._line.read(room, place)


class RelayChannel(PresenceChannel):
    """What is said to all who are at a note of a relay's, which keeps nothing of it."""

    def __init__(self, line: RelayLine):
        self._line, self._bell = line, Bell()
        # What was said last, the first of it is forgotten where nobody hears it; and whether the line broke.
        self._heard, self._broke = deque[bytes](maxlen=MOST_ON), False
        try:
            line.check()
        except BaseException:
            self._bell.close()
            raise
        line.add(self)

    def say(self, presence: bytes) -> None:
        if self._broke:
            raise Unreachable(f"{self._line.url}: {BROKEN}")
        self._line.say(presence)

    def hear(self, seconds: float, bell: Bell) -> list[bytes]:
        if not (self._heard or self._broke):
            bell.waits(seconds, self._bell)
        self._bell.silence()
        found = [self._heard.popleft() for _ in range(len(self._heard))]
        if self._broke and not found:
            raise Unreachable(f"{self._line.url}: {BROKEN}")
        return found

    def close(self) -> None:
        self._line.remove(self)
        self._bell.close()

    def came(self, page: RelayPage) -> None:
        """Entries aren't heard here."""

    def said(self, presence: bytes) -> None:
        """Presence came."""
        self._heard.append(presence)
        self._bell.ring()

    def told(self, words: str) -> None:
        """What isn't presence isn't heard here."""

    def broke(self) -> None:
        """The line broke."""
        self._broke = True
        self._bell.ring()


def _memory_of(page: RelayPage) -> int:
    """About how many bytes a page takes."""
    return sum(len(one.raw or b"") + OVERHEAD_OF_ENTRY for one in page.entries)


def _relay_place(after: str) -> tuple[str, int]:
    """The relay's spelling of a place, and how many entries there were up to it."""
    if after == START:
        return START, 0
    if not (found := RELAY_PLACE.fullmatch(after)):
        raise LogLost("The place after which was to be read is another log's.")
    return found[1], int(found[2])
