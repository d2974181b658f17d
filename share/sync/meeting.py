"""Who is on, through a log, and what each of them lacks."""
import threading
import time
from collections.abc import Callable, Iterable, Iterator, Sequence
from itertools import chain

from share.format import heartbeat
from share.format.entry import Form
from share.format.heartbeat import Hears, Lack, Said, Way
from share.log.base import Log
from share.store.note_file import Disk
from share.sync.heard import Others
from share.sync.turns import LacksInTurn

# The pause before the others are asked for more of what is missing, which doubles up to a most each time that all of it was asked for; and
# how many times as long as it takes to choose what to ask for it is at least.
ASK_SECONDS, MOST_ASK_SECONDS, RESTS_FROM_CHOOSING = 2, 600, 20
# How often what stands where an entry is damaged is asked for, and the most such places.
ASKS_FOR_DAMAGED, MOST_DAMAGED = 3, 100
# The pause between two readings of the whole file for those who ask, however many they are.
WHOLE_ANSWER_SECONDS = 30
# The most entries that others lack and that are remembered, and of those after one that are given in one go.
MOST_WANTED, WANTED_AT_ONCE = 50, 200


class Meeting:
    """Says that this replicator is on and what it lacks, and hears the same of others. The presence's thread says and hears;
    the giver's calls `answers`, the editor's `ask`, and the fetcher's `damaged`."""

    def __init__(self, form: Form, token: bytes, counts: Iterator[int], wake: Callable[[], None]):
        self.on, self.others = 1, Others(token)
        # Called by any thread, as soon as there is something to ask for.
        self.has_to_ask: Callable[[], None] = lambda: None
        self._form, self._token, self._counts, self._wake = form, token, counts, wake
        # How often the others were asked, and from when on they are asked again; what they are asked for now, and all that was lacking
        # last, until some of it is asked for.
        self._asks, self._asked = 0, 0.0
        self._lacks: Sequence[Lack] = ()
        self._lacked: Sequence[bytes] = ()
        self._turns = LacksInTurn()
        # The entries after which something damaged came, and how often that is to be asked for yet.
        self._damaged: dict[bytes, int] = {}
        # What others have asked for.
        self._lock = threading.Lock()
        self._wanted: dict[Lack, None] = {}
        # The hashes of what others want and name otherwise, which the editor's thread knows; and what it may be that is before it.
        self._found: list[bytes] = []
        self._after: dict[Lack, None] = {}
        # From when on it is looked at again what follows an entry.
        self._answers_again = 0.0

    def is_on(self, many: int) -> None:
        """Takes over how many are on."""
        if many != self.on:
            self.on = max(1, many)
            self._wake()

    def ask(self, lacked: Callable[[], Iterable[bytes]]) -> None:
        """Asks all who are on for some entries of these hashes, by turns, the next time that something is said. Who asks for the same
        often does so ever more rarely."""
        if not self._lacked and time.monotonic() >= self._asked:
            self._lacked = [*lacked()]
            self.has_to_ask()

    def damaged(self, before: Iterable[bytes]) -> None:
        """Asks the others for what stands after these entries, where something damaged came."""
        self._damaged |= dict.fromkeys([*before][:MOST_DAMAGED - len(self._damaged)], ASKS_FOR_DAMAGED)
        if self._damaged:
            self.has_to_ask()

    def asks(self) -> bool:
        """Whether the others are to be asked for more now."""
        return bool(self._lacked or self._damaged) and time.monotonic() >= self._asked

    def heartbeat(self, hears: Hears) -> bytes:
        """What this one says of itself."""
        # What others hear first under its token asks for nothing.
        if hears is not Hears.CHANNEL_FROM_NOW and self.asks():
            self._ask_for_more()
        return self._form.presence(heartbeat.heartbeat_of(Said(self._token, next(self._counts), self._asks, self._lacks, hears)))

    def meet(self, log: Log, hears: Hears) -> list[bytes]:
        """Say it in the table; return what all say there."""
        return log.meet(self._token, self.heartbeat(hears))

    def leave(self, log: Log) -> None:
        """Say in the table that this one is there no more."""
        log.leave(self._token)

    def heard(self, said: Iterable[bytes]) -> None:
        """Takes over what was said by the channel."""
        self._take(self.others.heard(said))

    def met(self, said: Iterable[bytes]) -> None:
        """Takes over what all say in the table."""
        self._take(self.others.met(said))

    def _take(self, asked: Sequence[Lack]) -> None:
        with self._lock:
            for one in asked[:MOST_WANTED - len(self._wanted)]:
                self._wanted[one] = None
            if self._form.names_messages:
                self._after |= {one: None for one in asked[:MOST_WANTED - len(self._after)] if one.way is Way.AFTER}
        if asked and self._form.names_messages:
            self._wake()
        self.is_on(self.others.on)

    def answers(self, disk: Disk) -> list[int]:
        """Return the places of what others lack."""
        wanted = self._take_wanted()
        with self._lock:
            found, self._found = self._found, []
        places = {*disk.entries.places_of(found + [one.hash for one in wanted if one.way is Way.IT]).values()}
        return sorted(places | {*disk.entries.places_after([one.hash for one in wanted if one.way is Way.AFTER], WANTED_AT_ONCE)})

    def find(self, found: Callable[[Lack], list[bytes]]) -> None:
        """Finds what others want and ask for by what names a message or a claim, where a file knows its entries by their hashes."""
        if (self._wanted or self._after) and self._form.names_messages:
            with self._lock:
                named = [one for one in self._wanted if one.way is Way.IT]
                self._found += chain.from_iterable(map(found, [*named, *self._after]))
                self._after.clear()
                for one in named:
                    del self._wanted[one]

    def _take_wanted(self) -> list[Lack]:
        """What others want and is to be looked for now."""
        with self._lock:
            # What is named by a message is found by the editor's thread.
            named = [one for one in self._wanted if one.way is Way.IT and self._form.names_messages]
            later = [one for one in self._wanted if one.way is Way.AFTER]
            wanted = [*self._wanted]
            if later and time.monotonic() >= self._answers_again:
                self._answers_again, later = time.monotonic() + WHOLE_ANSWER_SECONDS, []
            self._wanted = dict.fromkeys([*named, *later])
            return [one for one in wanted if one not in self._wanted]

    def _ask_for_more(self) -> None:
        """Puts some of what is lacked now into what is said next."""
        begin, lacked = time.thread_time(), self._lacked
        self._lacks = self._turns.next([Lack(Way.IT, of) for of in lacked] + [Lack(Way.AFTER, of) for of in [*self._damaged]])
        for _, of in self._lacks:
            if (times := self._damaged.pop(of, 0) - 1) > 0:
                self._damaged[of] = times
        self._asks += 1
        pause = min(ASK_SECONDS * 2**self._turns.rounds, MOST_ASK_SECONDS)
        self._asked, self._lacked = time.monotonic() + max(pause, RESTS_FROM_CHOOSING * (time.thread_time() - begin)), ()
