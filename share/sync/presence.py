"""Presence: that this replicator is on and what the editors here show of themselves, and the same of others."""
from collections.abc import Iterator
from contextlib import closing

from share.format.entry import Form
from share.sync.heard import Shows
from share.sync.meeting import Meeting
from share.sync.threads import Ends, Task, Threads
from share.sync.ways import BothWays

# Who heard something by the channel rests this long, so that a flood there takes little.
HEARD_SECONDS = 0.1


class Presence:
    """Shows the editors here to others. The editor's thread calls `show` and `shown`; `run` is a thread's part."""

    def __init__(self, ends: Ends, form: Form, counts: Iterator[int], meeting: Meeting, threads: Threads, token: bytes):
        self._ends, self._form, self._counts, self._meeting, self._threads = ends, form, counts, meeting, threads
        self._others = Shows(token)
        # What is shown of the editors here, by their tokens, and what others show.
        self._shows: dict[bytes, bytes] = {}
        self._shown: list[bytes] = []
        self._bell = threads.bell()
        meeting.has_to_ask = self._bell.ring

    def show(self, shows: dict[bytes, bytes]) -> None:
        """Shows others what editors show of themselves, each under a token of its own."""
        if shows != self._shows:
            self._shows = shows
            self._bell.ring()

    def shown(self) -> list[bytes]:
        """What others show of themselves."""
        return self._shown

    def run(self) -> None:
        """Says and hears until all stop."""
        with closing(self._ends.log()) as log:
            # Nothing hangs on it, so that it needn't be on the log's disk.
            log.quick()
            with closing(BothWays(log, self._form, self._counts, self._meeting)) as ways:
                while self._goes_on():
                    self._turn(ways)
                ways.leave()

    def _goes_on(self) -> bool:
        # What the bell rings for is looked at after this.
        self._bell.silence()
        return not self._threads.stopped.is_set()

    def _turn(self, ways: BothWays) -> None:
        """Says what is due, and hears until something else is."""
        seconds, met = ways.say(self._shows)
        self._threads.works(Task.SHOW)
        if met is not None:
            found = self._opened(met)
            self._meeting.met(found)
            self._others.met(found)
            self._show_others()
        if said := ways.hear(seconds, self._bell):
            found = self._opened(said)
            self._meeting.heard(found)
            self._others.heard(found)
            ways.heard()
            self._threads.stopped.wait(HEARD_SECONDS)
        self._show_others()

    def _opened(self, said: list[bytes]) -> list[bytes]:
        return [found for raw in said if (found := self._form.present(raw))]

    def _show_others(self) -> None:
        self._meeting.is_on(self._meeting.others.on)
        shown = self._others.now(self._meeting.others.is_on)
        if sorted(shown) != sorted(self._shown):
            self._shown = shown
            self._threads.wake()
