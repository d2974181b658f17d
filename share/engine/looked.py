"""When this person looked at the note: as an editor was closed, and as all editors were left alone for a while."""
import time
from collections.abc import Callable, Iterable, Sequence
from typing import NamedTuple

from share.engine.editor import Peer
from share.format.history import Messages
from share.store import seen
from share.store.seen import Look
from share.sync.session import Session

# How long nobody asks for something who is left alone.
ALONE_SECONDS = 300.0
# What editors ask for by themselves, as others type.
BY_THEMSELVES = {"seen", "text", "on", "who", "changed", "remarks"}


class _Moment(NamedTuple):
    """A time by the engine's clock and in seconds since 1970, and what was shown then: the first messages of a history."""

    clock: float
    time: int
    history: Messages
    length: int


class PersonsLooks:
    """The looks of this person at a note. A script's edits are none. The engine's thread alone calls it."""

    def __init__(self, note: str, session: Session, clock: Callable[[], float]):
        self._note, self._session, self._clock = note, session, clock
        self._kept: list[Look] | None = None
        # Whether somebody asked for something since the last turn; and when that was last, unless it is kept as a look.
        self._is_asked = False
        self._asked: _Moment | None = None

    def asked(self, peer: Peer, what: object) -> None:
        """Notes that an editor asked for something, perhaps as its user wanted it."""
        self._is_asked |= self._shows(peer) and isinstance(what, str) and what not in BY_THEMSELVES

    def left(self, peers: Iterable[Peer]) -> None:
        """Keeps a look, since editors are closed."""
        if any(map(self._shows, peers)):
            self._keep(self._now())
            self._is_asked, self._asked = False, None

    def turn(self) -> None:
        """Keeps a look of when somebody asked for something last, if that is long ago: what came since nobody may have seen."""
        if self._is_asked:
            self._is_asked, self._asked = False, self._now()
        elif self._asked and self._clock() - self._asked.clock >= ALONE_SECONDS:
            self._keep(self._asked)
            self._asked = None

    def looks(self, until: int | None = None) -> Sequence[Look]:
        """The looks, the earliest first; up to the last one that is no later than a time."""
        return up_to(self._all(), until)

    @staticmethod
    def _shows(peer: Peer) -> bool:
        """Whether somebody sees the note in an editor."""
        return peer.is_open and not peer.is_script

    def _all(self) -> list[Look]:
        if self._kept is None:
            self._kept = seen.looks_at(self._note, self._session.identity)
        return self._kept

    def _now(self) -> _Moment:
        history = self._session.site.history
        return _Moment(self._clock(), int(time.time()), history, len(history))

    def _keep(self, moment: _Moment) -> None:
        look = Look(moment.time, seen.fronts_in(moment.history[:moment.length]))
        self._kept = seen.with_look(self._all(), look)
        seen.keep_looks(self._note, self._session.identity, self._kept)


def up_to(looks: Sequence[Look], until: int | None) -> Sequence[Look]:
    """The first looks, up to the last one that is no later than a time, where one is given."""
    return looks if until is None else looks[:max((number for number, one in enumerate(looks, 1) if one.time <= until), default=0)]
