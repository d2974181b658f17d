"""What changed of a note since this person looked at it, or since another time: the request `changed`."""
from collections.abc import Callable, Set
from typing import NamedTuple, Protocol

from share.admission.fronts import parted, parted_by_causes
from share.engine import protocol
from share.engine.authors import Authors
from share.engine.editor import Peer
from share.engine.looked import PersonsLooks
from share.engine.protocol import Wrong
from share.engine.shared_text import SharedText
from share.engine.track import MovedPlaces
from share.format.history import Messages
from share.program import replay
from share.program.changed import WhatChanged, changed
from share.review.hidden import before_hidden
from share.sync.session import Session
from share.text.change import boundary
from share.text.errors import Trouble
from share.text.line import Line
from share.text.names import Names
from share.text.rope import Measured, readable, swapped
from share.text.units import Units

# The default of what is compared with.
LOOKED = "looked"


class Later(Protocol):
    """What does something in the thread for replays, and answers what is made of it then."""

    def __call__(self, peer: Peer, request: Line, work: Callable[[], WhatChanged], as_line: Callable[[WhatChanged], Line]) -> None: ...


class _Times(NamedTuple):
    """What is compared: the time or place that is told, the messages of the earlier one and those that came since, which may take
    long to find, and whether the later one is now."""

    since: int
    messages: Callable[[], tuple[Messages, Messages]]
    is_now: bool


class Changes:
    """The request `changed`. The engine's thread alone calls it."""

    def __init__(self, session: Session, text: SharedText, authors: Authors, looked: PersonsLooks, later: Later):
        self._session, self._text, self._authors, self._looked, self._later = session, text, authors, looked, later

    def changed(self, peer: Peer, request: Line, suggested: Callable[[], Set[Names]]) -> None:
        """Does the request, in the thread; without replacements that are suggested, as long as they are hidden."""
        transformer = peer.transformer
        transformer.seen(protocol.number(request, "version"))
        times, units = self._times(request, suggested), transformer.units
        # The text goes on meanwhile.
        track, shown = self._text.track(units), self._text.measured.as_note()

        def work() -> WhatChanged:
            found = changed(*times.messages())
            if times.is_now and found.text != shown:
                raise Trouble("What came is being taken in. Ask again.")
            return changed_in_units(found, units)

        def as_line(found: WhatChanged) -> Line:
            line: Line = {"edits": transformer.edits, "since": times.since}
            if not times.is_now:
                return line | {"text": readable(swapped(found.text)), **self._told(found)}
            return line | self._told(_moved(found, track.moves()))

        self._later(peer, request, work, as_line)

    def _times(self, request: Line, suggested: Callable[[], Set[Names]]) -> _Times:
        """What a request compares."""
        since, messages = request.get("since", LOOKED), self._session.site.history[:]
        if isinstance(since, dict) and "at" in since:
            at, until = protocol.number(since, "at"), protocol.number(request, "until", len(messages))
            if not at <= until <= len(messages):
                raise Wrong("outside", f"The history has {len(messages):,} messages, and since and until have to rise.")
            hidden = suggested()

            def between() -> tuple[Messages, Messages]:
                begin, end = (before_hidden(messages, place, hidden) for place in (at, until))
                return messages[:begin], messages[begin:end]
            return _Times(at, between, "until" not in request)
        if isinstance(since, dict) and "time" in since:
            looks = self._looked.looks(protocol.number(since, "time"))
        elif since == LOOKED:
            looks = self._looked.looks()
        else:
            raise Wrong("field", 'since has to be "looked", or to have a time, or at.')
        fronts, is_all = self._session.still_counting(looks)
        part = parted if is_all else parted_by_causes
        return _Times(looks[-1].time if looks else 0, lambda: part(messages, fronts), True)

    def _told(self, found: WhatChanged) -> Line:
        """What changed, as editors are told it."""
        of = self._authors.of
        return {"came": [{"begin": one.begin, "end": one.end, **of(one.site), "by": of(one.by)} for one in found.came],
                "went": [{"at": one.at, "text": readable(swapped(one.data)), **of(one.site), "by": of(one.by)} for one in found.went]}


def changed_in_units(found: WhatChanged, units: Units) -> WhatChanged:
    """What changed, with positions in units."""
    measured = Measured(found.text)
    went = [one._replace(at=measured.position(boundary(found.text, one.at), units)) for one in found.went]
    return WhatChanged(found.text, replay.in_units(measured, found.came, units), went)


def _moved(found: WhatChanged, moves: MovedPlaces) -> WhatChanged:
    """What changed, where it is after the text went on."""
    came = [one._replace(begin=begin, end=end) for one in found.came for begin, end in moves.stretch(one.begin, one.end)]
    return found._replace(came=came, went=[one._replace(at=moves.place(one.at)) for one in found.went])
