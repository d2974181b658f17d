"""Who is on: the editors here and those of others, and where all their cursors are."""
import math
import time
from collections.abc import Sequence

from share.engine import protocol
from share.engine.authors import Authors
from share.engine.colours import least_used, settled
from share.engine.editor import Peer
from share.engine.others import OtherEditors
from share.engine.shared_text import SharedText
from share.format import presence
from share.format.presence import AT_FRONT, NamedPlace, Present
from share.sync.session import Session, Status
from share.text.line import Line

# How long an editor that has met others takes another colour where fewer have that. Who was there before keeps his.
SETTLE_SECONDS = 15.0
# The least time between two looks at what editors here say of themselves, and how many times as long as a look takes it is besides.
SAY_SECONDS, SAY_FACTOR = 0.1, 10


class EditorPresence:
    """What the editors here and those of others say of themselves to each other. The engine's thread alone calls it;
    the session hands what is said to the threads that carry it, and what these heard to this one."""

    def __init__(self, session: Session, peers: Sequence[Peer], text: SharedText, others: OtherEditors, authors: Authors):
        self._session, self._peers, self._text, self._others, self._authors = session, peers, text, others, authors
        # What the editors here say of themselves, when that is looked at again, and whether something is to be said soon.
        self._said: dict[bytes, bytes] = {}
        self._due, self.has_to_say = 0.0, False
        self._has_log = False

    def meet(self, status: Status) -> None:
        """Tells others of the editors here, and takes over what they say of theirs."""
        session, now = self._session, time.monotonic()
        self._has_log = status.has_log
        if status.has_log and now >= self._due:
            self._said = {one.token: self._says(one, status.on > 1) for one in self._peers if one.is_open}
            # To look up the names of a long text takes some time, and is to take a small part of it.
            self._due, self.has_to_say = now + SAY_SECONDS + SAY_FACTOR * (time.monotonic() - now), False
        self._others.heard(session.show(self._said), session.site)
        self._settle(now, status.on > 1)
        # What this person is called nobody else says.
        self._authors.are_called({site: name for site, name in self._others.names().items() if not session.is_own(site)})

    def colour(self, peer: Peer) -> None:
        """Gives an editor a colour whose user has chosen none."""
        if not peer.colour:
            peer.settles = math.inf
            peer.colour = least_used(peer.token, self._colours_but(peer))

    def _settle(self, now: float, is_met: bool) -> None:
        """Has editors whose colours others have take others, for a while from when somebody else is on."""
        for peer in self._peers:
            if peer.is_open and now < peer.settles:
                peer.settles = min(peer.settles, now + SETTLE_SECONDS) if is_met else math.inf
                before, peer.colour = peer.colour, settled(peer.token, self._colours_but(peer), peer.colour)
                self.has_to_say = self.has_to_say or self._has_log and peer.colour != before

    def _colours_but(self, peer: Peer) -> list[str]:
        """The colours of all others who are on."""
        return [one.colour for one in self._peers if one is not peer and one.is_open] + self._others.colours()

    def _says(self, peer: Peer, is_heard: bool) -> bytes:
        """What an editor says of itself; where its cursor is, if somebody is there to hear it."""
        cursor, anchor = (self._named_place(place) if is_heard else None for place in (peer.cursor, peer.anchor))
        return presence.presence_of(Present(self._session.token(), peer.token, self._session.number, peer.colour, cursor, anchor,
                                            peer.name))

    def _named_place(self, place: int | None) -> NamedPlace | None:
        """The character before a place, by its name."""
        if not place:
            return None if place is None else AT_FRONT
        found = self._session.site.names(place - 1, min(place, self._text.measured.size))
        return (found[0].site, found[0].at) if found else None

    def cursor(self, peer: Peer, request: Line) -> Line:
        """Does the request `cursor`."""
        version = protocol.number(request, "version")
        if peer.transformer.is_past(version):
            return {}
        peer.transformer.seen(version)
        at = protocol.number(request, "at")
        ends = [at] + ([protocol.number(request, "anchor")] if "anchor" in request else [])
        # What comes in where a selection ends isn't selected.
        cursor, *others = [self._text.place(peer, one) if one > min(ends) else self._text.cursor(peer, one) for one in ends]
        anchor = others[0] if others else None
        peer.coalescing.cursor_is(cursor)
        if peer.gap and cursor != peer.gap.place:
            peer.gap = None
        peer.cursor, peer.anchor = cursor, anchor
        self.has_to_say = self._has_log
        return {}

    def people(self) -> Line:
        """Does the request `on`."""
        site = self._session.number
        here = [{"who": one.who, "name": one.name, "colour": one.colour, "site": site, "own": True}
                for one in self._peers if one.is_open]
        return {"people": here + self._others.people()}

    def cursors_for(self, peer: Peer) -> list[Line]:
        """The cursors of all but an editor, in its units."""
        if not peer.is_open:
            return []
        units, found = peer.transformer.units, []
        for one in self._peers:
            if one is not peer and one.is_open and one.cursor is not None:
                line = {"who": one.who, "name": one.name, "colour": one.colour,
                        "at": self._text.measured.position(one.cursor, units)}
                if one.anchor is not None:
                    line["anchor"] = self._text.measured.position(one.anchor, units)
                found.append(line)
        return found + self._others.cursors(lambda place: self._text.measured.position(place, units))
