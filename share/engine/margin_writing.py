"""What editors have written into the margin: kept on the disk, or refused in words, and shown."""
import time
from collections.abc import Callable, Sequence
from contextlib import suppress
from typing import TypeVar

from share.engine.arrivals import Arrivals
from share.engine.editor import Peer
from share.engine.margins import ShownMargin
from share.engine.protocol import Wrong, once_of
from share.engine.remembering import Remembering
from share.format.operation import Operation
from share.format.presence import MOST_NAME
from share.review.record import MarginKind, MarginRecord, MarginState, Ref
from share.sync.margin import NotOwn
from share.sync.session import Session
from share.text.errors import Refused, Trouble
from share.text.line import Line
from share.text.names import Name

DoneWork = TypeVar("DoneWork")


def id_of(name: Name) -> str:
    """The id of what a record says."""
    return f"{name[0]}:{name[1]}"


class MarginWriting:
    """Writes records. The engine's thread alone calls it."""

    def __init__(self, session: Session, arrivals: Arrivals, shown: ShownMargin, remembering: Remembering):
        self._session, self._arrivals, self._shown, self._remembering = session, arrivals, shown, remembering
        # What names the suggestions that were accepted here, which may have to be named before they are read again.
        self._accepted = dict[Name, Ref]()

    @staticmethod
    def record(kind: MarginKind, peer: Peer) -> MarginRecord:
        """A record of an editor's user, of now."""
        return MarginRecord(kind, peer.name[:MOST_NAME], int(time.time()), "")

    def write(self, record: MarginRecord, site: int | None = None) -> Name:
        """Writes a record, and shows it."""
        self._arrivals.check_typing()
        name = self.kept(lambda: self._session.margin.write(record, site))
        self._shown.look_on()
        return name

    def write_once(self, peer: Peer, request: Line, record: MarginRecord, site: int | None = None) -> str:
        """Write what a request says, and return its id. If the request has a number, it is noted before the record is kept: the next engine
        answers the same request with this id."""
        number = once_of(request) if peer.editor else None

        def notes(name: Name, made: Sequence[Operation]) -> None:
            if number is not None:
                self._remembering.said(peer, number, id_of(name), made)

        self._arrivals.check_typing()
        try:
            name = self.kept(lambda: self._session.margin.write(record, site, notes))
        except Exception:
            if number is not None:
                self._remembering.unsaid(peer, number)
            raise
        self._shown.look_on()
        return id_of(name)

    def accepted(self, peer: Peer, name: Name, is_accepted: bool) -> None:
        """Says that a suggestion is settled, since it was accepted, so that it stays so where its text is deleted later; or that this is
        taken back. The text says whether it is accepted, also where this can't be kept. A large margin that is being read isn't waited
        for: where nobody said that it was accepted, nothing comes of saying that this is taken back."""
        is_read, said = not self._shown.look_on(), self._session.margin.said
        if ref := said.ref(name) or self._accepted.get(name):
            self._accepted[name] = ref
        if ref and (is_accepted or not is_read or said.is_said_accepted(name)):
            state = MarginState.RESOLVED if is_accepted else MarginState.OPEN
            with suppress(Wrong):
                self.write(self.record(MarginKind.STATE, peer)._replace(of=ref, state=state, accepts=is_accepted))

    def kept(self, work: Callable[[], DoneWork]) -> DoneWork:
        """Does what is to be kept on the disk."""
        try:
            return work()
        except NotOwn as why:
            raise Wrong("own", str(why)) from why
        except Refused as why:
            raise Wrong("refused", str(why), number=why.number) from why
        except Trouble as why:
            self._arrivals.catch_up()
            raise Wrong("unkept", str(why)) from why
