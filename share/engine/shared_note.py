"""A note that is open, in its parts: the text, who is on, what comes, what is typed, and the history."""
from collections.abc import Callable, Sequence
from contextlib import ExitStack, suppress

from share.engine import protocol
from share.engine.arrivals import Arrivals
from share.engine.authors import Authors
from share.engine.by_name import ByName
from share.engine.changes import Changes
from share.engine.editor import Peer
from share.engine.edits import EditRequests
from share.engine.formatting import Formatting
from share.engine.history import History
from share.engine.journal import Journal
from share.engine.looked import PersonsLooks
from share.engine.others import OtherEditors
from share.engine.presence import EditorPresence
from share.engine.protocol import Wrong
from share.engine.rejoining import Again, Rejoining
from share.engine.remembering import Remembering
from share.engine.reviewing import OF_A_THREAD, Reviewing
from share.engine.shared_text import SharedText
from share.store import atomic
from share.sync.session import Session
from share.text.line import MOST_LINE, Line
from share.text.looks import COLOURS
from share.text.units import Units


class SharedNote:
    """A note that editors have open. The engine's thread alone calls it; `wake` is called by any."""

    def __init__(self, name: str, session: Session, peers: Sequence[Peer], others: OtherEditors, wake: Callable[[], None],
                 answer: Callable[[Peer, Line, Line], None], clock: Callable[[], float], journal: Journal | None = None):
        self.name, self.session, self._peers = name, session, peers
        self.formatting = Formatting()
        self.text = SharedText(session, peers, [others.moved, lambda change, _: self.formatting.moved(change),
                                                lambda change, names: self.reviewing.moved(change, names)])
        self.authors = Authors(name, session)
        self.arrivals = Arrivals(name, session, peers, self.text, self.authors)
        self.presence = EditorPresence(session, peers, self.text, others, self.authors)
        self.remembering = Remembering(session, peers, journal)
        self.remembering.is_behind = lambda: self.arrivals.is_behind
        self.arrivals.forgets = self.remembering.forgets
        self.edits = EditRequests(session, self.text, self.arrivals, self.remembering)
        self.by_name = ByName(session, self.text, self.arrivals, self.authors, self.remembering)
        self.rejoining = Rejoining(session, self.text, self.arrivals, self.edits, self.remembering)
        self.history = History(session, self.text, self.authors, wake, answer)
        self.looked = PersonsLooks(name, session, clock)
        self.changes = Changes(session, self.text, self.authors, self.looked, self.history.answer_when_done)
        self.reviewing = Reviewing(session, self.text, self.arrivals, self.by_name, self.history, answer, self.remembering)

    def take_in(self) -> None:
        """Takes in what came from others, and answers what has been done meanwhile."""
        try:
            self.looked.turn()
            self.arrivals.take_in()
            self.presence.meet(self.arrivals.status)
            if self._sees_looks():
                self.formatting.look(self.session.site)
            self.arrivals.trouble = None
        except Exception as fault:  # pylint: disable=broad-except
            self.arrivals.failed(fault)
        if self.reviewing.has_more or any(peer.sees_remarks for peer in self._peers):
            # Typing goes on where it fails; who asks for the margin is told why.
            with suppress(Exception):
                self.reviewing.look()
        self.history.answer()

    def show(self, peer: Peer) -> None:
        """Sends an editor what is new, but for the text."""
        peer.show_cursors(self.presence.cursors_for(peer))
        peer.show_looks(self.formatting, self.text.measured)
        peer.show_state(self.arrivals.state())
        peer.show_remarks(self.reviewing.notice)

    def has_more(self) -> bool:
        """Whether some of what came is still to be taken in."""
        return self.reviewing.has_more or self.session.has_more() and not self.arrivals.trouble

    def is_restless(self) -> bool:
        """Whether something is to be said soon, though nothing comes."""
        return self.presence.has_to_say or self.formatting.is_due and self._sees_looks()

    def _sees_looks(self) -> bool:
        """Whether an editor shows looks."""
        return any(peer.sees_looks for peer in self._peers)

    def opened(self, peer: Peer, units: Units, request: Line) -> Line:
        """Opens the note for an editor; what it is answered."""
        peer.notes_step = self.remembering.in_step
        if "again" in request:
            more = self.rejoining.open(peer, units, Again.read(request))
        else:
            more = {"text": self.text.measured.text()}
            peer.open(units)
            self.remembering.comes(peer)
        if peer.name:
            self.authors.are_called({self.session.number: peer.name})
        line = {"note": self.name, "units": units.name, **more, "version": peer.transformer.version, "edits": peer.transformer.edits,
                "you": peer.who, "site": self.session.number, "most": MOST_LINE}
        return line | {"colours": COLOURS} if peer.sees_looks else line

    def save(self, request: Line) -> Line:
        """Does the request `save`."""
        path = protocol.string(request, "path")
        if not path.startswith(("/", "~")):
            # The engine's folder is that of whichever editor started it.
            raise Wrong("unsaved", "path has to begin with / or ~.")
        try:
            if request.get("replace") is not True and atomic.exists(path):
                raise Wrong("exists", f"{path} exists.")
            return {"path": str(atomic.save(path, self.text.measured.as_file()))}
        except atomic.NotSaved as why:
            raise Wrong("unsaved", str(why)) from why

    def close(self) -> None:
        """Closes the note; what isn't sent stays in its file."""
        with ExitStack() as closing:
            for close in self.remembering.close, self.session.close, self.reviewing.close, self.history.close:
                closing.callback(close)
            self.looked.left(self._peers)


def _seen(peer: Peer, request: Line) -> Line:
    version = protocol.number(request, "version")
    if not peer.transformer.is_past(version):
        peer.transformer.seen(version)
    return {}


def _send_text(peer: Peer, request: Line) -> Line:
    peer.transformer.void(protocol.number(request, "edits"))
    return {}


# What an editor that has opened the note may ask for, but for edits; None is answered later.
HANDLERS: dict[str, Callable[[SharedNote, Peer, Line], Line | None]] = {
    "undo": lambda note, peer, request: note.by_name.undo(peer, False, request),
    "redo": lambda note, peer, request: note.by_name.undo(peer, True, request),
    "looks": lambda note, peer, request: note.by_name.look(peer, request),
    "cursor": lambda note, peer, request: note.presence.cursor(peer, request),
    "seen": lambda _, peer, request: _seen(peer, request),
    "text": lambda _, peer, request: _send_text(peer, request),
    "on": lambda note, *_: note.presence.people(),
    "who": lambda note, peer, request: note.history.who(peer, request),
    "history": lambda note, peer, request: note.reviewing.after_look(
        peer, request, lambda: note.history.steps(peer, request, note.reviewing.suggested())),
    "past": lambda note, peer, request: note.reviewing.after_look(
        peer, request, lambda: note.history.past(peer, request, note.reviewing.suggested())),
    "changed": lambda note, peer, request: note.changes.changed(peer, request, note.reviewing.suggested),
    "lost": lambda note, *_: note.by_name.lost(),
    "recover": lambda note, *_: note.by_name.recover(),
    "save": lambda note, _, request: note.save(request),
    "remarks": lambda note, peer, request: note.reviewing.remarks(peer, request),
    "remark": lambda note, peer, request: note.reviewing.remark(peer, request),
    "suggest": lambda note, peer, request: note.reviewing.suggest(peer, request),
    **dict.fromkeys(OF_A_THREAD, lambda note, peer, request: note.reviewing.of_a_thread(peer, request)),
}
