"""The engine of a note: it does what editors ask for, answers, and sends them what is new, turn by turn.

docs/ENGINE.md has the protocol. Nothing here reads or writes a line's bytes, or waits for an editor.
"""
import pathlib
import time
from collections.abc import Callable
from itertools import count

from share.engine import protocol
from share.engine.editor import NOT_OPEN, Peer
from share.engine.journal import Journal
from share.engine.others import OtherEditors
from share.engine.protocol import Wrong
from share.engine.shared_note import HANDLERS, SharedNote
from share.program.site import SLICE
from share.program.trace import Traced, trace
from share.store import notes
from share.sync.session import Session
from share.text.line import Line
from share.text.rope import Measured

# The time that one turn spends on taking in what came from others: while editors ask for something, and once none has for a while.
TAKING_SECONDS, CALM_TAKING_SECONDS, CALM_AFTER_SECONDS = 0.06, 0.25, 2.0
# How long it may be put off while editors type.
PUT_OFF_SECONDS = 0.05


class Engine:
    """A note, and the editors that have it open, from before the first one opens it.

    One thread calls all of this and of what it is made of: the one that has the editors' lines, the engine's thread. Of what it is
    handed, `wake` may be called by any thread, and has the engine's call `turn` soon; the engine's thread calls `opens`, and `send`
    in the midst of a call that takes long, so that what editors are sent goes at once.
    """

    def __init__(self, name: str, opens: Callable[[], Session], wake: Callable[[], None], send: Callable[[], None] = lambda: None,
                 clock: Callable[[], float] = time.monotonic, journal: pathlib.Path | None = None):
        self.name, self._opens, self._wake, self._send, self._clock = name, opens, wake, send, clock
        # Where it is noted what the next engine has to know of the editors, if anywhere.
        self._journal = journal
        self.peers: list[Peer] = []
        self._new_who = count(1).__next__
        self._note: SharedNote | None = None
        # When an editor asked for something last, and how long the last turn took beside taking in what came.
        self._asked = self._beside = 0.0
        # When what came was taken in last; whether editors asked for something but edits since, and whether that is put off.
        self._took_in, self._has_asked, self._is_put_off = 0.0, False, False

    @property
    def session(self) -> Session | None:
        """The session of the note, once it is open."""
        return self._note.session if self._note else None

    def joined(self, write: Callable[[bytes], None], waiting: Callable[[], int]) -> Peer:
        """One more editor."""
        peer = Peer(write, waiting, self._new_who(), self._clock)
        self.peers.append(peer)
        trace(Traced.EDITOR_JOINED, editors=len(self.peers))
        return peer

    def left(self, peer: Peer) -> None:
        """One editor less."""
        if peer in self.peers:
            self.peers.remove(peer)
            if self._note:
                self._note.looked.left([peer])
            trace(Traced.EDITOR_LEFT, editors=len(self.peers))

    def take(self, peer: Peer, waiting: list[bytes | None]) -> None:
        """Does what the first of the lines that wait says; None is one that was too long. Edits that follow one
        another are kept together, since what takes longest is to have them on the disk."""
        if peer.is_left:
            waiting.clear()
            return
        request: Line = {}
        self._asked = time.monotonic()
        try:
            request = protocol.parse(waiting.pop(0))
            if self._note:
                self._note.looked.asked(peer, request.get("do"))
            if request.get("do") == "edit" and peer.is_open and self._note:
                for one, made in self._note.edits.make(peer, request, waiting):
                    self._answer(peer, one, made)
                return
            self._has_asked = True
            answer = self._done(peer, request)
        except Exception as fault:  # pylint: disable=broad-except
            # Whatever it is, the other requests go on.
            answer = protocol.failure(fault)
        if answer is not None:
            self._answer(peer, request, answer)

    def turn(self, is_called: bool = True) -> None:
        """Answers, takes in what came from others, and sends the editors what is new. Where nobody but editors that typed called for it
        it is left at the answers for a moment, so that keys in a row are followed by one look at what came."""
        begin, note = time.monotonic(), self._note
        if note and not note.arrivals.is_behind:
            # Nobody waits for what others wrote until his own edit is answered.
            self._for_each(self._flush)
            self._send()
            self._is_put_off = (not (is_called or self._has_asked or note.has_more())
                                and begin < self._took_in + PUT_OFF_SECONDS)
            if self._is_put_off:
                return
        if note:
            note.session.turn_seconds = self._turn_seconds(begin)
            note.take_in()
        self._for_each(self._flush)
        if note:
            self._for_each(note.show)
            self._took_in, self._has_asked = time.monotonic(), False
            self._beside = self._took_in - begin - note.session.turn_seconds
            self._send()
            note.session.tidy()

    def _for_each(self, work: Callable[[Peer], None]) -> None:
        """Does something for each editor. Where it fails for one the others go on."""
        for peer in self.peers:
            try:
                work(peer)
            except Exception as fault:  # pylint: disable=broad-except
                peer.send({"notice": "says", "words": f"This editor is left, since something failed ({fault})."})
                peer.closes = True

    def _turn_seconds(self, now: float) -> float:
        """How long a turn takes in what came, which is no less than the rest of a turn takes."""
        least = TAKING_SECONDS if now < self._asked + CALM_AFTER_SECONDS else CALM_TAKING_SECONDS
        return max(least, min(self._beside, CALM_TAKING_SECONDS))

    def has_more(self) -> bool:
        """Whether some of what came is still to be taken in."""
        return self._note is not None and self._note.has_more()

    def is_restless(self) -> bool:
        """Whether something is to be done or said soon, though nothing comes."""
        is_restless = self._is_put_off or self._note is not None and self._note.is_restless()
        return is_restless or any(peer.has_cursors_to_show for peer in self.peers)

    def progress(self, done: int, total: int) -> None:
        """Says how much of a long history is read."""
        if total > SLICE:
            for peer in self.peers:
                if not peer.is_slow:
                    peer.send({"notice": "opening", "done": done, "of": total})

    def close(self) -> None:
        """Closes the note; what isn't sent stays in its file."""
        if self._note:
            self._note.close()

    def _flush(self, peer: Peer) -> None:
        peer.flush(self._note.text.measured if self._note else Measured(b""))

    def _answer(self, peer: Peer, request: Line, answer: Line) -> None:
        given, what = request.get("id"), request.get("do")
        line: Line = {"answer": what if isinstance(what, str) and _is_known(what) else ""}
        if protocol.is_id(given):
            line["id"] = given
        line |= answer
        if what == "open":
            # What has come since the text that it shows is told after that.
            peer.send(line)
        else:
            peer.answer_later(line)
        if what != "edit":
            # What it says is of the text as it is now.
            self._flush(peer)

    def _done(self, peer: Peer, request: Line) -> Line | None:
        """Does a request; the answer, or None where that comes later."""
        peer.see_that_it_is_served()
        what = request.get("do")
        if not isinstance(what, str) or not _is_known(what):
            raise Wrong("unknown", "There is no such request.")
        if what == "open":
            return self._open(peer, request)
        if what == "close":
            peer.closes = True
            if peer.editor and self._note:
                self._note.remembering.gone(peer.editor)
            return {}
        if not peer.is_open or self._note is None:
            raise Wrong("order", NOT_OPEN)
        return HANDLERS[what](self._note, peer, request)

    def _open(self, peer: Peer, request: Line) -> Line:
        if peer.is_open:
            raise Wrong("order", "The note is open already.")
        units = peer.greet(request)
        if request.get("new") is False and not (self._note or notes.is_here(self.name)):
            raise Wrong("absent", f"There is no note {self.name} here.")
        if not self._note:
            self._note = self._opened()
        self._note.presence.colour(peer)
        self._leave_line_of(peer)
        return self._note.opened(peer, units, request)

    def _leave_line_of(self, peer: Peer) -> None:
        """Does nothing more that came by the line which an editor had before this one: it says itself what it did."""
        for one in self.peers:
            if one is not peer and peer.editor and one.editor == peer.editor:
                one.leave()

    def _opened(self) -> SharedNote:
        session = self._opens()
        journal = Journal(self._journal, session.identity) if self._journal else None
        try:
            note = SharedNote(self.name, session, self.peers, OtherEditors(self._new_who), self._wake, self._answer, self._clock, journal)
        except BaseException:
            if journal:
                journal.stop()
            session.close()
            raise
        session.stands = self._stands
        return note

    def _stands(self, stands: bool) -> None:
        """Says at once that the program stands still, or goes on: until it answers nothing else is said."""
        if self._note:
            self._note.arrivals.is_still = stands
            state = self._note.arrivals.state()
            for peer in self.peers:
                peer.show_state(state)
        self._send()


def _is_known(what: str) -> bool:
    """Whether there is such a request."""
    return what in HANDLERS or what in ("open", "edit", "close")
