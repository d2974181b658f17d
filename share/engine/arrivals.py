"""The taking in of what came from others, and what editors are told of how things are."""
from collections.abc import Callable, Sequence
from contextlib import suppress

from share.engine.authors import Authors
from share.engine.editor import Peer
from share.engine.protocol import Wrong, failure
from share.engine.shared_text import SharedText
from share.program import retyping
from share.store import renewal
from share.sync.session import Session, Status
from share.text.line import Line

NOT_NOW = "The program doesn't answer. It is tried again; what was typed before is kept."
STILL = "The program stands still. It is started again with all that it had."
NO_NUMBER = "This editor has no number of its own yet, which it gets once the log answers."


class Arrivals:
    """What comes from the log and from this person's other editors; whether the site shows what the editors do. The engine's
    thread alone calls it, also where the program stands still, which is said in the midst of a call of the session's."""

    def __init__(self, note: str, session: Session, peers: Sequence[Peer], text: SharedText, authors: Authors):
        self._note, self._session, self._peers, self._text, self._authors = note, session, peers, text, authors
        self.status: Status = session.status()
        self._number = session.number
        # Has an editor's steps of undo be forgotten.
        self.forgets: Callable[[Peer], None] = lambda peer: peer.undoing.forget()
        # Whether the site may show something else, since it failed as something was made there.
        self.is_behind = False
        # Why what comes can't be taken in, where it can't; and whether the program stands still.
        self.trouble: str | None = None
        self.is_still = False
        # How many characters of others are left out, and whether the note was renewed, as far as it was told.
        self._left_out, self._is_renewed = 0, False

    def take_in(self) -> None:
        """Takes in what came, as far as there is time, and shows it."""
        session = self._session
        if self.is_behind:
            self._text.become(session.text())
            self.is_behind = False
        self._text.show(session.arrived())
        self.look_at_number()
        for words in session.notices():
            self._tell(words)
        self.status = session.status()
        if self.status.renewed and not self._is_renewed:
            self._is_renewed = True
            self._tell(renewal.renewed_in_words(self.status.renewed))
        self._tell_what_is_left_out(self.status.left_out)

    def failed(self, fault: Exception) -> None:
        """Notes that it couldn't be taken in. What is here can be read and saved all the same, and it is tried again."""
        self.trouble, self.is_behind = failure(fault)["words"], True

    def catch_up(self) -> None:
        """Shows what the site does, now or as soon as the program answers."""
        self.is_behind = True
        with suppress(Exception):
            self._text.become(self._session.text())
            self.is_behind = False

    def look_at_number(self) -> None:
        """Forgets what could be undone where the site has another number: the names of what was typed are the old one's."""
        number = self._session.number
        if number != self._number:
            self._number = number
            for peer in self._peers:
                self.forgets(peer)
                peer.gap = None
            self._authors.are_called({number: peer.name for peer in self._peers if peer.name})

    @property
    def no_number(self) -> str:
        """Why nothing can be typed, where the site has no number. One that was found needs the log, too."""
        needs_log = self.status.searching and self.status.offline
        return NO_NUMBER if needs_log else self._session.why_no_number or NO_NUMBER

    def check_typing(self) -> None:
        """Raises Wrong where nothing can be typed now."""
        if not self._session.can_type:
            raise Wrong("number", self.no_number)
        if self.is_behind:
            raise Wrong("failed", NOT_NOW)

    def _tell_what_is_left_out(self, left_out: list[Line]) -> None:
        """Tells all where more of others' text is left out than before; own edits are made anew by themselves."""
        others = [line for line in self._authors.with_names(left_out) if not line["own"]]
        many = sum(line["characters"] for line in others)
        if many > self._left_out:
            self._tell(retyping.telling(others, self._note))
        self._left_out = many

    def _tell(self, words: str) -> None:
        """Tells all users something."""
        for peer in self._peers:
            if peer.is_open:
                peer.say(words)

    def state(self) -> Line:
        """The notice `state`."""
        status = self.status
        log = ("none" if not status.has_log else "away" if status.offline else "sending" if status.unsent else "sent")
        others = sum(1 for one in self._peers if one.is_open) - 1
        state: Line = {"log": log, "unsent": status.unsent, "on": status.on + max(0, others),
                       "types": status.can_type, "waiting": status.waiting, "site": status.site}
        # How things are is as it was when something could be taken in last.
        for name, words in ("why", status.offline), ("trouble", STILL if self.is_still else self.trouble or status.trouble):
            if words:
                state[name] = words
        if status.left_out:
            state["left_out"] = self._authors.with_names(status.left_out)
        if status.renewed:
            state["renewed"] = status.renewed
        for name, is_so in ("unproved", status.unproved), ("searching", status.searching):
            if is_so:
                state[name] = True
        if status.reading:
            state["read"], state["of"] = status.reading
        return state
