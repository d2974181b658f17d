"""Notes of an engine about its editors, for the next engine. Each is written before an editor hears of what it says."""
import zlib
from collections.abc import Callable, Iterable, Iterator, Sequence
from contextlib import suppress

from share.admission.ledger import Branch
from share.admission.lines import Path
from share.engine.editor import Peer
from share.engine.journal import Journal, Unreadable
from share.engine.protocol import ENCODER
from share.engine.remembered import Editors, KeptEdit, MadeMessages, SiteFront, front_differing
from share.format.history import Messages
from share.format.operation import Operation
from share.program.site import Site
from share.review.record import MARGIN
from share.sync.session import Session
from share.text.line import Line
from share.text.names import Names


class HistoryFront:
    """The number of messages of each site that made the text. Only the engine's thread calls it."""

    def __init__(self) -> None:
        self._site: Site | None = None
        self._length = 0
        self._front: SiteFront = {}
        # The front that the journal had last.
        self.told: SiteFront = {}

    def now(self, site: Site) -> SiteFront:
        """Return the numbers of now."""
        if site is not self._site or len(site.history) < self._length:
            self._site, self._length, self._front = site, 0, {}
        if len(site.history) > self._length:
            self._front = dict(self._front)
            for of, seq in _last_of_each(site.history[self._length:]):
                self._front[of] = max(self._front.get(of, 0), seq)
        self._length = len(site.history)
        return self._front

    def more(self, site: Site) -> list[tuple[int, int]]:
        """Return the numbers that differ from those in the journal; from now on these count as written there."""
        before, self.told = self.told, self.now(site)
        return [] if before is self.told else [*front_differing(before, self.told).items()]


class Remembering:
    """Writes a note's journal. The engine's thread alone calls it. An editor that gave itself no name isn't remembered."""

    def __init__(self, session: Session, peers: Sequence[Peer], journal: Journal | None):
        self._session, self._peers, self._journal = session, peers, journal
        self._fronts = HistoryFront()
        # The lines that aren't written yet.
        self._gathered: list[Line] = []
        # Why the notes of the last engine can't be read, if so; in words.
        self.trouble = ""
        # Whether the text differs from the site's, so that no editor is in step.
        self.is_behind: Callable[[], bool] = lambda: False
        if journal:
            self._begin(journal)

    def _begin(self, journal: Journal) -> None:
        """Decide which messages of the last engine are in the note's file. This is done first, because new messages can get the numbers of
        those that aren't."""
        editors, front = self.read(), self.front()
        editors.settle(front, self._is_kept, self._is_said)
        if editors.of and journal.begin(editors.lines(front)):
            self._fronts.told = front
        else:
            journal.delete()

    def front(self) -> SiteFront:
        """Return the number of messages of each site that made the text of now."""
        return self._fronts.now(self._session.site)

    def read(self) -> Editors:
        """Read the journal; if it can't be read, say why in `trouble`."""
        try:
            return Editors(self._journal.read() if self._journal else ())
        except Unreadable as why:
            self.trouble = f"What was noted of this editor isn't known, since {why}."
        except (KeyError, ValueError, TypeError, IndexError, StopIteration) as why:
            self.trouble = f"What was noted of this editor isn't known, since it is no journal ({why})."
        if self._journal:
            # The next step of an editor begins it again.
            self._journal.stop()
        return Editors()

    def _is_kept(self, one: MadeMessages) -> bool:
        """Return whether the note's file has these messages, and not others with their numbers."""
        return one.checksum == checksum(self._session.message(one.site, seq) for seq in range(one.first, one.last + 1))

    def _is_said(self, one: MadeMessages) -> bool:
        """Return whether the margin has these messages, and not others with their numbers."""
        with suppress(LookupError):
            return one.checksum == checksum(self._session.message(one.site, seq, MARGIN) for seq in range(one.first, one.last + 1))
        return False

    def said(self, peer: Peer, number: int, of: str, messages: Sequence[Operation]) -> None:
        """Note that messages of the margin, which aren't kept yet, are what an editor asks for by a number; `of` is the id."""
        peer.said[number] = of
        self._add([{"of": peer.editor, "once": number, "is": of, "at": _as_made(messages)}])

    def unsaid(self, peer: Peer, number: int) -> None:
        """Note that they weren't kept."""
        if peer.said.pop(number, ""):
            self._add([{"of": peer.editor, "once": number}])

    def edit(self, peer: Peer, request: Line, made: Sequence[Sequence[Operation]] = (), undo: Line | None = None,
             is_whole: bool = True) -> None:
        """Gather the line of an editor's last edit. `made` has the messages of each change, the last change first."""
        if peer.editor and (made or not peer.rejoins):
            new = [names for parts in reversed(made) for one in parts if (names := one.new)]
            edit = KeptEdit(_as_made([one for parts in made for one in parts]), _joined_names(new), is_whole,
                            changes_checksum(request["changes"]))
            self._gathered.append(edit.as_line(peer.editor, peer.transformer.edits) | ({"undo": undo} if undo else {}))

    def by_name(self, peer: Peer, messages: Sequence[Operation], undo: Line) -> None:
        """Gather the line of a step of undo, or of another edit by names."""
        if peer.editor:
            self._gathered.append({"of": peer.editor, "at": _as_made(messages), "undo": undo})

    def write(self) -> None:
        """Write the gathered lines. The caller does this before it keeps the messages."""
        lines, self._gathered = self._gathered, []
        if lines:
            self._add(lines)

    @property
    def gathered(self) -> int:
        """The number of lines that are gathered."""
        return len(self._gathered)

    def forget_gathered(self, after: int = 0) -> None:
        """Forget the gathered lines behind a number of them, because their edits failed."""
        del self._gathered[after:]

    def unkept(self, peer: Peer, messages: Sequence[Operation]) -> None:
        """Note that an editor's messages weren't kept, so that others may get their numbers. The edits count. Exception: an editor that is
        just opening the note again sends these edits again."""
        self.forget_gathered()
        if messages:
            self._add([{"unkept": [messages[0].site, messages[0].seq], **({"again": True} if peer.rejoins else {})}])

    def forgets(self, peer: Peer) -> None:
        """Note that an editor can take nothing back. Exception: for an editor that is just opening the note again, the journal keeps its
        steps."""
        peer.undoing.forget()
        if peer.editor and not peer.rejoins:
            self._add([{"of": peer.editor, "undo": {"forgets": True}}])

    def comes(self, peer: Peer) -> None:
        """Note that an editor has opened the note from scratch."""
        if peer.editor:
            self._add([{"of": peer.editor, "gone": True}])
            self.in_step(peer)

    def in_step(self, peer: Peer) -> None:
        """Note that an editor shows the text of now as soon as it applies what it is just sent."""
        at = peer.transformer.version, peer.transformer.edits
        if peer.editor and at != peer.in_step_at and not self.is_behind() and self._makes_room():
            peer.in_step_at = at
            more = self._fronts.more(self._session.site)
            self._add([{"of": peer.editor, "step": at, **({"front": more} if more else {})}])

    def carried(self, peer: Peer, before: tuple[int, int], made: object) -> None:
        """Note that an editor shows the text of an earlier step with the edits `made`, and no later edit of others."""
        if not peer.transformer.has_news():
            self.in_step(peer)
        elif peer.editor:
            peer.in_step_at = at = peer.transformer.version, peer.transformer.edits
            self._add([{"of": peer.editor, "step": at, "as": before, "made": made}])

    def gone(self, editor: str) -> None:
        """Note that an editor won't come again."""
        self._add([{"of": editor, "gone": True}])

    def _add(self, lines: list[Line]) -> None:
        """Append lines, if the journal is open. If they can't be written there is no journal until the next step of an editor."""
        if self._journal and self._journal.is_open and not self._journal.add(lines):
            self._forget_steps()

    def _forget_steps(self) -> None:
        """Have each editor's next step be noted in full, because no earlier one is in the journal."""
        self._fronts.told = {}
        for peer in self._peers:
            peer.in_step_at = None

    def _makes_room(self) -> bool:
        """Begin the journal if it isn't open, and write it again if it is long; return whether it is open. It isn't called while an edit is
        being made, so the steps of undo that it writes are all on the disk."""
        journal = self._journal
        if journal and journal.is_open and journal.is_long and (editors := self.read()).of:
            journal.begin(editors.lines(self._fronts.told))
        if journal and not journal.is_open:
            self._forget_steps()
            journal.begin({"of": peer.editor, "undo": peer.undoing.as_line()} for peer in self._peers if peer.editor)
        return journal is not None and journal.is_open

    def close(self) -> None:
        """Ends; the journal stays as long as an editor may come again."""
        if self._journal:
            if self.read().of:
                self._journal.stop()
            else:
                self._journal.delete()


def _last_of_each(messages: Messages) -> Iterator[tuple[int, int]]:
    """The sites of messages in a row, and the last one of each part that they have."""
    for holder, begin, end in messages.parts():
        if isinstance(holder, Branch | Path):
            yield holder.site, end
        else:
            yield from ((one.site, one.seq + one.size - 1) for one in holder.between(begin, end))


def checksum(messages: Iterable[Operation]) -> int:
    """Return a number that differs for other messages with the same numbers."""
    return zlib.crc32(b"".join(spelling for one in messages for spelling in one.spellings()))


def changes_checksum(changes: object) -> int:
    """Return a number that differs for other changes."""
    return zlib.crc32(ENCODER.encode(changes).encode("utf-8", "replace"))


def _as_made(messages: Sequence[Operation]) -> list[MadeMessages]:
    """Messages of one site that follow one another, as one stretch."""
    if not messages:
        return []
    last = messages[-1]
    return [MadeMessages(last.site, messages[0].seq, last.seq + last.size - 1, checksum(messages))]


def _joined_names(names: Iterable[Names]) -> list[Names]:
    """Names in their order, those that go on with one another in one."""
    found: list[Names] = []
    for one in names:
        last = found[-1] if found else None
        if last and (last.site, last.at + last.length) == (one.site, one.at):
            found[-1] = last._replace(length=last.length + one.length)
        else:
            found.append(one)
    return found
