"""The request `open` of an editor that had the note open before: its engine ended, or its line did. The engine finds out which edits of the
editor it has, makes the others in the text of now, and gives the editor its steps of undo."""
import hashlib
import time
from collections.abc import Sequence
from itertools import count
from typing import NamedTuple

from share.admission.ledger import Branch
from share.admission.lines import Path
from share.engine import protocol
from share.engine.arrivals import Arrivals
from share.engine.editor import Peer
from share.engine.edits import EditRequests
from share.engine.named_text import NamedText
from share.engine.places import place_behind
from share.engine.protocol import Wrong
from share.engine.remembered import EditChanges, SiteFront, InStep, Remembered
from share.engine.remembering import Remembering, changes_checksum
from share.engine.shared_text import SharedText
from share.engine.transform import Transformer
from share.format.history import Messages, Part
from share.program.difference import shown_by
from share.program.replay import REPLAYING
from share.program.site import Site
from share.sync.session import Session
from share.text.delta import NOTHING, Op
from share.text.line import Line
from share.text.units import Units

# The errors of an edit that may be gone at the next try. After any other error, later edits aren't made.
PASSING = ("number", "unkept", "failed")
NOT_MADE = "Before the engine ended it couldn't make all that you typed. This is missing: {}"
MOST_WORDS_TOLD = 200


class Again(NamedTuple):
    """The field `again`: the step at which the editor was last in step, the changes of each edit since then, and the hash of the text with
    them. `joins` has the field `join` of each edit that has one."""

    version: int
    edits: int
    made: list[EditChanges]
    joins: list[Line]
    hash: str

    @classmethod
    def read(cls, request: Line) -> "Again":
        """Read the field of a request."""
        line = request["again"]
        given = line.get("made") if isinstance(line, dict) else None
        if not isinstance(given, list) or not all(isinstance(one, dict) for one in given):
            raise Wrong("field", "again has to have version, edits, hash and made, a list of edits with changes.")
        made: list[EditChanges] = [protocol.replacements(one) for one in given]
        joins = [{"join": one["join"]} if "join" in one else {} for one in given]
        return cls(protocol.number(line, "version"), protocol.number(line, "edits"), made, joins, protocol.string(line, "hash"))


class Rejoining:
    """The request `open` with `again`. The engine's thread alone calls it."""

    def __init__(self, session: Session, text: SharedText, arrivals: Arrivals, edits: EditRequests, remembering: Remembering):
        self._session, self._text, self._arrivals, self._edits, self._remembering = session, text, arrivals, edits, remembering

    def open(self, peer: Peer, units: Units, again: Again) -> Line:
        """Open the note for an editor, and return the answer's fields `text` and `has`, if it has them. After an error it isn't open."""
        if self._arrivals.is_behind:
            raise Wrong("failed", "What the editor shows can't be compared now.")
        found = self._remembering.read().of.get(peer.editor)
        known = found if found and found.is_of(again.edits, map(changes_checksum, again.made)) else None
        step = known.steps.get((again.version, again.edits)) if known else None
        has = known.has_up_to(again.edits) if known and step else None
        if known:
            peer.undoing, peer.said = known.can_undo(), {number: of for number, (_, of) in known.said.items()}
        if known and step and has is not None:
            pending = self._pending(units, again, known, step, has)
            if pending is not None:
                self._go_on(peer, known.goes_on(), is_later=has == again.edits + len(again.made))
                has = self._carried(peer, units, again, has, pending)
                if has == again.edits + len(again.made):
                    self._tell_what_was_not_made(peer, again, known)
                    return {}
        return self._not_carried(peer, units, again, found, has)

    def _pending(self, units: Units, again: Again, known: Remembered, step: InStep, has: int) -> Op | None:
        """Return the change from the text that the editor shows, without the edits that aren't there, to the text of now. None if it
        shows another text."""
        made = [*step.made, *again.made]
        before, after = made[:has - step.edits], made[has - step.edits:]
        kept = [known.edits[number] for number in range(step.edits + 1, has + 1)]
        front = self._remembering.read().front(step.front)
        now = dict(front)
        for one in (stretch for edit in kept for stretch in edit.at):
            if now.get(one.site, 0) + 1 == one.first:
                now[one.site] = one.last
        if now == self._remembering.front() and _is_shown(NamedText(self._text.measured.as_note()), after, units, again.hash):
            return NOTHING
        text = self._replayed(front)
        try:
            for changes, edit in zip(before, kept):
                text.edit(changes, units, edit.new)
        except Wrong:
            return None
        if not _is_shown(NamedText(text.measured.as_note()), after, units, again.hash):
            return None
        return text.until(shown_by(self._session.site), units)

    def _replayed(self, front: SiteFront) -> NamedText:
        """Return the text of a front, with names."""
        messages = messages_up_to(self._session.site.history, front)
        site = Site(REPLAYING, messages)
        try:
            shown = shown_by(site)
        finally:
            site.close()
        return NamedText(shown.text, shown.names)

    def _go_on(self, peer: Peer, noted: Line, is_later: bool) -> None:
        """Have the editor's next key be undone with those before it, as without the engine's end. The silence before a key that was typed
        earlier isn't known; it counts as none."""
        if not noted:
            return
        (site, at), (keys, deleted) = noted["behind"], noted["keys"]
        place = place_behind(self._session.site, (site, at))
        if place is not None:
            peer.coalescing.goes_on_at(place, keys, deleted, max(0, time.time() - noted["time"]) if is_later else 0)

    def _carried(self, peer: Peer, units: Units, again: Again, has: int, pending: Op) -> int:
        """Make the edits that aren't there, and return the number of the last one that is there then."""
        peer.transformer, peer.rejoins = Transformer.resumed(units, again.version, has, pending), True
        lines = [{"do": "edit", "version": again.version, "edits": number, "changes": changes, **joins}
                 for number, changes, joins in zip(count(again.edits + 1), again.made, again.joins) if number > has]
        try:
            has += self._made(peer, lines)
        except BaseException:
            peer.leave_text()
            raise
        finally:
            peer.rejoins = False
        if has == again.edits + len(again.made):
            self._remembering.carried(peer, (again.version, again.edits), again.made)
        return has

    def _made(self, peer: Peer, lines: Sequence[Line]) -> int:
        """Make edits, up to the first one that is refused for good, and return how many were made."""
        if lines and not self._session.can_type:
            raise Wrong("number", self._arrivals.no_number)
        waiting: list[bytes | None] = [protocol.serialize(line) for line in lines]
        made = 0
        while waiting:
            for _, answer in self._edits.make(peer, protocol.parse(waiting.pop(0)), waiting):
                if answer.get("error") in PASSING:
                    raise Wrong(answer["error"], answer["words"])
                if "error" in answer:
                    return made
                made += 1
        return made

    def _not_carried(self, peer: Peer, units: Units, again: Again, known: Remembered | None, has: int | None) -> Line:
        """Have the editor show the text of now, with a version and a number of edits that it has never had."""
        version = max([again.version, *(version for version, _ in known.steps)] if known else [again.version]) + 1
        edits = max([again.edits + len(again.made), *known.edits] if known else [again.edits + len(again.made)])
        peer.transformer = Transformer.resumed(units, version, edits, NOTHING)
        peer.in_step_at = None
        self._remembering.in_step(peer)
        if self._remembering.trouble:
            peer.say(self._remembering.trouble)
        text = self._text.measured.text()
        if _sha_256(text) == again.hash:
            # Nothing is missing of what the editor shows, whatever is known of its edits.
            has = again.edits + len(again.made)
        return {"text": text, **({} if has is None else {"has": has})}

    @staticmethod
    def _tell_what_was_not_made(peer: Peer, again: Again, known: Remembered) -> None:
        """Tell the user the words of refused edits, because the answers to them may have been lost."""
        words = "".join(text for number, changes in enumerate(again.made, again.edits + 1)
                        if number in known.edits and not known.edits[number].is_whole for _, _, text in changes)
        if words:
            peer.say(NOT_MADE.format(words[:MOST_WORDS_TOLD]))


def messages_up_to(history: Messages, front: SiteFront) -> Messages:
    """Return the messages of a front, in the order of a history."""
    found = Messages()
    for holder, begin, end in history.parts():
        if isinstance(holder, Branch | Path):
            last = min(end, front.get(holder.site, 0))
            if begin < last:
                found.add(Part(holder, begin, last))
        else:
            found += [one for one in holder.between(begin, end) if one.seq <= front.get(one.site, 0)]
    return found


def _is_shown(text: NamedText, edits: Sequence[EditChanges], units: Units, wanted: str) -> bool:
    """Return whether a text with these edits has the wanted hash."""
    try:
        for changes in edits:
            text.edit(changes, units)
    except Wrong:
        return False
    return _sha_256(text.measured.text()) == wanted


def _sha_256(text: str) -> str:
    return hashlib.sha256(text.encode()).hexdigest()
