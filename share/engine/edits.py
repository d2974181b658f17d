"""What editors type: edits are transformed, made at the site, kept, and shown to the others."""
import time
from collections.abc import Iterator
from contextlib import suppress
from itertools import chain

from share.engine import protocol
from share.engine.arrivals import NOT_NOW, Arrivals
from share.engine.editor import Peer
from share.engine.gaps import Gap, cut_by, rewrite_of
from share.engine.protocol import Wrong
from share.engine.places import name_before
from share.engine.remembering import Remembering
from share.engine.shared_text import SharedText
from share.engine.transform import Transformer
from share.format.operation import MOST_RANGES, Operation
from share.program.site import Edited, Rewrite, Site
from share.program.undo import step_of
from share.sync.session import Session
from share.text.change import Change
from share.text.delta import Op
from share.text.errors import Refused, Trouble
from share.text.line import Line
from share.text.names import Names

# The most time that edits which wait after one another are made before they are kept together.
TOGETHER_SECONDS = 0.03
# An edit as it was made: what it is then, its changes, the messages of each, and the number of a refusal.
Filled = tuple[Op, list[Change], list[list[Operation]], int | None]


class EditRequests:
    """The requests `edit`. The engine's thread alone calls it."""

    def __init__(self, session: Session, text: SharedText, arrivals: Arrivals, remembering: Remembering):
        self._session, self._text, self._arrivals, self._remembering = session, text, arrivals, remembering

    def make(self, peer: Peer, first: Line, waiting: list[bytes | None]) -> list[tuple[Line, Line]]:
        """Makes an edit, and those that wait after it, and has all be kept at once; the requests with their answers."""
        answers: list[tuple[Line, Line]] = []
        can_type = self._session.can_type

        made = list[Operation]()

        def work(site: Site) -> Edited:
            made.extend(self._made_one_by_one(peer, first, waiting, site, can_type, answers))
            self._remembering.write()
            return Edited(made)

        self._text.begin_unkept()
        try:
            self._session.edit(work) if can_type else work(self._session.site)
        except Exception as fault:  # pylint: disable=broad-except
            self._remembering.unkept(peer, made)
            answers = self._not_kept(peer, first, answers, fault)
        self._text.end_unkept()
        self._arrivals.look_at_number()
        return answers

    def _made_one_by_one(self, peer: Peer, first: Line, waiting: list[bytes | None], site: Site, can_type: bool,
                         answers: list[tuple[Line, Line]]) -> list[Operation]:
        """Makes edits for as long as they may wait to be kept, up to one that isn't made, and adds their answers; the messages."""
        messages, end = list[Operation](), time.monotonic() + TOGETHER_SECONDS
        request: Line | None = first
        while request:
            before, noted = len(site.history), self._remembering.gathered
            try:
                answer, made = self._edit(peer, request, site if can_type else None)
            except Exception as fault:  # pylint: disable=broad-except
                # What was made before it is kept all the same, and nothing of it.
                answer, made = self._failed(peer, fault), []
                self._remembering.forget_gathered(noted)
                with suppress(Exception):
                    site.go_back(before)
            answers.append((request, answer))
            messages += made
            request = _next_edit(waiting) if time.monotonic() < end and "error" not in answer else None
        return messages

    def _not_kept(self, peer: Peer, first: Line, answers: list[tuple[Line, Line]], fault: Exception) -> list[tuple[Line, Line]]:
        """Shows all what the site has without these edits; the answers."""
        self._remembering.forgets(peer)
        peer.gap = None
        self._text.take_back()
        self._arrivals.catch_up()
        error = {"error": "unkept", "words": str(fault)} if isinstance(fault, Trouble) else protocol.failure(fault)
        if not answers:
            peer.transformer.void(protocol.edits_of(first, peer.transformer.edits + 1))
            answers = [(first, {"edits": peer.transformer.edits})]
        return [(request, error | answer) for request, answer in answers]

    def _failed(self, peer: Peer, fault: Exception) -> Line:
        """Sends an editor the text soon, and all what the site shows, after an edit that failed; its error."""
        peer.transformer.void(peer.transformer.edits)
        self._arrivals.is_behind = True
        return {"edits": peer.transformer.edits, **protocol.failure(fault)}

    def _edit(self, peer: Peer, request: Line, site: Site | None) -> tuple[Line, list[Operation]]:
        """Makes an edit at the site, where it can be typed at; the answer and the messages."""
        transformer, text = peer.transformer, self._text
        edits = protocol.edits_of(request, transformer.edits + 1)
        try:
            version = protocol.number(request, "version")
            if protocol.number(request, "edits") != transformer.edits + 1:
                raise Wrong("order", f"This is edit {edits}, and edit {transformer.edits + 1} was to come.")
            length = text.measured.length(transformer.units)
            own, left = transformer.edit(version, protocol.replacements(request), length)
            changes = text.changes_of(own, transformer.units)
        except Wrong as why:
            transformer.void(edits)
            return {"edits": edits, "error": why.code, "words": str(why)}, []
        transformer.edited(left)
        peer.show_again(version)
        if self._arrivals.is_behind:
            raise Trouble(NOT_NOW)
        if site is None:
            self._remembering.edit(peer, request, is_whole=False)
            text.take_out(peer, own, text.measured.as_note())
            return {"edits": edits, "error": "number", "words": self._arrivals.no_number}, []
        gap, peer.gap = peer.gap, None
        places = self._places(transformer, changes)
        if gap and gap.takes(places):
            own, changes, made, refused = self._type_in(gap, peer, own, changes[0], places, site)
        else:
            if behind := self._lines_met(transformer):
                own = transformer.moved_behind(behind)
                changes = text.changes_of(own, transformer.units)
            made = []
            cut = cut_by(changes, text.measured, site)
            refused = _made(site, [rewrite_of(one, text.measured) for one in changes], made)
            peer.gap = cut.gap(made[0], gap) if cut and refused is None else None
        more = self._show(peer, own, changes, site, request, made, refused)
        return {"edits": edits, **more}, [*chain.from_iterable(made)]

    def _places(self, transformer: Transformer, changes: list[Change]) -> range:
        """The places at which an edit types that was counted just now, and deletes nothing: before, within or behind what was put
        there that its editor hasn't seen; none of other edits."""
        if [one.end - one.begin for one in changes] != [0] or not transformer.is_one_change:
            return range(0)
        begin, end = changes[0].begin, max((self._place(one.end, transformer) for one in transformer.met()), default=changes[0].begin)
        return range(begin, end + 1)

    def _place(self, position: int, transformer: Transformer) -> int:
        """Where a position in the engine's text is in bytes, in an editor's units."""
        return self._text.measured.place(position, transformer.units)

    def _lines_met(self, transformer: Transformer) -> dict[int, int]:
        """By the places of the last edit's insertions, how many units these met there, where that are whole lines at a line's begin:
        what is typed at the begin of a line stays in that."""
        return {one.place: one.end - one.begin for one in transformer.met()
                if self._text.has_lines(self._place(one.begin, transformer), self._place(one.end, transformer))}

    def _type_in(self, gap: Gap, peer: Peer, own: Op, one: Change, places: range, site: Site) -> Filled:
        """Types in the place of what the editor deleted before. What others put before that stays before it."""
        edited, place = site.insert_behind(gap.before, one.new, places)
        transformer, position = peer.transformer, self._text.measured.position
        if place > one.begin:
            many = position(place, transformer.units) - position(one.begin, transformer.units)
            own = transformer.moved_behind({met.place: many for met in transformer.met()})
        return own, [Change(place, place, one.new)], [edited.messages], edited.refused

    def _show(self, peer: Peer, own: Op, changes: list[Change], site: Site, request: Line, made: list[list[Operation]],
              refused: int | None) -> Line:
        """Shows the others changes that an editor shows already, and that were made; what the answer has besides."""
        if not changes:
            self._remembering.edit(peer, request, made)
            return {}
        messages = [*chain.from_iterable(made)]
        old = self._text.measured.slice(changes[0].begin, changes[0].end)
        step, joins = step_of(messages), peer.coalescing.joins(changes, old, request.get("join"))
        key = peer.undoing.made(step, joins)
        noted = {"made": step.as_line(), "joins": joins} | _goes_on_from(peer, changes, made, site)
        self._remembering.edit(peer, request, made, noted, is_whole=refused is None)
        if refused is not None:
            self._text.take_out(peer, own, site.text())
            return {"error": "refused", "words": str(Refused(refused)), "number": refused}
        if all(self._text.measured.is_whole(one) for one in changes):
            with peer.extents.are_of(key):
                self._text.change([(one, _inserted_names(parts)) for one, parts in zip(changes, made)], but=peer)
        else:
            self._text.take_out(peer, own, site.text())
        _put_cursor(peer, changes)
        return {}


def _next_edit(waiting: list[bytes | None]) -> Line | None:
    """The next line that waits, if it is an edit; it is taken out then."""
    try:
        request = protocol.parse(waiting[0]) if waiting else {}
    except Wrong:
        return None
    if request.get("do") != "edit":
        return None
    del waiting[0]
    return request


def _end_of(changes: list[Change]) -> int:
    """The place behind an edit, in the text with it."""
    last = changes[0]
    return last.begin + len(last.new) + sum(len(one.new) - one.end + one.begin for one in changes[1:])


def _goes_on_from(peer: Peer, changes: list[Change], made: list[list[Operation]], site: Site) -> Line:
    """What a journal has of an edit so that the next key may be undone with it: the keys so far, the character behind which the next one
    comes, and the time."""
    if not peer.editor or not (keys := peer.coalescing.keys_after(changes)):
        return {}
    new = [names for one in made[0] if (names := one.new)] if changes[0].new else []
    end = _end_of(changes)
    site_at = (new[-1].site, new[-1].at + new[-1].length - 1) if new else name_before(site, end)
    return {"keys": keys, "behind": site_at, "time": int(time.time())}


def _put_cursor(peer: Peer, changes: list[Change]) -> None:
    """Puts an editor's cursor behind its edit."""
    end = _end_of(changes)
    peer.coalescing.ended_at(end, changes)
    peer.cursor, peer.anchor = end if peer.cursor is not None else None, None


def _made(site: Site, changes: list[Rewrite], made: list[list[Operation]]) -> int | None:
    """Makes changes at a site, from the last one to the first, and adds the messages of each; the number of a
    refusal."""
    for edited in _change_by_change(site, changes):
        made.append(edited.messages)
        if edited.refused is not None:
            return edited.refused
    return None


def _change_by_change(site: Site, changes: list[Rewrite]) -> Iterator[Edited]:
    """What becomes of each change as it is made."""
    if len(changes) > 1 and all(one.inside or one.end - one.begin <= MOST_RANGES for one in changes):
        # None of the stretches that are cut can be too scattered for a message.
        yield from site.replace(changes)
        return
    for one in changes:
        if one.inside:
            yield from site.replace([one])
            continue
        cut = site.cut(one.begin, one.end) if one.begin < one.end else Edited([])
        put = site.insert(one.begin, one.data) if one.data and cut.refused is None else Edited([])
        yield Edited(cut.messages + put.messages, put.refused if cut.refused is None else cut.refused)


def _inserted_names(messages: list[Operation]) -> list[Names]:
    """The names that messages of an edit inserted, in their order."""
    return [names for message in messages if (names := message.new)]
