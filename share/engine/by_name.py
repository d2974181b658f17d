"""Edits that the engine makes for an editor by the characters' names: undo and redo, looks, and typing again what was left out."""
from collections.abc import Callable
from itertools import chain

from share.engine import protocol
from share.engine.arrivals import Arrivals
from share.engine.authors import Authors
from share.engine.editor import Peer
from share.engine.protocol import Wrong
from share.engine.remembering import Remembering
from share.engine.shared_text import SharedText
from share.format.operation import Operation
from share.program.retyping import Lost
from share.program.site import Edited, Site, Told
from share.program.undo import Step, do, looks_of
from share.sync.session import Session
from share.text.errors import Refused, Trouble
from share.text.line import Line
from share.text.looks import Looked, setting
from share.text.names import Name, united

SeesEdit = Callable[[Site, Edited], None]
# What a journal has of a step of undo, given what it changed; nothing where that is nothing.
NotesStep = Callable[[Step], Line]


def see_all_done(_: Site, edited: Edited) -> None:
    """Raises Wrong where the program refused a part of an edit."""
    if edited.refused is not None:
        raise Wrong("refused", str(Refused(edited.refused)), number=edited.refused)


def adding(changed: Step) -> Line:
    """What a journal has of a step that can be taken back, if it changed something."""
    return {"adds": changed.as_line()} if changed.does_something() else {}


def _taking_back(redo: bool, place: int) -> NotesStep:
    """What a journal has of a step at a place that is taken back, or done again."""
    return lambda changed: {"redo": redo, "place": place, "changed": changed.as_line()}


class ByName:
    """The requests `undo`, `redo`, `looks`, `lost` and `recover`. What they change also the editor that asks is told by a notice. The
    engine's thread alone calls it."""

    def __init__(self, session: Session, text: SharedText, arrivals: Arrivals, authors: Authors,
                 remembering: Remembering):
        self._session, self._text, self._arrivals, self._authors, self._remembering = session, text, arrivals, authors, remembering
        # Is told whose acceptance of a suggestion was done again, or is taken back now.
        self.accepted: Callable[[Peer, Name, bool], None] = lambda peer, name, redo: None

    def undo(self, peer: Peer, redo: bool, request: Line) -> Line:
        """Takes back an editor's last edit that changes something, or does it again; the last one within a stretch, where the
        request has that."""
        among = self._within(peer, request) if "begin" in request else None
        self._arrivals.check_typing()
        peer.coalescing.stop()
        peer.gap = None
        while step := peer.undoing.next(redo, among):
            if step.accepts and not redo and self._has_to_undo(step):
                # Before the text says so: else others would see it settled, and not accepted, for a while.
                self.accepted(peer, step.accepts, False)
                if peer.undoing.next(redo, among) is not step:
                    continue
            changed = self.make(peer, step, redo, None if among else peer, noted=_taking_back(redo, peer.undoing.place(redo, step)))
            peer.undoing.done(redo, step, changed)
            if changed.does_something():
                if step.accepts and redo:
                    self.accepted(peer, step.accepts, True)
                return {"done": True}
        return {"done": False}

    def _has_to_undo(self, step: Step) -> bool:
        """Whether something of what an edit brought is shown, or something of what it took away isn't."""
        came, went = (sum(len(one.data) for some in self._session.site.where(names) for one in some) for names in (step.came, step.went))
        return came > 0 or went < sum(one.length for one in step.went)

    def _within(self, peer: Peer, request: Line) -> set[int]:
        """The steps of undo within the stretch of a request."""
        peer.transformer.seen(protocol.number(request, "version"))
        begin, end = (self._text.place(peer, protocol.number(request, name)) for name in ("begin", "end"))
        return peer.extents.within(begin, end)

    def look(self, peer: Peer, request: Line) -> Line:
        """Makes stretches bold, or of a colour, as far as they aren't; as one edit."""
        peer.transformer.seen(protocol.number(request, "version"))
        sets = setting(*protocol.looks(request))
        places = [(self._text.place(peer, begin), self._text.place(peer, end)) for begin, end in protocol.ranges(request)]
        self._arrivals.check_typing()
        site = self._session.site
        names = united(chain.from_iterable(site.names(*one) for one in places))
        looked = [Looked(*one, sets(one[1])) for parts in looks_of(site, names) for one in parts]
        peer.coalescing.stop()
        peer.gap = None
        changed = self.make(peer, Step(looked=looked), redo=True, jumps=peer)
        if changed.does_something():
            peer.undoing.add(changed)
        return {}

    def make(self, peer: Peer, step: Step, redo: bool, jumps: Peer | None, sees: SeesEdit = lambda site, edited: None,
             noted: NotesStep = adding) -> Step:
        """Takes an edit back, or does it; what that changed. The cursor of an editor may go there. Who sees what was done may raise
        Wrong, and then nothing of it was. It is noted, as a journal has it, before it is kept."""
        told, made = list[Told](), list[Operation]()
        changed = Step(accepts=step.accepts)

        def work(site: Site) -> Edited:
            edited = do(site, step, redo, told, changed)
            sees(site, edited)
            made.extend(edited.messages)
            if line := noted(changed):
                self._remembering.by_name(peer, made, line)
                self._remembering.write()
            return edited

        try:
            edited = self._session.edit(work)
        except Exception as why:
            self._remembering.unkept(peer, made)
            if not isinstance(why, Trouble):
                raise
            self._arrivals.catch_up()
            raise Wrong("unkept", str(why)) from why
        with peer.extents.are_of(changed.key):
            for part in told:
                self._text.show(part, jumps)
        see_all_done(self._session.site, edited)
        return changed

    def lost(self) -> Line:
        """What was left out."""
        return {"lost": self._authors.lost(self._session.lost())}

    def recover(self) -> Line:
        """Types again what was left out."""
        self._arrivals.check_typing()
        found: list[Lost] = []
        try:
            found = self._session.recover()
        except Trouble as why:
            raise Wrong("unkept", str(why)) from why
        except Refused as why:
            raise Wrong("refused", str(why), number=why.number) from why
        finally:
            self._arrivals.catch_up()
        self._arrivals.look_at_number()
        return {"lost": self._authors.lost(found)}
