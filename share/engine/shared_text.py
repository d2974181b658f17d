"""The text of a note as its editors are shown it, and how a change of it comes to each of them."""
from collections.abc import Callable, Iterable, Sequence
from contextlib import suppress
from weakref import WeakSet

from share.engine.editor import Peer
from share.engine.protocol import Wrong
from share.engine.track import Track
from share.engine.transform import Transformer
from share.program.site import Told
from share.sync.session import Session
from share.text.change import LINE_END, Change
from share.text.delta import Op, in_text, of_changes
from share.text.names import Names
from share.text.rope import Measured, OutsideText, Split, readable, swapped
from share.text.units import Units

# What follows a change of the text; the names of what that brings may be known.
Follower = Callable[[Change, list[Names] | None], None]


class SharedText:
    """A note's text. Each change of it goes to the editors that don't show it yet, and all places in it follow. The engine's
    thread alone calls it."""

    def __init__(self, session: Session, peers: Sequence[Peer], followers: Sequence[Follower]):
        self.measured = Measured(session.text())
        self._session, self._peers, self._followers = session, peers, followers
        # Who asked what becomes of places; who forgets that is asked no more.
        self._tracks = WeakSet[Track]()
        # What undoes the changes that may turn out not to be kept, in the order of these; None where there are none.
        self._inverse: list[Change] | None = None

    def track(self, units: Units) -> "Track":
        """What becomes of places in the text of now, counted in units."""
        found = Track(units)
        self._tracks.add(found)
        return found

    def place(self, peer: Peer, position: int, behind: bool = False) -> int:
        """The place in bytes of a position in an editor's text, before or behind what came in there."""
        try:
            return self.measured.place(peer.transformer.position(position, behind), peer.transformer.units)
        except OutsideText as why:
            raise Wrong("outside", f"Position {position} is outside the text.") from why
        except Split as why:
            raise Wrong("split", f"Position {position} is inside a character.") from why

    def kept(self, peer: Peer, begin: int, end: int) -> list[tuple[int, int]]:
        """Where a stretch of an editor's text is in bytes, as far as it is still there, and without what came in there meanwhile."""
        for position in begin, end:
            self.place(peer, position)
        units = peer.transformer.units
        return [(self.measured.place(first, units), self.measured.place(last, units)) for first, last in peer.transformer.kept(begin, end)]

    def has_lines(self, begin: int, end: int) -> bool:
        """Whether a stretch begins at a line's begin and ends in a line end: what is at its begin for who doesn't know of it yet goes
        behind it."""
        new = Change(begin, begin, self.measured.slice(begin, end))
        new.look(self.measured.slice(max(0, begin - 1), begin), self.measured.size - len(new.new))
        return new.opens_line

    def cursor(self, peer: Peer, position: int) -> int:
        """The place of a cursor in an editor's text: at a line's begin that of the line."""
        place, last = self.place(peer, position), self.place(peer, position, behind=True)
        return last if self.has_lines(place, last) else place

    def changes_of(self, op: Op, units: Units) -> list[Change]:
        """The changes of an op in the note's bytes, from the last one to the first."""
        return changes_in(self.measured, op, units)

    def begin_unkept(self) -> None:
        """Remembers from now on how to take back what is changed."""
        self._inverse = []

    def end_unkept(self) -> None:
        """Takes what was changed since for kept."""
        self._inverse = None

    def take_back(self) -> None:
        """Shows the text without edits that weren't kept. Two texts alone don't tell where between equal characters it was that
        something stood, and what is typed beside it meanwhile would come to stand within a word."""
        inverse, self._inverse = self._inverse or [], None
        with suppress(Exception):
            self.change((one, None) for one in reversed(inverse))

    def take_out(self, peer: Peer, own: Op, now: bytes) -> None:
        """Shows a text where something else came of an edit than its editor shows."""
        units = peer.transformer.units
        data, size = units.encode(self.measured.text()), units.size
        # Two texts alone don't tell where between equal characters it was that something stood.
        undone = [(begin, begin + units.count(new), data[size * begin:size * end]) for begin, end, new in in_text(own, units)]
        peer.transformer.changed(of_changes(undone, units))
        self.become(now)

    def show(self, told: Told, undoes: Peer | None = None) -> None:
        """Shows what the site's text has become, perhaps because one of the editors asked for that."""
        if not isinstance(told, list):
            self.become(told)
        if not told or not isinstance(told, list):
            return
        named = [(one, [] if not one.new else [one.names] if one.names else None) for one in told]
        self.change(named, undoes=undoes)

    def become(self, now: bytes) -> None:
        """Shows a text, where it isn't known what has changed."""
        before = self.measured.as_note()
        if now != before:
            self.change((one, None) for one in self._session.differing(before, now))

    def change(self, changes: Iterable[tuple[Change, list[Names] | None]], but: Peer | None = None,
               undoes: Peer | None = None) -> None:
        """Shows all editors, but perhaps one, changes that the site has made, with the names of what they bring where these are
        known. The cursor of who asked for them goes where they are."""
        open_ones: list[Transformer | Track] = [peer.transformer for peer in self._peers if peer.is_open and peer is not but]
        open_ones += self._tracks
        made: dict[Units, list[tuple[int, int, bytes]]] = {one.units: [] for one in open_ones}
        for one, names in changes:
            whole = self.measured.whole(one)
            for units, found in made.items():
                found.append(change_in_units(self.measured, whole, units))
            if self._inverse is not None:
                before = self.measured.slice(whole.begin, whole.end)
                self._inverse.append(Change(whole.begin, whole.begin + len(whole.new), before))
            self.measured.replace(whole)
            self._move(one, names)
            if undoes:
                undoes.jump = one.begin + len(one.new)
        ops = {units: of_changes(found, units) for units, found in made.items()}
        for transformer in open_ones:
            transformer.changed(ops[transformer.units])

    def _move(self, one: Change, names: list[Names] | None) -> None:
        """Moves all places along with a change that was made."""
        if one.new.endswith(LINE_END):
            one.look(self.measured.slice(max(0, one.begin - 1), one.begin), self.measured.size - len(one.new) + one.end - one.begin)
        else:
            one.opens_line = False
        for follow in self._followers:
            follow(one, names)
        for peer in self._peers:
            peer.moved(one)


def changes_in(measured: Measured, op: Op, units: Units) -> list[Change]:
    """The changes of an op of an editor in the bytes of a note's text, from the last one to the first."""
    place = measured.place
    try:
        return [Change(place(begin, units), place(end, units), swapped(units.decode(data).encode()))
                for begin, end, data in reversed(in_text(op, units))]
    except OutsideText as why:
        raise Wrong("outside", str(why)) from why
    except Split as why:
        raise Wrong("split", str(why)) from why


def change_in_units(measured: Measured, whole: Change, units: Units) -> tuple[int, int, bytes]:
    """A change of whole characters of a text as editors that count in these units make it."""
    begin, end = measured.position(whole.begin, units), measured.position(whole.end, units)
    return begin, end, units.encode(readable(swapped(whole.new)))
