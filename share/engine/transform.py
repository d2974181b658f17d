"""What one editor has of a text: which version, with how many of its own edits, and what it has yet to take over.

This is operational transformation with two counters, as in Jupiter (D. Nichols, P. Curtis, M. Dixon and J. Lamping,
"High-latency, low-bandwidth windowing in the Jupiter collaboration system", UIST 1995), except that the engine alone
transforms. It numbers what it sends. An editor takes a notice over where that counts all edits which it has made, and drops
it otherwise; its next edit names the version in which it was made, and so says which notices it had taken over.
"""
from collections.abc import Mapping, Sequence

from share.engine.protocol import Wrong
from share.text.delta import (NOTHING, Met, Op, all_composed, growth, in_text, in_turn, kept_between, met_by, moved, of_change, of_changes,
                              transformed)
from share.text.units import Units

# The most notices that are kept one by one because an editor may not have taken them over.
MOST_SENT = 2_000
# The most notices, and bytes of them, that an editor may leave before it is sent the text.
MOST_LEFT, MOST_LEFT_BYTES = 10_000, 32 << 20
# What a number of an op takes, about, as bytes of it do.
NUMBER_BYTES = 8


class Transformer:
    """One editor's text, beside the engine's. The engine's thread alone calls it."""

    def __init__(self, units: Units):
        self.units = units
        # The last version that was sent, and how many of its edits came in.
        self.version = self.edits = 0
        # The version that the editor had as it sent something last; None where its text isn't known.
        self._had: int | None = 0
        # What was sent since and may have been taken over, by version; and what wasn't sent.
        self._sent: list[tuple[int, Op]] = []
        self._unsent: list[Op] = []
        # The version since which all is kept, how much of it wasn't sent, and how many bytes it has.
        self._since = self._came = self._bytes = 0
        # Whether it had left too much, and hasn't been sent the text since.
        self.has_left_much = False
        # The last edit, and what the engine's text had then that the editor's hadn't.
        self._last: tuple[Op, Op] = NOTHING, NOTHING

    @classmethod
    def resumed(cls, units: Units, version: int, edits: int, op: Op) -> "Transformer":
        """What an editor has that opens again: a version, with so many of its edits, and what it has yet to be sent."""
        found = cls(units)
        found.version, found.edits, found._had, found._since = version, edits, version, version
        found.changed(op)
        return found

    @property
    def is_void(self) -> bool:
        """Whether it isn't known what the editor shows, so that it has to be sent the text."""
        return self._had is None and not self._sent

    def changed(self, op: Op) -> None:
        """Takes over a change of the engine's text, which is to be sent; with the text, where that is."""
        if self.is_void or not op:
            return
        self._unsent.append(op)
        self._came += 1
        self._bytes += _size(op)
        if self.version - self._since + self._came > MOST_LEFT or self._bytes > MOST_LEFT_BYTES:
            self.void(self.edits)
            self.has_left_much = True
        elif len(self._unsent) > MOST_SENT:
            self._unsent = [all_composed(self._unsent, self.units)]

    def has_news(self) -> bool:
        """Whether something is to be sent."""
        self._unsent = [op for op in [all_composed(self._unsent, self.units)] if op]
        return bool(self._unsent)

    def send(self) -> Sequence[tuple[int, int, bytes]]:
        """The changes that are to be sent, as a new version."""
        op, self._unsent, self._came = all_composed(self._unsent, self.units), [], 0
        self._send(op)
        return in_turn(op, self.units)

    def send_nothing(self) -> int:
        """The new version of something that is sent and leaves the text as it is."""
        self._send(NOTHING)
        return self.version

    def _send(self, op: Op) -> None:
        self._last = NOTHING, NOTHING
        self.version += 1
        self._sent.append((self.version, op))
        if len(self._sent) > MOST_SENT:
            self._join_sent()

    def _join_sent(self) -> None:
        """Joins what was sent long ago. An editor that still has a version from within that is sent the text."""
        older, self._sent = self._sent[:MOST_SENT // 2], self._sent[MOST_SENT // 2:]
        self._sent.insert(0, (older[-1][0], all_composed([op for _, op in older], self.units)))

    def send_text(self) -> None:
        """Notes that the whole text is sent, as a new version."""
        self.version += 1
        self._sent, self._unsent, self.has_left_much = [(self.version, NOTHING)], [], False
        self._keeps_since(self.version)

    def _keeps_since(self, version: int) -> None:
        """Notes that all is kept since a version."""
        self._since, self._came = version, len(self._unsent)
        self._bytes = sum(map(_size, self._unsent)) + sum(_size(op) for _, op in self._sent)

    def void(self, edits: int) -> None:
        """Notes that it isn't known what the editor shows, and how many edits it has made."""
        self.edits, self._had, self._sent, self._unsent = edits, None, [], []

    def seen(self, version: int) -> None:
        """Notes that the editor has this version."""
        place = next((place for place, (sent, _) in enumerate(self._sent) if sent == version), None)
        if place is not None:
            self._had = version
            del self._sent[:place + 1]
            self._keeps_since(version)
        elif self.is_past(version):
            raise Wrong("stale", "This was made before the text was taken over that was sent.")
        elif version != self._had:
            raise Wrong("version", f"There is no version {version} that this editor can have.")

    def is_past(self, version: int) -> bool:
        """Whether an editor that has this version is sent the text, so that where something is in it isn't known any more."""
        return self._had is None and version <= self.version and all(sent != version for sent, _ in self._sent)

    def position(self, position: int, behind: bool = False) -> int:
        """Where a position of the editor's text is in the engine's, before or behind what came in there."""
        return moved(position, self._pending(), self.units, behind)

    def kept(self, begin: int, end: int) -> list[tuple[int, int]]:
        """Where a stretch of the editor's text is in the engine's, as far as it is still there, and without what came in there."""
        return kept_between(begin, end, self._pending(), self.units)

    def edit(self, version: int, changes: Sequence[tuple[int, int, str]], length: int) -> tuple[Op, Op]:
        """An edit that was made in a version, transformed for the engine's text, whose length in units is given; and what is to
        be sent after it. Nothing has changed yet."""
        self.seen(version)
        pending = self._pending()
        own = op_of(changes, length - growth(pending, self.units), self.units)
        self._last = own, pending
        return transformed(own, pending, self.units)

    def edited(self, left: Op) -> None:
        """Counts the edit as the editor's next one; what it has yet to take over then is given."""
        self._sent, self._unsent = [], [left] if left else []
        self.edits += 1

    def met(self) -> list[Met]:
        """What the insertions of the last edit met at their places, as the engine's text had it before that edit."""
        return met_by(*self._last, self.units)

    @property
    def is_one_change(self) -> bool:
        """Whether the last edit was one change in its editor's text."""
        return len(in_text(self._last[0], self.units)) == 1

    def moved_behind(self, behind: Mapping[int, int]) -> Op:
        """Has what the last edit, which was counted just now, inserted stand behind so many units of what it met at each place;
        the edit then."""
        own, left = transformed(*self._last, self.units, behind)
        self._unsent = [left] if left else []
        return own

    def _pending(self) -> Op:
        """What the engine's text has that the editor's hasn't."""
        if not (self._sent or self._unsent):
            return NOTHING
        return all_composed([op for _, op in self._sent] + self._unsent, self.units)


def op_of(changes: Sequence[tuple[int, int, str]], length: int, units: Units) -> Op:
    """The op of an editor's changes, given the length of its text in units."""
    found = []
    for begin, end, text in changes:
        if not 0 <= begin <= end <= length:
            raise Wrong("outside", f"From {begin} to {end} is no stretch of a text of {length} units.")
        try:
            data = units.encode(text)
        except UnicodeEncodeError as why:
            raise Wrong("split", "A text has half a surrogate pair.") from why
        found.append((begin, end, data))
        length += units.count(data) - (end - begin)
    return of_change(*found[0]) if len(found) == 1 else of_changes(found, units)


def _size(op: Op) -> int:
    """How many bytes an op takes, about."""
    return sum(len(part) if isinstance(part, bytes) else NUMBER_BYTES for part in op)
