"""Which threads may be shown within a stretch of the text, without looking where each of them is. A thread is looked for where its
characters were, with all that was between them: there they go and come back. What comes back and was never seen since it was looked for
is noted."""
from collections.abc import Iterable, Sequence
from typing import NamedTuple

from share.engine.any_shown import AnyShown, NamesSet
from share.engine.spots import Followed, Placed
from share.format.operation import RESTORE, Operation
from share.program.site import Site
from share.review.places import NameIndex, NameSet, Spans
from share.text.change import Change
from share.text.names import Name, Names

# The most changes of the text that places are followed over, and the most threads that are looked at wherever they are.
MOST_FOLLOWED = 2_000
# The most times that what was hidden at first is told apart.
MOST_TOLD_APART = 8


class Settled(NamedTuple):
    """A thread that was looked at: its characters, where it is, and whether that one of them is seen by whose place it is shown where
    none of them is."""

    name: Name
    names: NamesSet
    placed: Placed
    sees_head: bool


class _Hidden(NamedTuple):
    """Threads of which a part was hidden as they were first looked at, by their characters; and what was seen since."""

    threads: NameIndex[Name]
    seen: NameSet


class Nearby:
    """Threads by where they are, or were."""

    def __init__(self) -> None:
        # The changes since they were looked at; None where that can't be followed.
        self.changes: list[Change] | None = []
        # Those that are looked at wherever they are.
        self.anywhere = set[Name]()
        # From where to where each is looked for, before the changes.
        self._around, self._spans = dict[Name, tuple[int, int]](), Spans[Name]([])
        self._hidden = list[_Hidden]()
        # Those that are elsewhere than they are looked for where none of their characters is shown.
        self._heads = AnyShown()
        # Whether changes are followed: from when threads are first looked at.
        self._follows = False
        # While they are being looked at: those that were partly hidden, and what came back and went since that began.
        self._new, self._restored, self._went = _Hidden(NameIndex(), NameSet()), list[Names](), NameSet()
        self._is_looking = False

    def moved(self, change: Change, is_known: bool) -> None:
        """Follows a change of the text, of which it may be known that it is what came or went."""
        if self.changes is not None and self._follows:
            self.changes.append(change)
            if not is_known or len(self.changes) > MOST_FOLLOWED:
                self.changes = None

    def follow(self, run: Operation) -> None:
        """Notes what an operation hides and shows."""
        if run.kind == RESTORE:
            for one in self._hidden:
                self.anywhere |= one.threads.meeting(one.seen.lacks(run.mentions))
        if self._is_looking and run.kind == RESTORE:
            self._restored += run.mentions
        elif self._is_looking:
            self._went.add(run.mentions)
        self._heads.follow(run)

    def look(self, site: Site) -> None:
        """Asks the program where it has to."""
        self.anywhere |= self._heads.look(site)

    def has_to_settle(self) -> bool:
        """Whether all are to be looked at."""
        return self.changes is None or len(self.anywhere) > MOST_FOLLOWED

    def within(self, begin: int, end: int) -> set[Name]:
        """The threads that may be shown within a stretch or at it."""
        low, high = Followed(self.changes or []).before(begin, end)
        return self.anywhere.union(self._spans.meeting(max(0, low), max(0, low) + max(1, high - low + 1)))

    def add(self, name: Name) -> None:
        """Adds a thread, or has it be another one than before."""
        self.anywhere.add(name)
        self._around.pop(name, None)
        self._heads.remove(name)

    def needs_all(self) -> bool:
        """Whether all are to be looked at as it settles."""
        return self.changes is None or len(self._hidden) > MOST_TOLD_APART

    def settle(self, kept: Followed | None, looked_at: Iterable[Settled], seen: Sequence[Names], site: Site) -> None:
        """Takes over where those are that were looked at, of whose characters this is shown; all others have moved along with the changes,
        where they can be followed."""
        if kept is None:
            self._around, self._hidden, self._heads = {}, [], AnyShown()
        else:
            self._around = {name: kept.around(*one) for name, one in self._around.items()}
        self.anywhere = set()
        self.begin()
        self.put(looked_at, None)
        self.end(seen, site)

    def begin(self) -> None:
        """Begins to look at threads, and follows changes from now on."""
        self._follows = self._is_looking = True
        self._new, self._restored, self._went = _Hidden(NameIndex(), NameSet()), [], NameSet()

    def put(self, looked_at: Iterable[Settled], since: Followed | None) -> None:
        """Takes over where some are now, after changes since that began, if there are any."""
        for one in looked_at:
            self._put(one, since)

    def end(self, seen: Sequence[Names], site: Site) -> None:
        """All were looked at, of whose characters this was shown when they were."""
        new, self._is_looking = self._new, False
        self._hidden += [new] if new.threads else []
        for hidden in self._hidden:
            hidden.seen.add(self._went.lacks(seen))
        self.anywhere |= new.threads.meeting(self._restored)
        self._spans = Spans((begin, end, name) for name, (begin, end) in self._around.items())
        self._heads.look(site)

    def _put(self, one: Settled, since: Followed | None) -> None:
        """Takes over where one is."""
        placed, spot = one.placed, one.placed.spot
        found = [*([placed.all] if placed.all else []), *([(spot.begin, spot.end)] if spot.begin is not None else [])]
        if not found:
            if spot.hidden:
                self.anywhere.add(one.name)
            return
        is_first, around = one.name not in self._around, [(begin - 1, end + 1) for begin, end in found]
        if since:
            around = [since.around_then(*each) for each in around]
        around += [] if is_first else [self._around[one.name]]
        self._around[one.name] = min(begin for begin, _ in around), max(end for _, end in around)
        is_partial = is_first and not placed.is_whole
        if is_partial:
            self._new.threads.add(one.names, one.name)
        if one.sees_head:
            self._heads.remove(one.name)
        elif is_first:
            self._heads.add(one.name, one.names)
