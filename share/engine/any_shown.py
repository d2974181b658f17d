"""Of sets of characters: whether any of them is shown. One that is shown is kept in mind of each, so that the program is asked again only
where that one is hidden, or where one comes back of those of which none was."""
import random
from dataclasses import dataclass, field

from share.engine.whereabouts import Whereabouts
from share.format.operation import DELETE, RESTORE, Operation
from share.program.site import Site
from share.review.places import NameIndex
from share.text.names import Name, Names

# A set of characters, as an anchor names it.
NamesSet = tuple[Names, ...]


@dataclass(slots=True)
class _Watched:
    """A set of characters, of which threads are."""

    names: NamesSet
    threads: set[Name] = field(default_factory=set)
    # One of them that is shown, where one is.
    shown: Name | None = None


class AnyShown:
    """Whether any is shown of sets of characters, each of which threads hang on."""

    def __init__(self) -> None:
        self._watched, self._of = dict[NamesSet, _Watched](), dict[Name, NamesSet]()
        # By the site and the place of the one that is kept in mind; and those of which none is shown, or was at some time.
        self._by_shown, self._none = dict[int, dict[int, set[NamesSet]]](), NameIndex[NamesSet]()
        self._due = set[NamesSet]()
        # Which one is kept in mind is chosen by chance: else many would hang on the first one, which is deleted first.
        self._chance = random.Random(1)

    def add(self, thread: Name, names: NamesSet) -> None:
        """Has a thread hang on some characters, and no others."""
        if self._of.get(thread) != names:
            self.remove(thread)
            self._of[thread] = names
            if names not in self._watched:
                self._watched[names] = _Watched(names)
                self._due.add(names)
            self._watched[names].threads.add(thread)

    def remove(self, thread: Name) -> None:
        """Has a thread hang on none."""
        names = self._of.pop(thread, None)
        if names is not None:
            self._watched[names].threads.discard(thread)

    def follow(self, run: Operation) -> None:
        """Notes what an operation hides and shows."""
        if run.kind == DELETE:
            for site, at, length in run.mentions:
                near = self._by_shown.get(site, {})
                for place in range(at, at + length) if length < len(near) else [one for one in near if at <= one < at + length]:
                    self._due |= near.get(place, set())
        elif run.kind == RESTORE:
            self._due.update(one for one in self._none.meeting(run.mentions) if self._watched[one].shown is None)

    def look(self, site: Site) -> set[Name]:
        """The threads of which it is otherwise than before; at first none is shown."""
        if not self._due:
            return set()
        whereabouts, changed = Whereabouts((names for one in self._due for names in one), site), set[Name]()
        for names in self._due:
            one = self._watched[names]
            before, one.shown = one.shown, whereabouts.some(names, self._chance.getrandbits(32))
            self._file(one, before)
            if (before is None) is not (one.shown is None):
                changed |= one.threads
        self._due = set()
        return changed

    def _file(self, one: _Watched, before: Name | None) -> None:
        """Files a set under the character that is kept in mind."""
        if before:
            near = self._by_shown[before[0]]
            near[before[1]].discard(one.names)
            if not near[before[1]]:
                del near[before[1]]
        if one.shown:
            self._by_shown.setdefault(one.shown[0], {}).setdefault(one.shown[1], set()).add(one.names)
        else:
            self._none.add(one.names, one.names)

    def is_shown(self, thread: Name) -> bool:
        """Whether one is shown of those that a thread hangs on, as of the last look."""
        names = self._of.get(thread)
        return names is not None and self._watched[names].shown is not None
