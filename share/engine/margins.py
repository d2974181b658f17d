"""A note's margin as its editors are shown it: its threads, where each is in the text, and how many are open. It follows what comes into
the margin and into the text; where a thread is, is looked for only where that is asked for."""
from collections import deque
from collections.abc import Iterable, Sequence
from itertools import islice
from typing import NamedTuple

from share.engine.any_shown import AnyShown
from share.engine.nearby import Nearby, Settled
from share.engine.spots import Followed, Placed, Spot, asked, head, placed
from share.engine.whereabouts import Whereabouts
from share.format.operation import INSERT, Operation
from share.program.order import FullOrder
from share.program.site import Site
from share.review.anchor import Knows, Sums, holds, lacking
from share.review.margin import AboutText, Margin, RecordKey, Thread
from share.review.places import NameIndex, NameSet
from share.review.record import MarginKind, MarginState
from share.sync.session import Session
from share.text.change import Change
from share.text.names import Name, Names, united

# The most threads that are shown; how many messages are handed to the second run of the program at once; and how many messages and
# threads are looked at before keys are.
MOST_THREADS, MOST_ORDERED_AT_ONCE, MOST_IN_A_SLICE = 100_000, 20_000, 300


class Stood(NamedTuple):
    """A thread, and where it is."""

    thread: Thread
    spot: Spot

    @property
    def is_open(self) -> bool:
        """Whether somebody is still to do something about it."""
        return self.thread.state is MarginState.OPEN and not self.spot.is_accepted


class FoundThread(NamedTuple):
    """Which thread is where."""

    name: Name
    # By which those at one place are ordered.
    key: RecordKey
    spot: Spot


class Passages:
    """The characters that threads are about, and what came in directly behind one of them."""

    def __init__(self) -> None:
        self._about, self._behind = NameSet(), NameSet()

    def add(self, names: Iterable[Names]) -> None:
        """Adds characters that a thread is about."""
        self._about.add(names)

    def has(self, run: Operation) -> bool:
        """Whether one of them is inserted, hidden or shown."""
        return self._about.meets(run.names)

    def has_behind(self, run: Operation) -> bool:
        """Whether something comes in directly behind one of them, or goes again: a passage may be another then."""
        if run.kind != INSERT:
            return self._behind.meets(run.names)
        is_behind = self._about.meets(run.mentions)
        if is_behind:
            self._behind.add(run.names)
        return is_behind


class ShownMargin:
    """The threads that are shown. The engine's thread alone calls it."""

    _search: "_Search | None"

    def __init__(self, session: Session):
        self._session = session
        self.order = FullOrder()
        self.forget()
        # Rises as the margin, or what is told of a thread, may be otherwise, once all is looked at; whether it is to rise then.
        self.times, self._is_news = 0, False

    def forget(self) -> None:
        """Begins anew, with nothing."""
        # Where threads were as all were looked at, and which are near; what came and went of their characters since.
        self._spots, self._nearby, self._touched = dict[Name, Spot](), Nearby(), list[Names]()
        # Those that may be otherwise and are to be looked at; and where all are being looked for.
        self._waiting, self._search = deque[Name](), None
        # What they are about; those that hold; what others lack for that.
        self._about, self._held, self._lacking = dict[Name, AboutText](), set[Name](), NameIndex[Name]()
        # All characters that they are about, and who is about some.
        self._names, self._of_names = Passages(), NameIndex[Name]()
        # Of suggestions what is shown as one is accepted, or isn't where nothing is suggested instead.
        self._replaced = AnyShown()
        # Those that are open by what is said of them, and those that are.
        self._said_open, self._open = set[Name](), set[Name]()
        # Those that may hold now, and those that may be open now or not.
        self._due, self._counted = set[Name](), set[Name]()
        # All in the order of their places, as long as nothing has changed since somebody asked.
        self.ordered: list[FoundThread] | None = None

    def moved(self, change: Change, is_known: bool) -> None:
        """Follows a change of the text, of which it may be known that it is what came or went."""
        self.ordered = None
        for near in self._all_nearby():
            near.moved(change, is_known)

    def _all_nearby(self) -> list[Nearby]:
        """What follows which threads are near."""
        return [self._nearby, *([self._search.nearby] if self._search else [])]

    def look(self) -> None:
        """Takes over all that came into the margin and the text."""
        while self.look_on():
            pass

    def look_on(self) -> bool:
        """Takes over some of what came; whether there is more. Where that fails all is looked at anew the next time."""
        try:
            self._look_on()
            return bool(self._waiting) or self._session.margin.has_more()
        except BaseException:
            self._session.margin.forget()
            raise

    def _look_on(self) -> None:
        margin = self._session.margin
        changed, (messages, is_anew) = margin.read_on(MOST_IN_A_SLICE), margin.of_text.more()
        if changed is None or is_anew:
            self.forget()
            changed, self._is_news = {*margin.said.threads()}, True
        else:
            came = [*messages.runs()] if self._spots else []
            runs = [run for run in came if self._names.has(run)]
            self._is_news |= bool(changed or runs) or any([self._names.has_behind(run) for run in came])
            self.ordered = None if changed or runs or self._waiting else self.ordered
            for run in runs:
                self._follow(run)
        self._waiting.extend(sorted(changed, key=margin.said.key))
        self._touch(self._waiting.popleft() for _ in range(min(MOST_IN_A_SLICE, len(self._waiting))))
        self._hold()
        self._count()
        for near in self._all_nearby():
            near.look(self._session.site)
        if self._is_news and not (self._waiting or margin.has_more()):
            self.times, self._is_news = self.times + 1, False

    def _follow(self, run: Operation) -> None:
        """Notes what came or went of what threads are about."""
        self._touched += run.names
        for near in self._all_nearby():
            near.follow(run)
        self._replaced.follow(run)
        if run.data:
            self._due |= self._lacking.meeting(run.names)

    def _touch(self, names: Iterable[Name]) -> None:
        """Notes that threads may be otherwise, or are new."""
        said = self._session.margin.said
        for name in names:
            if name not in self._spots and len(self._spots) >= MOST_THREADS:
                continue
            self._spots.setdefault(name, Spot())
            (self._said_open.add if said.thread(name).state is MarginState.OPEN else self._said_open.discard)(name)
            self._counted.add(name)
            about = said.about(name)
            if about != self._about.get(name):
                self._about[name] = about
                self._names.add(asked(about))
                self._of_names.add(asked(about), name)
                self._due.add(name)

    def _hold(self) -> None:
        """Looks whether those hold that may."""
        knows = self._session.margin.knows()
        sums = Sums(knows)
        for name in self._due:
            about = self._about[name]
            if holds(about.anchor, about.new, name[0], knows, sums):
                self._held.add(name)
                if about.kind is MarginKind.SUGGESTION:
                    self._replaced.add(name, about.new or about.anchor.at)
            else:
                self._held.discard(name)
                self._replaced.remove(name)
                lacks = lacking(about.anchor, about.new, knows)
                self._lacking.add([Names(*lacks, 1)] if lacks else [], name)
            for near in self._all_nearby():
                near.add(name)
        self._counted |= self._due
        self._due = set()

    def _count(self) -> None:
        """Looks whether those are open that may be so now or not."""
        self._counted |= self._replaced.look(self._session.site)
        for name in self._counted:
            (self._open.add if name in self._said_open and not self._is_accepted(name) else self._open.discard)(name)
        self._counted = set()

    def _is_accepted(self, name: Name) -> bool:
        about = self._about[name]
        is_held = about.kind is MarginKind.SUGGESTION and name in self._held
        return is_held and self._replaced.is_shown(name) is bool(about.new)

    def counts(self) -> tuple[int, int]:
        """How many threads there are, and how many of them are open."""
        return len(self._spots), len(self._open)

    def is_open(self, name: Name) -> bool:
        """Whether somebody is still to do something about a thread."""
        return name in self._open

    def lacks(self, spots: Iterable[Spot]) -> int:
        """How many messages the order of all characters lacks, where it is asked for places of these."""
        history = self._session.site.history
        return self.order.lacks(history, len(history)) if any(spot.hidden and spot.begin is None for spot in spots) else 0

    def one(self, name: Name) -> Stood | None:
        """A thread, and where it is now."""
        if name not in self._spots:
            return None
        (shown,) = self.stood(self.in_places(self._located([name])))
        return shown

    def stood(self, found: Iterable[FoundThread]) -> list[Stood]:
        """These threads, and where they are."""
        return [Stood(self._session.margin.said.thread(one.name), one.spot) for one in found]

    def search_on(self) -> bool:
        """Looks where some of all threads are, if all are to be looked for; whether there are more. Where that fails all is looked at anew
        the next time."""
        try:
            if self._search is None and self._nearby.has_to_settle():
                self._begin_search()
            return self._search is not None and self._go_on_with(self._search)
        except BaseException:
            self._session.margin.forget()
            raise

    def _begin_search(self) -> None:
        held = [name for name in self._spots if name in self._held]
        self._search, self._touched, self.ordered = _Search(held), [], None
        self._spots |= {name: Spot() for name in self._spots if name not in self._held}

    def _go_on_with(self, search: "_Search") -> bool:
        """Looks where some are; whether there are more."""
        changes, site, self.ordered = search.nearby.changes, self._session.site, None
        if changes is None:
            self._search = None
            return True
        names = search.next()
        abouts = {name: self._about[name] for name in names if name in self._held}
        whereabouts = Whereabouts((some for about in abouts.values() for some in asked(about)), site)
        found = {name: placed(about, whereabouts) for name, about in abouts.items()}
        # A hidden character's place is told as it is now.
        if not changes and self.lacks(spots := [one.spot for one in found.values()]) <= MOST_ORDERED_AT_ONCE:
            _with_places(spots, site, self.order)
        since = Followed(changes) if changes else None
        search.put([_settled(name, abouts[name], one, whereabouts) for name, one in found.items()], whereabouts.shown(), since)
        self._spots |= {name: one.spot if not since or since.moved_back(one.spot) else search.lost(name) for name, one in found.items()}
        if not names:
            self._nearby, self._search = search.settled(site), None
        return bool(names)

    def within(self, begin: int, end: int) -> list[FoundThread]:
        """The threads that are shown within a stretch, in their order there; places of hidden characters are left out, where these may be
        within it."""
        if self._nearby.has_to_settle():
            self._settle()
        return self._located(self._nearby.within(begin, end))

    def all(self) -> list[FoundThread]:
        """All threads."""
        self._settle()
        key = self._session.margin.said.key
        return [FoundThread(name, key(name), spot) for name, spot in self._spots.items()]

    def in_order(self) -> Sequence[FoundThread]:
        """All threads in the order of their places; found once, however many parts of that are asked for before something changes."""
        if self.ordered is None:
            self.ordered = self.in_places(self.all())
        return self.ordered

    def _settle(self) -> None:
        """Looks where all are now, those of which no character went or came by the changes of the text alone."""
        near = self._nearby
        changes, touched = near.changes, near.anywhere | self._of_names.meeting(united(self._touched))
        kept = None if near.needs_all() else Followed(changes or [])
        # Where that fails all are looked at the next time.
        near.changes = None
        lost = [name for name, spot in self._spots.items() if kept is None or name in touched or changes and not kept.moved(spot)]
        if lost or changes:
            self._look_at(lost, kept)
        near.changes, self._touched = [], []

    def _look_at(self, lost: list[Name], kept: Followed | None) -> None:
        """Looks where some are, where all others have moved along."""
        site, abouts = self._session.site, {name: self._about[name] for name in lost if name in self._held}
        whereabouts = Whereabouts((names for about in abouts.values() for names in asked(about)), site)
        found = {name: placed(about, whereabouts) for name, about in abouts.items()}
        spots = [one.spot for one in found.values()]
        if self.lacks(spots) <= MOST_ORDERED_AT_ONCE:
            _with_places(spots, site, self.order)
        self._spots |= {name: found[name].spot if name in found else Spot() for name in lost}
        looked_at = (_settled(name, abouts[name], one, whereabouts) for name, one in found.items())
        self._nearby.settle(kept, looked_at, whereabouts.shown(), site)

    def _located(self, names: Iterable[Name]) -> list[FoundThread]:
        """Where some are now, but for places of hidden characters."""
        about, key = self._about, self._session.margin.said.key
        return located([(name, key(name), about[name] if name in self._held else None) for name in names], self._session.site)

    def in_places(self, found: Iterable[FoundThread]) -> list[FoundThread]:
        """The same in the order of their places, with those of hidden characters; those that aren't here last."""
        return in_places(found, self._session.site, self.order)

    def close(self) -> None:
        """Ends the second run of the program, where there is one."""
        self.order.close()


class _Search:
    """Threads that are looked for some at a time, as of the moment in which that began; and what follows since which of them are near."""

    def __init__(self, names: Iterable[Name]):
        self._left, self._seen = iter(names), list[Names]()
        self.nearby = Nearby()
        self.nearby.begin()

    def next(self) -> list[Name]:
        """Some that weren't looked for; none once all were."""
        return [*islice(self._left, MOST_IN_A_SLICE)]

    def put(self, found: Iterable[Settled], seen: Iterable[Names], since: Followed | None) -> None:
        """Takes over where some are now, after changes since it began, if there are any, and what of their characters is shown."""
        self.nearby.put(found, since)
        self._seen += seen

    def lost(self, name: Name) -> Spot:
        """Has one be looked for wherever it is, since it wasn't there as this began."""
        self.nearby.anywhere.add(name)
        return Spot()

    def settled(self, site: Site) -> Nearby:
        """What follows them, once all were looked for."""
        self.nearby.end(self._seen, site)
        return self.nearby


def _settled(name: Name, about: AboutText, one: Placed, whereabouts: Whereabouts) -> Settled:
    by, begin = head(about.anchor), one.spot.begin
    sees_head = (one.spot.hidden == by and begin is not None or whereabouts.of(Names(*by, 1)) is not None) if by[0] else begin == 0
    return Settled(name, tuple(asked(about)), one, sees_head)


def threads_of(said: Margin, site: Site, knows: Knows) -> list[Stood]:
    """The threads of a margin, and where they are in a text that stays as it is, in the order of their places."""
    order, sums = FullOrder(), Sums(knows)

    def held(name: Name) -> AboutText | None:
        about = said.about(name)
        return about if holds(about.anchor, about.new, name[0], knows, sums) else None
    try:
        found = located([(name, said.key(name), held(name)) for name in islice(said.threads(), MOST_THREADS)], site)
        return [Stood(said.thread(one.name), one.spot) for one in in_places(found, site, order)]
    finally:
        order.close()


def located(threads: Sequence[tuple[Name, RecordKey, AboutText | None]], site: Site) -> list[FoundThread]:
    """Where threads are now, but for places of hidden characters; nowhere those of which it isn't known what they are about."""
    whereabouts = Whereabouts((names for _, _, about in threads if about for names in asked(about)), site)
    return [FoundThread(name, key, placed(about, whereabouts).spot if about else Spot()) for name, key, about in threads]


def in_places(found: Iterable[FoundThread], site: Site, order: FullOrder) -> list[FoundThread]:
    """Threads in the order of their places, with those of hidden characters; those that aren't here last."""
    found = [*found]
    _with_places([one.spot for one in found], site, order)
    return sorted(found, key=lambda one: (one.spot.begin is None, one.spot.begin or 0, one.key))


def _with_places(spots: Sequence[Spot], site: Site, order: FullOrder) -> None:
    """Has spots be where hidden characters would be."""
    hidden = [spot for spot in spots if spot.hidden and spot.begin is None]
    if hidden:
        order.take(site.history, site.history[:])
    places = {name: order.place(name, site) for name in {spot.hidden for spot in hidden} if name}
    for spot in hidden:
        place = places[spot.hidden] if spot.hidden else None
        if place is not None:
            spot.begin = spot.end = place
