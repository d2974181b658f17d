"""Entries that are in no chain: those that lack one before them (loose ones), those that a smaller hash keeps from counting, and
those that follow no right place."""
import heapq
from collections.abc import Iterator, Sequence
from dataclasses import dataclass

from share.admission.branches import Branches
from share.admission.ledger import Row, Who
from share.format.entry import Entry

# What an entry that is kept whole costs beside its bytes.
OVERHEAD = 1_000


@dataclass(slots=True)
class _One:
    """An entry, how far its insertions go and how many characters they have, and whether it lacks one before it. What was let
    through once, or was made here, is never dropped."""

    row: Row
    end: int
    typed: int
    is_loose: bool
    stays: bool


class Unchained:
    """Entries that are in no chain, by their hashes."""

    def __init__(self) -> None:
        self._kept: dict[bytes, _One] = {}
        # Those that follow each entry, whether that one is here or not.
        self._after: dict[bytes, list[bytes]] = {}
        self._of: dict[Who, set[bytes]] = {}
        # The loose ones of each site and author that may be dropped, the furthest first.
        self._furthest: dict[Who, list[tuple[int, bytes]]] = {}
        # How many bytes may be dropped, of all and by site and author; and how many messages are loose.
        self.weight = 0
        self.weights: dict[Who, int] = {}
        self.loose_messages = self.loose_entries = 0
        # How far the insertions of each site go that were left out.
        self.ends: dict[int, int] = {}
        self._branches: Branches | None = None

    def __contains__(self, of: bytes) -> bool:
        return of in self._kept

    def __len__(self) -> int:
        return len(self._kept)

    def __iter__(self) -> Iterator[Row]:
        return (one.row for one in self._kept.values())

    def row(self, of: bytes) -> Row:
        """The entry that has a hash."""
        return self._kept[of].row

    def is_loose(self, of: bytes) -> bool:
        """Whether an entry lacks one before it."""
        return self._kept[of].is_loose

    def branches(self) -> Branches:
        """Which entries each is chained to."""
        if self._branches is None:
            self._branches = Branches({of: one.row.entry for of, one in self._kept.items()}, self._after)
        return self._branches

    def of(self, who: Who) -> list[Row]:
        """The entries of a site and author."""
        return [self._kept[one].row for one in self._of.get(who, ())]

    def add(self, row: Row, is_loose: bool, stays: bool = False) -> None:
        """Adds an entry; what follows it lacks no more than it does."""
        entry = row.entry
        typed = [(run.at + len(run.data), len(run.data)) for run in entry.operations if run.data] if entry.size else []
        end = max((last for last, _ in typed), default=0)
        one = _One(row, end, sum(size for _, size in typed), is_loose, stays or row.made)
        self._kept[entry.hash] = one
        self._branches = None
        self._after.setdefault(entry.before, []).append(entry.hash)
        who = entry.site, entry.author
        self._of.setdefault(who, set()).add(entry.hash)
        if not one.stays:
            self.weights[who] = self.weights.get(who, 0) + weight(entry)
            self.weight += weight(entry)
        if is_loose:
            self.loose_messages += entry.size
            self.loose_entries += 1
            if not one.stays:
                heapq.heappush(self._furthest.setdefault(who, []), (-entry.first, entry.hash))
        else:
            self.ends[entry.site] = max(self.ends.get(entry.site, 0), end)
            self.settle(entry.hash)

    def remove(self, of: bytes) -> Row:
        """Takes an entry out, which has its place in a chain now, or is dropped."""
        one = self._kept.pop(of)
        self._branches = None
        entry = one.row.entry
        who = entry.site, entry.author
        after = self._after[entry.before]
        after.remove(of)
        if not after:
            del self._after[entry.before]
        self._of[who].discard(of)
        if not one.stays:
            self.weights[who] -= weight(entry)
            self.weight -= weight(entry)
        if one.is_loose:
            self.loose_messages -= entry.size
            self.loose_entries -= 1
        if not self._of[who]:
            self._of.pop(who)
            self.weights.pop(who, None)
            self._furthest.pop(who, None)
        return one.row

    def settle(self, of: bytes, but: bytes | None = None) -> bool:
        """Notes that what follows an entry that is here lacks nothing, but for one that goes on from it in a chain; whether something
        did."""
        roots, some = [of], False
        while roots:
            for each in self._after.get(roots.pop(), ()):
                one = self._kept[each]
                if one.is_loose and each != but:
                    entry = one.row.entry
                    one.is_loose = False
                    self.loose_messages -= entry.size
                    self.loose_entries -= 1
                    self.ends[entry.site] = max(self.ends.get(entry.site, 0), one.end)
                    roots.append(each)
                    some = True
        return some

    def after(self, of: bytes) -> list[Row]:
        """The entries here that follow one."""
        return [self._kept[each].row for each in self._after.get(of, ())]

    def speaks_of(self, hashes: Sequence[bytes]) -> bool:
        """Whether one of some entries is here, or followed by one that is."""
        return not (self._kept.keys().isdisjoint(hashes) and self._after.keys().isdisjoint(hashes))

    def loose(self) -> list[Entry]:
        """The entries for which an entry before them is missing, the lowest first of each site."""
        found = [one.row.entry for one in self._kept.values() if one.is_loose]
        return sorted(found, key=lambda entry: (entry.site, entry.first, entry.hash))

    def settled(self) -> Iterator[tuple[Entry, int]]:
        """The others, and how many characters they inserted."""
        return ((one.row.entry, one.typed) for one in self._kept.values() if not one.is_loose)

    def missing(self) -> Iterator[bytes]:
        """The hashes of the entries that are missing, at which what is loose begins."""
        return (before for before, after in self._after.items() if self._kept[after[0]].is_loose and before not in self._kept)

    def may_be_dropped(self, of: bytes) -> bool:
        """Whether an entry is here and may be dropped."""
        return of in self._kept and not self._kept[of].stays

    def furthest(self, who: Who) -> bytes | None:
        """The furthest loose entry of a site and author that may be dropped."""
        heap = self._furthest.get(who, [])
        while heap:
            one = self._kept.get(heap[0][1])
            if one and one.is_loose:
                return heap[0][1]
            heapq.heappop(heap)
        return None


def weight(entry: Entry) -> int:
    """How many bytes an entry takes that is kept whole."""
    return len(entry.raw) + len(entry.spelled) + OVERHEAD
