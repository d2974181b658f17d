"""Where entries are in the file for which there was no room in memory, so that they can be read again when there is."""
from array import array
from collections import deque
from collections.abc import Callable, Iterable
from itertools import islice
from typing import NamedTuple

from share.admission.ledger import Row

# The most entries that are read again in one go.
READ_AGAIN_AT_ONCE = 1_000


class DroppedOf(NamedTuple):
    """Whose entries were dropped: whether they were copied as the note began, and of which text and site they are."""

    is_base: bool
    text: int
    site: int


class Backlog:
    """The places of entries that were dropped, by their sites."""

    def __init__(self) -> None:
        # Of each site's chains the seqs of the entries' first messages, and their places.
        self._sites: dict[int, dict[DroppedOf, tuple[array[int], array[int]]]] = {}
        self._size = 0

    def __len__(self) -> int:
        return self._size

    def add(self, rows: Iterable[Row]) -> None:
        """Notes where entries are."""
        for row in rows:
            entry = row.entry
            chain = DroppedOf(entry.kind.is_base, entry.text, entry.site)
            firsts, places = self._sites.setdefault(entry.site, {}).setdefault(chain, (array("I"), array("Q")))
            firsts.append(entry.first)
            places.append(row.place)
            self._size += 1

    def take(self, sites: Iterable[int]) -> list[int]:
        """The places of what was dropped of sites, that first which has its turn first; they aren't noted any more."""
        found, chains = list[int](), [chain for site in sites for chain in self._sites.pop(site, {}).items()]
        # A base is in the order of its texts and sites, and known from its last message back: in any other order each reading would find
        # one entry of it.
        for chain, (firsts, places) in sorted(chains, key=lambda one: one[0], reverse=True):
            found += [place for _, place in sorted(zip(firsts, places), reverse=chain.is_base)]
        self._size -= len(found)
        return found

    def take_all(self) -> list[int]:
        """The places of all that was dropped; they aren't noted any more."""
        return self.take([*self._sites])


class ReadAgain:
    """The places of entries whose turn it is to be read again."""

    def __init__(self) -> None:
        self._places = deque[int]()

    def __len__(self) -> int:
        return len(self._places)

    def add(self, places: Iterable[int]) -> None:
        """Has the entries at these places have their turn after the others."""
        self._places += places

    def read(self, row_at: Callable[[int], Row | None], most: float) -> list[Row]:
        """The next rows, until they have this many bytes. Where one of them can't be read now all of them are the next time."""
        found, done = dict[int, Row](), 0
        for place in islice(self._places, READ_AGAIN_AT_ONCE):
            if most <= 0:
                break
            if row := row_at(place):
                found[place] = row
                most -= len(row.entry.raw)
            done += 1
        for _ in range(done):
            self._places.popleft()
        return [*found.values()]
