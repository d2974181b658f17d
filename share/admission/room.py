"""How much of what doesn't count is kept in memory, half of it in equal parts for the numbers that are claimed. What is too much is given
back, and may be added again when its turn comes; so room never changes what counts. What is said of copies, and of what was made anew, has
half as much besides: half of that is for all who hold no number, a quarter for whoever comes first, and a quarter in equal parts for the
numbers. Nothing makes room for it."""
from share.admission.ledger import Row, Who
from share.admission.outside import Unchained, weight
from share.format.entry import Entry, Kind

# What each stretch costs of which an entry says that it was copied.
STRETCH_OVERHEAD = 500


class GivenBack:
    """What was given back, and whose turn it is. Without a size there is always room."""

    def __init__(self, size: int | None = None):
        self.is_bounded = size is not None
        self._size = size or 0
        self._given_back: list[Row] = []
        # The sites of which entries were given back, and those of them that have room again.
        self.lacking: set[int] = set()
        self._turns: set[int] = set()
        # How many bytes of what was said are kept, by number and author, of those who hold theirs and of all others.
        self._said: dict[Who, int] = {}
        self._said_by_holders = self._said_by_others = 0

    def admits_what_is_said(self, row: Row, weight: int, holds: bool, claimed: int) -> bool:
        """Whether what somebody says, who holds his number or doesn't, is to be kept, in so many bytes; else it is given back."""
        if not self.is_bounded or row.made:
            return True
        who, part = (row.entry.site, row.entry.author), self._size // 4
        said = self._said.get(who, 0) + weight
        if holds and (self._said_by_holders + weight <= part // 2 or said <= self.share(claimed) // 4):
            self._said_by_holders += weight
        elif not holds and self._said_by_others + weight <= part:
            self._said_by_others += weight
        else:
            self.give_back(row, lacks=False)
            return False
        self._said[who] = said
        return True

    def give_back(self, row: Row, lacks: bool = True) -> None:
        """Notes that an entry isn't in memory any more, and whether it has another turn when its chain goes on."""
        self._given_back.append(row)
        if lacks:
            self.lacking.add(row.entry.site)

    def given_back(self) -> list[Row]:
        """What was given back since this was last asked."""
        found, self._given_back = self._given_back, []
        return found

    def moved(self, site: int) -> None:
        """Notes that a chain went on, so that there may be room for what it lacks."""
        if site in self.lacking:
            self._turns.add(site)

    def turns(self) -> set[int]:
        """The sites of which entries were given back, and for which there may be room now. Says so once."""
        turns, self._turns = self._turns, set()
        self.lacking -= turns
        return turns

    def share(self, claimed: int) -> int:
        """How many bytes a number that is claimed has."""
        return self._size // 2 // (claimed + 1)


class Room(GivenBack):
    """What there is room for of entries of the first form."""

    def __init__(self, size: int | None, outside: Unchained):
        super().__init__(size)
        self._outside = outside

    def admits(self, row: Row, holds: bool, claimed: int) -> bool:
        """Whether an entry without messages is to be kept, whose author holds his number or doesn't; else it is given back."""
        entry = row.entry
        if entry.kind not in (Kind.ANEW, Kind.COPIES):
            return True
        many = len(entry.copied.stretches) if entry.kind is Kind.COPIES else 0
        return self.admits_what_is_said(row, weight(entry) + STRETCH_OVERHEAD * many, holds, claimed)

    def is_too_much(self, row: Row, pending: int, claimed: int) -> bool:
        """Whether there is no room for one more entry of a chain that waits, of whose entries these bytes are kept."""
        return self.is_bounded and not row.made and pending + weight(row.entry) > self.share(claimed)

    def make(self, entry: Entry, holds: bool, claimed: int) -> None:
        """Within bounds, gives back what is too much after an entry came that is in no chain: of a number's holder what is furthest, of
        others what came."""
        outside, who = self._outside, (entry.site, entry.author)
        if not holds:
            is_too_much = outside.weight > self._size // 2
        else:
            share = self.share(claimed)
            while outside.weights.get(who, 0) > share and (of := outside.furthest(who)):
                self.give_back(outside.row(of))
            is_too_much = outside.weights.get(who, 0) > share
        if is_too_much and outside.may_be_dropped(entry.hash):
            self.give_back(outside.row(entry.hash))

    def give_back(self, row: Row, lacks: bool = True) -> None:
        """Takes an entry out of memory."""
        if row.entry.hash in self._outside:
            self._outside.remove(row.entry.hash)
        super().give_back(row, lacks)
