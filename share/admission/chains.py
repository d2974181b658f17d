"""Which entries hold.

- **Claims.** A site is held by the claim with the smallest hash of author and number. Entries of other authors
  under that number are left out. An author may have made two claims of a number, as signatures differ; of these
  the one that has the smaller hash holds, with what is chained to it.
- **Forks.** A site's entries follow one another from its claim on, by the hash of the one before and without
  gaps. Of two that follow the same entry the one with the smaller hash holds, with what is chained to it.
"""
import hashlib
from collections.abc import Callable, Iterable, Iterator, Sequence
from enum import Enum

from share.admission.chain import Chain
from share.admission.ledger import Branch, Ledger, Row, hashes_of
from share.admission.outside import Unchained
from share.admission.room import Room
from share.admission.statements import Statements
from share.format.entry import NO_HASH, Entry, Form, Kind
from share.format.operation import Operation

# What decides between two claims of a number, or two entries of a place: the smaller one holds.
Rank = Callable[[Entry], bytes]


class Outcome(Enum):
    """What an entry did to the chain of its site."""

    NONE = "it is as it was"
    LONGER = "it goes on"
    CUT = "others took the place of entries that nobody had looked at"
    ANEW = "others took the place of what was let through"


def rank(entry: Entry) -> bytes:
    """What decides between entries: of claims the hash of author and number, and where that is equal their own;
    else their own."""
    if entry.kind is not Kind.CLAIM:
        return entry.hash
    return hashlib.blake2b(entry.site.to_bytes(2, "big") + entry.author, digest_size=32).digest() + entry.hash


class Chains:
    """The chain of each site that is claimed, and what is in none. `changes` rises where what is in none changes, or what something was
    said of comes."""

    def __init__(self, statements: Statements, prefers: Rank, form: Form | None, room: int | None):
        self.changes = 0
        self.by_site: dict[int, Chain] = {}
        self.ledger, self.outside = Ledger(form), Unchained()
        self.room = Room(room, self.outside)
        self._statements, self._prefers, self._awaited = statements, prefers, statements.copies.lasts
        self._in_chains = 0

    def __contains__(self, of: bytes) -> bool:
        return self.ledger.number(of) is not None or of in self.outside

    def __len__(self) -> int:
        return self._in_chains + len(self.outside)

    def unknown(self, rows: Iterable[Row]) -> list[Row]:
        """Those of some entries that are neither here nor among what says something."""
        found, outside, statements = self.ledger.unknown(rows), self.outside, self._statements
        if not (len(outside) or len(statements)):
            return found
        return [row for row in found if (of := row.entry.hash) not in outside and of not in statements]

    def rows(self) -> Iterator[Row]:
        """All entries that are in memory."""
        for chain in self.by_site.values():
            yield from map(self.ledger.row, chain.branch.numbers)
        yield from self.outside

    def hashes(self) -> Iterator[bytes]:
        """The hashes of all entries that are in memory."""
        for chain in self.by_site.values():
            yield from map(self.ledger.hash, chain.branch.numbers)
        yield from (row.entry.hash for row in self.outside)

    def row(self, of: bytes) -> Row | None:
        """The entry that has a hash; None where it isn't in memory."""
        if of in self.outside:
            return self.outside.row(of)
        number = self.ledger.number(of)
        return None if number is None else self.ledger.row(number)

    # What comes.

    def claim(self, row: Row) -> Outcome:
        """Gives a number to who claims it, where the claim holds; else the claim is outside."""
        site = row.entry.site
        chain = self.by_site.get(site)
        if chain is None:
            self.by_site[site] = chain = Chain(self.ledger, site)
            return self._extended(chain, row, False)
        if self._is_preferred(row.entry, chain.branch.numbers[0]):
            return self._cut(chain, 0, row)
        self._put_outside(row, False)
        return Outcome.NONE

    def add(self, row: Row, waits: bool) -> Outcome:
        """Puts an entry of messages into its chain, where it follows one there and holds; else outside. Of a chain that waits it may be
        given back."""
        entry, chain = row.entry, self.by_site.get(row.entry.site)
        # Nearly always it follows the last one of its chain.
        last = chain.branch.numbers[-1] if chain else 0
        if chain and self.ledger.hash(last) == entry.before and self.follows(entry, last):
            return self._extended(chain, row, waits)
        number = self.ledger.number(entry.before)
        if number is None:
            is_here = self._statements.has_come(entry.before) or (
                entry.before in self.outside and not self.outside.is_loose(entry.before))
            self._put_outside(row, not is_here)
            return Outcome.NONE
        # The one before it may be in the chain of any site, or in none any more.
        at = chain.branch.at(number) if chain else None
        if chain is not None and at is not None and self.follows(entry, number):
            if at + 1 == len(chain.branch):
                return self._extended(chain, row, waits)
            if self._is_preferred(entry, chain.branch.numbers[at + 1]):
                return self._cut(chain, at + 1, row)
        self._put_outside(row, False)
        return Outcome.NONE

    def extend(self, run: Sequence[Row]) -> bool:
        """Puts entries into their chain, the first of which follows its last one, if no other entry speaks of them or follows one of them;
        whether that is so. It is the same as to add one after the other then: each lengthens the chain, and nothing else changes."""
        entry, chain = run[0].entry, self.by_site.get(run[0].entry.site)
        if not chain or self.ledger.hash(last := chain.branch.numbers[-1]) != entry.before or not self.follows(entry, last):
            return False
        hashes = hashes_of(run)
        if not self._awaited.isdisjoint(hashes) or self.outside.speaks_of(hashes):
            return False
        self._put_at_end(chain, run)
        return True

    def _put_at_end(self, chain: Chain, run: Sequence[Row]) -> range:
        """Lengthens a chain by entries; their numbers."""
        numbers = self.ledger.add(run, chain.branch.numbers[-1] if len(chain.branch) else 0)
        chain.add(numbers)
        self._in_chains += len(run)
        return numbers

    def admits(self, row: Row) -> bool:
        """Whether there is room for an entry without messages."""
        return self.room.admits(row, self.holder(row.entry.site) == row.entry.author, len(self.by_site))

    def settle(self, of: bytes) -> None:
        """Notes that an entry came that is in no chain: what follows it lacks nothing."""
        self.outside.settle(of)

    def follows(self, entry: Entry, number: int) -> bool:
        """Whether an entry that names another one as the one before it can follow it."""
        return self.ledger.client(number) == (entry.site, entry.author) and entry.first == self.ledger.last(number) + 1

    def _is_preferred(self, entry: Entry, number: int) -> bool:
        """Whether an entry holds in the place of another one."""
        if self._prefers is rank and entry.kind is not Kind.CLAIM:
            return entry.hash < self.ledger.hash(number)
        return self._prefers(entry) < self._prefers(self.ledger.entry(number))

    def _extended(self, chain: Chain, row: Row, waits: bool) -> Outcome:
        """Lengthens a chain by an entry, and by what holds after it."""
        last: Row | None = row
        numbers = chain.branch.numbers
        before = len(numbers)
        while last is not None:
            if waits and self.room.is_too_much(last, chain.pending, len(self.by_site)):
                self.room.give_back(last)
                break
            of = last.entry.hash
            if of in self.outside:
                self.outside.remove(of)
                self.changes += 1
            if of in self._awaited:
                self.changes += 1
            (number,) = self._put_at_end(chain, [last])
            if not (after := self.outside.after(of)):
                break
            following = [one for one in after if self.follows(one.entry, number)]
            last = min(following, key=lambda one: self._prefers(one.entry)) if following else None
            # What else follows it lost its place.
            if self.outside.settle(of, but=last.entry.hash if last else None):
                self.changes += 1
        return Outcome.LONGER if len(numbers) > before else Outcome.NONE

    def _cut(self, chain: Chain, at: int, row: Row) -> Outcome:
        """Puts an entry into the place of what is in a chain from some place on."""
        front = chain.front
        gone = [(self.ledger.row(number), chain.branch.first(place) <= front)
                for place, number in enumerate(chain.branch.numbers[at:], at)]
        self._in_chains -= len(gone)
        is_anew = chain.cut(at)
        # What waited in it waits no more.
        self._extended(chain, row, False)
        for one, was_through in gone:
            self._put_outside(one, False, was_through)
        return Outcome.ANEW if is_anew else Outcome.CUT

    def _put_outside(self, row: Row, is_loose: bool, stays: bool = False) -> None:
        self.outside.add(row, is_loose, stays)
        self.changes += 1
        if self.room.is_bounded:
            self.room.make(row.entry, self.holder(row.entry.site) == row.entry.author, len(self.by_site))

    # What is asked of them.

    def holder(self, site: int) -> bytes | None:
        """Whose number this is."""
        chain = self.by_site.get(site)
        return self.ledger.client(chain.branch.numbers[0])[1] if chain else None

    def held(self, site: int, author: bytes, beyond: int = -1) -> Iterator[Row]:
        """The entries of a site's chain, where it is this author's; those that have messages beyond a seq, where one is given."""
        chain = self.by_site.get(site)
        if chain and self.holder(site) == author:
            yield from map(self.ledger.row, chain.branch.numbers[chain.branch.at_seq(beyond + 1):])

    def length(self, site: int) -> int:
        """How many characters of a site are let through."""
        chain = self.by_site.get(site)
        return chain.length if chain else 0

    def front_of(self, author: bytes, site: int) -> int:
        """How many messages of an author and site are let through."""
        chain = self.by_site.get(site)
        return chain.front if chain and self.holder(site) == author else 0

    def front_up_to(self, author: bytes, site: int, last: bytes) -> int:
        """How many messages of an author and site are let through that an entry has, or one to which it is chained; all where it
        isn't said which."""
        if last == NO_HASH:
            return self.front_of(author, site)
        number = self.ledger.number(self._in_chain(last))
        if number is None or self.ledger.client(number) != (site, author):
            return 0
        chain = self.by_site[site]
        at = chain.branch.at(number)
        return 0 if at is None else min(chain.front, chain.branch.lasts[at])

    def message(self, site: int, seq: int) -> Operation:
        """A message of a site's chain."""
        return self.by_site[site].branch.message(seq)

    def message_in(self, last: bytes, seq: int) -> Operation | None:
        """The message of a seq, of those of an entry or of those to which it is chained; None where it isn't here."""
        if last in self.outside and (found := self.outside.branches().message(last, seq)):
            return found
        of = self._having(last, seq)
        return of[0].message(seq) if of else None

    def entry_in(self, last: bytes, seq: int) -> bytes | None:
        """The hash of the entry that has that message."""
        if last in self.outside and (found := self.outside.branches().entry(last, seq)):
            return found.hash
        of = self._having(last, seq)
        return self.ledger.hash(of[1]) if of else None

    def _having(self, last: bytes, seq: int) -> tuple[Branch, int] | None:
        """The entry of a chain that has the message of a seq, of those to which one is chained, or itself."""
        number = self.ledger.number(self._in_chain(last))
        branch = self.by_site[self.ledger.client(number)[0]].branch if number is not None else None
        at = branch.at(number) if branch and number is not None else None
        if branch is None or at is None or not 0 < seq <= branch.lasts[at]:
            return None
        return branch, branch.numbers[branch.at_seq(seq)]

    def is_chained(self, of: bytes, last: bytes) -> bool:
        """Whether an entry is the last of some, or one to which that is chained."""
        if of in self.outside:
            return last in self.outside and self.outside.branches().is_chained(of, last)
        number, end = self.ledger.number(of), self.ledger.number(self._in_chain(last))
        if number is None or end is None or self.ledger.client(number) != self.ledger.client(end):
            return False
        branch = self.by_site[self.ledger.client(end)[0]].branch
        at, last_at = branch.at(number), branch.at(end)
        return at is not None and last_at is not None and at <= last_at

    def chained_up_to(self, some: Entry, last: bytes) -> int:
        """The seq up to which an entry's messages are those of another one, or of one to which that is chained: all of them, or none."""
        return some.last if self.is_chained(some.hash, last) else 0

    def _in_chain(self, last: bytes) -> bytes:
        """An entry, or where it is in no chain the one in a chain to which it is chained. The branches, which take time to find where
        much is in no chain, are found for that alone."""
        return self.outside.branches().before(last) if last in self.outside else last
