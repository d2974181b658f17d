"""Which messages count: one function of the set of entries that came, in whatever order they did.

It has no input or output, no clock and no chance in it. Everybody who has the same entries lets the same
messages through, in an order in which each is after its causes. Each rule has a module of its own:

- `chains`: which of two claims of a number holds, and which of two entries that follow the same one.
- `causes`: what becomes of the message that is next in a chain; `passage`: letting messages through, and waiting.
- `statements` and `copies`: what entries say of messages of a history. It takes no text away, and gives none.
- `left_out`: what is told of what doesn't count.
- `room`: how much of that is in memory.

More entries can end the count of a message only where a smaller hash came: of a claim, or of two entries of one
place. Then all is let through anew. What was left out for a smaller hash stays so.
"""
from collections.abc import Iterable, Iterator, Sequence
from itertools import chain

from share.admission.causes import Causes
from share.admission.chains import Chains, Outcome, Rank, rank
from share.admission.ledger import Row, Who
from share.admission.copies import Copies
from share.admission.judging import Counted, Judging
from share.admission.left_out import LeftOut, Uncounted, not_copied
from share.admission.passage import Passage
from share.admission.statements import Statements
from share.format.entry import CHUNKS, Entry, Form, Kind
from share.format.history import Messages
from share.format.operation import TEXT, Operation


class Judge(Judging):
    """The set of entries of the first form that came, of which all are of one text, what counts of it, and what is told of the rest.

    `prefers` may say otherwise which of two entries holds: so what one site saw before a smaller hash came is
    found again. Where `room` is given, what doesn't count has this many bytes in memory; what is too much is given back.
    """

    def __init__(self, entries: Iterable[Entry] = (), prefers: Rank = rank, form: Form | None = None, room: int | None = None):
        self._statements = Statements()
        self._chains = Chains(self._statements, prefers, form, room)
        self._causes = Causes(self._chains)
        self._passage = Passage(self._chains.by_site, self._chains.room, self._causes)
        self._uncounted = Uncounted(self._statements, self._chains, self._passage)
        for entry in entries:
            self.add(entry)

    def __contains__(self, of: bytes) -> bool:
        return of in self._chains or of in self._statements

    def __len__(self) -> int:
        return len(self._chains) + len(self._statements)

    def unknown(self, rows: Iterable[Row]) -> list[Row]:
        return self._chains.unknown(rows)

    def rows(self) -> Iterator[Row]:
        return chain(self._chains.rows(), self._statements)

    def hashes(self) -> Iterator[bytes]:
        return chain(self._chains.hashes(), (row.entry.hash for row in self._statements))

    def row(self, of: bytes) -> Row | None:
        return self._statements.row(of) or self._chains.row(of)

    # What comes, and what counts of it.

    def add(self, entry: Entry, place: int = 0, made: bool = False, types_on: bool = False) -> None:
        if entry.hash not in self:
            self.add_new(Row(place, entry, made, types_on))

    def add_new(self, row: Row) -> None:
        entry = row.entry
        if entry.kind in CHUNKS:
            self._take(entry.site, self._chains.add(row, entry.site in self._passage.blocked))
        elif entry.kind is Kind.CLAIM:
            self._take(entry.site, self._chains.claim(row))
        elif self._chains.admits(row) and self._statements.add(row):
            self._chains.settle(entry.hash)

    def extend(self, run: Sequence[Row]) -> bool:
        site = run[0].entry.site
        if is_extended := site not in self._passage.blocked and self._chains.extend(run):
            self._take(site, Outcome.LONGER)
        return is_extended

    def _take(self, site: int, outcome: Outcome) -> None:
        """Looks again at a chain that isn't as it was."""
        if outcome is Outcome.NONE:
            return
        if outcome is not Outcome.LONGER:
            self._passage.forget(site)
            if outcome is Outcome.ANEW:
                self._passage.begin_anew()
        self._passage.stir(site)

    def begun(self) -> bool:
        return True

    def let_through(self) -> None:
        if not self._passage.is_anew:
            self._passage.let_through()

    def count(self) -> Counted:
        self._passage.let_through()
        is_anew = self._passage.is_anew
        return Counted(self._passage.taken(), is_anew)

    def is_anew(self) -> bool:
        return self._passage.is_anew

    def let_through_in_order(self, text: int | None = None) -> Messages:
        self._passage.let_through()
        return self._passage.in_order()

    def _counted_chains(self) -> Chains:
        """The chains, of which all is let through that can be."""
        self._passage.let_through()
        return self._chains

    # What is told of a site, and of an author under it.

    def holder(self, site: int) -> bytes | None:
        return self._chains.holder(site)

    def claimed(self) -> set[int]:
        return set(self._chains.by_site)

    def last(self, site: int, text: int = TEXT) -> Entry:
        return self._chains.ledger.entry(self._chains.by_site[site].branch.numbers[-1])

    def front(self, site: int, text: int = TEXT) -> int:
        found = self._counted_chains().by_site.get(site)
        return found.front if found else 0

    def length(self, site: int, text: int = TEXT) -> int:
        return self._counted_chains().length(site)

    def front_of(self, author: bytes, site: int, text: int = TEXT) -> int:
        return self._counted_chains().front_of(author, site)

    def front_up_to(self, author: bytes, site: int, last: bytes, text: int = TEXT) -> int:
        return self._counted_chains().front_up_to(author, site, last)

    def of(self, site: int, author: bytes) -> Iterator[Row]:
        yield from self._chains.held(site, author)
        yield from self._chains.outside.of((site, author))

    def not_through(self, site: int, author: bytes) -> Iterator[Row]:
        yield from self._counted_chains().held(site, author, beyond=self.front(site))
        yield from (row for row in self._chains.outside.of((site, author)) if row.entry.size)

    def not_counting(self, site: int, author: bytes) -> Iterator[Entry]:
        return (row.entry for row in self.not_through(site, author) if not self.is_loose(row.entry.hash))

    def held_up(self, site: int, text: int = TEXT) -> list[Entry]:
        self._passage.let_through()
        return self._uncounted.held_up(site)

    # What is told of an entry, of a message, and of copies.

    def entry_of(self, site: int, seq: int, text: int = TEXT) -> bytes | None:
        if not 0 < seq <= self.front(site):
            return None
        return self._chains.by_site[site].branch.named(seq)

    def name_in(self, last: bytes, seq: int) -> bytes | None:
        return self._chains.entry_in(last, seq)

    def is_chained(self, of: bytes, last: bytes) -> bool:
        return self._chains.is_chained(of, last)

    def is_loose(self, of: bytes) -> bool:
        return of in self._chains.outside and self._chains.outside.is_loose(of)

    def message(self, site: int, seq: int, text: int = TEXT) -> Operation:
        return self._chains.message(site, seq)

    def message_in(self, last: bytes, seq: int) -> Operation | None:
        return self._chains.message_in(last, seq)

    def built_on(self, messages: Sequence[Operation], before: Sequence[Operation] = ()) -> bytes:
        self._passage.let_through()
        return self._causes.built_on(messages)

    def copies_in(self, text: int = TEXT) -> Copies:
        return self._statements.copies

    def is_copied(self, entry: Entry, seq: int) -> bool:
        copies = self.copies_in()
        return copies.speak_of(entry.author, entry.site) and any(
            first <= seq <= last for first, last in copies.stretches(entry, self._counted_chains()))

    def not_copied(self, entry: Entry) -> list[Operation]:
        left = [*not_copied(entry, 1, 0, self.copies_in(), self._counted_chains())]
        return [message for message in entry.messages if any(one.first <= message.seq <= one.last for one in left)]

    # What is told of all that came.

    def wrong(self) -> list[Operation]:
        chains = self._counted_chains()
        return [chains.message(site, chains.by_site[site].front + 1) for site in sorted(self._passage.ended)]

    def incomplete(self) -> int:
        self._passage.let_through()
        return self._uncounted.incomplete()

    def left_out(self) -> list[LeftOut]:
        self._passage.let_through()
        return self._uncounted.left_out()

    def renewed(self) -> list[tuple[Who, bytes]]:
        return sorted((who, name) for who, name in self._statements.renewed() if self.holder(who[0]) == who[1])

    def has_newer(self) -> bool:
        return self._statements.has_newer()

    def loose(self) -> list[Entry]:
        return self._chains.outside.loose()

    def is_lacking(self) -> bool:
        return self._chains.outside.loose_entries > 0

    def missing(self) -> Iterator[bytes]:
        return self._chains.outside.missing()

    def dropped(self) -> list[Row]:
        return self._chains.room.given_back()

    def turns(self) -> set[int]:
        return self._chains.room.turns()
