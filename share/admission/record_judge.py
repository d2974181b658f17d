"""Which messages of a note of the second form count, by the records that came, and what is told of the others: what `Judge` is for the
first form."""
from collections.abc import Iterable, Iterator

from share.admission.copies import Copies
from share.admission.ledger import Row, Who
from share.admission.left_out import LeftOut, without_copied
from share.admission.record_chains import RecordChains
from share.admission.record_set import Prefers
from share.admission.sayings import Whose
from share.format.entry import Entry
from share.format.operation import TEXT, Operation
from share.format.second.form import RecordForm


class RecordJudge(RecordChains):
    """The set of records that came, what counts of it, and what is told of the rest. Where a text isn't given the first one is meant."""

    def __init__(self, entries: Iterable[Entry] = (), prefers: Prefers | None = None, *, form: RecordForm, room: int | None = None):
        entries = [*entries]
        super().__init__(entries, prefers, form=form, room=room)
        for entry in entries:
            self.add(entry)

    # What is told of copies.

    def copies_in(self, text: int = TEXT) -> Copies:
        return self._words.copies(text)

    def is_copied(self, entry: Entry, seq: int) -> bool:
        copies = self.copies_in(entry.text)
        some = self._twig(entry) if copies.speak_of(entry.author, entry.site) else None
        return some is not None and any(
            first <= seq <= last for first, last in copies.stretches(some, self._in_text(entry.text)))

    def not_copied(self, entry: Entry) -> list[Operation]:
        some = self._twig(entry)
        if some is None:
            return [*entry.messages]
        left = without_copied([(some.first, some.last)], some, self.copies_in(entry.text), self._in_text(entry.text))
        return [message for message in some.messages if any(first <= message.seq <= last for first, last in left)]

    # What is told of all that came.

    def not_through(self, site: int, author: bytes) -> Iterator[Row]:
        return map(self._records.row, self._having(self._told.not_through(site, author)))

    def not_counting(self, site: int, author: bytes) -> Iterator[Entry]:
        numbers = (number for number in self._told.not_through(site, author) if not self._told.is_loose(number))
        return map(self._records.entry, self._having(numbers))

    def held_up(self, site: int, text: int = TEXT) -> list[Entry]:
        one = self._text(text)
        begin, end = self._told.held_up(one, site) if one else (0, 0)
        numbers = one.lines[site].branch.numbers[begin:end] if one and begin < end and self.holder(site) else ()
        return [*map(self._records.entry, self._having(numbers))]

    def _having(self, messages: Iterable[int]) -> Iterable[int]:
        """The records that have messages, in their order."""
        return dict.fromkeys(map(self._records.having, messages))

    def incomplete(self) -> int:
        return self._told.incomplete()

    def left_out(self) -> list[LeftOut]:
        return self._told.left_out()

    def loose(self) -> list[Entry]:
        found = [*map(self._records.entry, self._having(self._told.loose()))]
        return sorted(found, key=lambda entry: (entry.site, entry.first, entry.hash))

    def is_lacking(self) -> bool:
        return next(self.missing(), None) is not None

    def missing(self) -> Iterator[bytes]:
        messages, keys = self._messages, self._form.keys
        if base := messages.base.missing() if messages.has_opening else keys.opening_name():
            yield base
        yield from messages.missing()
        if messages.has_opening:
            yield from (keys.claim_name(one.author, one.site) for one in messages.unclaimed())

    def wrong(self) -> list[Operation]:
        texts = [one for text in sorted(self._messages.texts) if (one := self._text(text))]
        lines = [one.lines[site] for one in texts for site in sorted(one.passage.ended)]
        return [message for line in lines for message in line.branch.between(line.front, line.front + 1)]

    def begins(self, claim: bytes) -> list[bytes]:
        number = self._by_name.get(claim)
        if number is None:
            return []
        entry = self._records.entry(number)
        site, author = (found.number, found.founder) if (found := entry.founding) else (entry.site, entry.author)
        firsts = (self._sayings.least(Whose(author, site, text)) for text in self._sayings.texts(author, site))
        return [self._records.hash(self._records.having(first)) for first in firsts if first is not None]

    def renewed(self) -> list[tuple[Who, bytes]]:
        return sorted((who, name) for who, name in self._words.renewed() if self.holder(who[0]) == who[1])

    def has_newer(self) -> bool:
        return self._words.has_newer()
