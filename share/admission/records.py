"""The records of a note of the second form that came, each in some 100 bytes beside what it says.

What can be computed again isn't kept: of a record's bytes there are what is sealed and the signature alone, and its hashes are those of
its messages, which are here anyway.
"""
from array import array
from collections.abc import Iterable, Iterator, Sequence
from itertools import accumulate

from share.admission.folds import Folds
from share.admission.hashes import HASH_BYTES, Hashes
from share.admission.ledger import Row, Who
from share.admission.letters import Letters
from share.admission.sayings import Sayings, Whose
from share.format.entry import NO_HASH
from share.format.second.form import RecordForm
from share.format.second.record import RECORD_HEAD, RECORD_KINDS, Record, RecordKind


class Records(Hashes):
    """Records, each by a number of its own; they are added and never change."""

    def __init__(self, form: RecordForm, sayings: Sayings):
        super().__init__()
        self._form, self._sayings = form, sayings
        # Whose records there are, and the numbers of each one's.
        self._clients: list[Whose] = []
        self._client_of: dict[Whose, int] = {}
        self._of: dict[Who, array[int]] = {}
        self._whose = array("I")
        self._kinds, self._made, self._types_on = bytearray(), bytearray(), bytearray()
        self._firsts, self._sizes = array("I"), array("H")
        self._places, self._ends = array("Q"), array("Q")
        # The number of each one's last message, 0 without any; and what can't be computed again.
        self._lasts, self._kept = array("I"), bytearray()
        # The record that had each message first, and each of the base, by one more than its number.
        self._having, self._having_base = array("I"), array("I")
        self.folds = Folds(self)

    def add(self, row: Row, entry: Record, new: Sequence[int] = ()) -> int:
        """Adds the record of a row, which is the first that has these messages; its number."""
        number = self._add(row, entry, new)
        if len(new) < len(entry.hashes):
            self.folds.add(number)
        return number

    def add_fold(self, row: Row, entry: Record) -> None:
        """Adds a record of which others have all messages; what is folded in it is looked for later."""
        self.folds.put_off(self._add(row, entry, ()))

    def _add(self, row: Row, entry: Record, new: Sequence[int]) -> int:
        number = len(self)
        self._hashes += entry.hash
        whose = self._client(Whose(entry.author, entry.site, entry.text))
        self._of.setdefault((entry.site, entry.author), array("I")).append(number)
        self._whose.append(whose)
        self._kinds.append(entry.kind)
        self._made.append(row.made)
        self._types_on.append(row.types_on)
        self._firsts.append(entry.first)
        self._sizes.append(entry.size)
        self._places.append(row.place)
        self._lasts.append(new[-1] if new and len(new) == entry.size else self._sayings.number(entry.name) or 0)
        self._kept += self._form.tail(entry.raw)
        if not entry.hashes:
            self._kept += entry.before
        self._kept += entry.body
        self._ends.append(len(self._kept))
        self._enter((entry.hash,), number)
        _note(self._having, new, number)
        return number

    def extend(self, rows: Sequence[Row], entries: Sequence[Record], messages: range) -> None:
        """Adds records of messages that follow one another, with the numbers of their messages, which are the last ones."""
        number, tail = len(self), self._form.tail
        sizes = [one.size for one in entries]
        self._firsts.extend([one.first for one in entries])
        self._places.extend([row.place for row in rows])
        self._made += bytes([row.made for row in rows])
        self._types_on += bytes([row.types_on for row in rows])
        self._add_columns(entries[0], [one.hash for one in entries], [tail(one.raw) + one.body for one in entries], sizes, messages)
        self._having.extend([at for at, size in enumerate(sizes, number + 1) for _ in range(size)])

    def extend_by_letters(self, these: Letters, first: Record, messages: range) -> None:
        """The same with letters, of which this is the first record."""
        number, many, tail = len(self), len(these), self._form.tail_bytes
        self._firsts.extend(these.firsts)
        self._places.extend(these.places)
        self._made += bytes([these.made]) * many
        self._types_on += these.types_on
        kept = [raw[len(raw) - tail:] + body for raw, body in zip(these.raws, these.bodies)]
        self._add_columns(first, these.hashes, kept, these.sizes, messages)
        self._having.extend(range(number + 1, number + many + 1))

    def _add_columns(self, first: Record, hashes: Sequence[bytes], kept: Sequence[bytes], sizes: Sequence[int], messages: range) -> None:
        """Adds of records of one author, number and text their hashes, what can't be computed again, and their messages, which nobody had
        before."""
        number, many = len(self), len(hashes)
        self._hashes += b"".join(hashes)
        self._of.setdefault((first.site, first.author), array("I")).extend(range(number, number + many))
        self._whose.extend([self._client(Whose(first.author, first.site, first.text))] * many)
        self._kinds += bytes([first.kind]) * many
        self._sizes.extend(sizes)
        self._lasts.extend(accumulate(sizes[1:], initial=messages.start + sizes[0] - 1))
        begin = len(self._kept)
        self._kept += b"".join(kept)
        self._ends.extend([begin + end for end in accumulate(map(len, kept))])
        self._enter(hashes, number)
        self._having.extend([0] * (messages.start - len(self._having)))

    def add_base(self, number: int, messages: Sequence[int]) -> None:
        """Notes that a record is the first that has messages of the base."""
        _note(self._having_base, messages, number)

    def _client(self, client: Whose) -> int:
        """The number of an author, a number and a text."""
        if (found := self._client_of.get(client)) is None:
            found = self._client_of[client] = len(self._clients)
            self._clients.append(client)
        return found

    # What is asked of them.

    def unknown(self, rows: Iterable[Row]) -> list[Row]:
        """Those of some rows that aren't here."""
        return [row for row in rows if self.number(row.entry.hash) is None]

    def of(self, who: Who) -> Sequence[int]:
        """The records of a number and an author."""
        return self._of.get(who, ())

    def having(self, message: int) -> int:
        """The record that had a message first."""
        return self._having[message] - 1

    def having_base(self, message: int) -> int:
        """The same of one of the base."""
        return self._having_base[message] - 1

    def first(self, number: int) -> int:
        """The seq of a record's first message."""
        return self._firsts[number]

    def size(self, number: int) -> int:
        """How many messages a record has."""
        return self._sizes[number]

    def last(self, number: int) -> int:
        """The number of a record's last message."""
        return self._lasts[number]

    def made(self, number: int) -> bool:
        """Whether a record was made here."""
        return bool(self._made[number])

    def length(self, number: int) -> int:
        """The bytes of what a record of messages says."""
        return self._ends[number] - (self._ends[number - 1] if number else 0) - self._form.tail_bytes

    def messages(self, number: int) -> list[int]:
        """The numbers of a record's messages."""
        return [*self.messages_back(number)][::-1]

    def messages_back(self, number: int) -> Iterator[int]:
        """The same, the last one first."""
        message: int | None = self._lasts[number]
        for _ in range(self._sizes[number] if self._kinds[number] == RecordKind.MESSAGES else 0):
            assert message is not None
            yield message
            message = self._sayings.before(message)

    def client(self, number: int) -> Whose:
        """Whose a record is."""
        return self._clients[self._whose[number]]

    def kind(self, number: int) -> RecordKind:
        """What a record is."""
        return RECORD_KINDS[self._kinds[number]]

    def entry(self, number: int) -> Record:
        """A record as it was."""
        author, site, text = self.client(number)
        kind, messages, sayings = self.kind(number), self.messages(number), self._sayings
        begin, tail = self._ends[number - 1] if number else 0, self._form.tail_bytes
        kept = bytes(self._kept[begin:self._ends[number]])
        if messages:
            first = sayings.before(messages[0])
            before, body = NO_HASH if first is None else sayings.hash(first), kept[tail:]
        else:
            before, body = kept[tail:tail + HASH_BYTES], kept[tail + HASH_BYTES:]
        first_seq, size = self._firsts[number], self._sizes[number]
        head = RECORD_HEAD.pack(self._form.number, kind, self._form.note, author, site, text, first_seq, size, before)
        raw = self._form.whole(head, body, kept[:tail])
        return Record(kind, author, site, text, first_seq, size, before, body, raw, self.hash(number),
                      tuple(map(sayings.hash, messages)))

    def row(self, number: int) -> Row:
        """A record with its place."""
        return Row(self._places[number], self.entry(number), bool(self._made[number]), bool(self._types_on[number]))


def _note(having: "array[int]", messages: Sequence[int], number: int) -> None:
    """Notes which record has messages."""
    if messages and len(having) <= (last := max(messages)):
        having.extend([0] * (last + 1 - len(having)))
    for one in messages:
        having[one] = number + 1
