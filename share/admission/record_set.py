"""The records of a note of the second form that came, and which of their messages count.

A record is known by the hash of its bytes, a message by its own. `message_judge` says what counts, message by message; `records` has the
records, and `words` what those without messages say.
"""
from collections.abc import Callable, Iterable, Iterator, Sequence

from share.admission.judging import Counted, Judging
from share.admission.ledger import Row, Who
from share.admission.letters import Letters
from share.admission.message_judge import MessageJudge
from share.admission.one_text import Turn
from share.admission.record_room import RecordRoom
from share.admission.records import Records
from share.admission.words import Words
from share.format.entry import Entry
from share.format.history import Messages
from share.format.second.form import RecordForm
from share.format.second.keys import Founding
from share.format.second.record import Record, RecordKind


# What decides between two claims, or two messages of one place, by their records: the lesser one holds.
Prefers = Callable[[Entry], bytes]


class RecordSet(Judging):
    """Records, and what counts of them.

    `prefers` may say otherwise which of two claims, or of two messages of these records, holds: so what one site saw before a lesser hash
    came is found again. Where `room` is given, what doesn't count has this many bytes in memory; what is too much is given back.
    """

    def __init__(self, entries: Iterable[Entry] = (), prefers: Prefers | None = None, *, form: RecordForm, room: int | None = None):
        self._form, self._prefers, self._words = form, prefers, Words()
        self._messages = MessageJudge(form.keys.digest, ranks=_ranks(entries, prefers) if prefers else None)
        self._messages.room = self._room = RecordRoom(room, self._messages)
        self._sayings = self._messages.sayings
        self._records = Records(form, self._sayings)
        # The records by what one asks for: the opening, and of each author and number the claim of the least rank, with that.
        self._by_name: dict[bytes, int] = {}
        self._claims: dict[Who, bytes] = {}
        self._founding: Founding | None = None
        # Those of the base that came before the opening.
        self._unlinked: list[int] = []
        self._has_begun = False

    def __contains__(self, of: bytes) -> bool:
        return self._number(of) is not None

    def __len__(self) -> int:
        return len(self._records)

    def unknown(self, rows: Iterable[Row]) -> list[Row]:
        return self._records.unknown(rows)

    def rows(self) -> Iterator[Row]:
        return map(self._records.row, range(len(self._records)))

    def hashes(self) -> Iterator[bytes]:
        return map(self._records.hash, range(len(self._records)))

    def row(self, of: bytes) -> Row | None:
        number = self._number(of)
        return None if number is None else self._records.row(number)

    def _number(self, of: bytes) -> int | None:
        """The number of a record that is in memory."""
        if (number := self._records.number(of)) is not None:
            return number
        if (message := self._message(of)) is not None:
            return self._records.having(message)
        base = self._messages.base.sayings
        if (message := base.number(of)) is not None and base.is_here(message):
            return self._records.having_base(message)
        return self._by_name.get(of)

    def _message(self, of: bytes) -> int | None:
        """The number of a message that is here, by its hash."""
        number = self._sayings.number(of)
        return number if number is not None and self._sayings.is_here(number) else None

    # What comes, and what counts of it.

    def add(self, entry: Entry, place: int = 0, made: bool = False, types_on: bool = False) -> None:
        if self._records.number(entry.hash) is None:
            self.add_new(Row(place, entry, made, types_on))

    def add_new(self, row: Row) -> None:
        entry = row.entry
        assert isinstance(entry, Record)
        if entry.kind is RecordKind.BASE and self._founding and not self._messages.base.is_here:
            entry = entry.linked(self._founding)
        if not self._room.admits(row, entry):
            return
        if entry.kind is RecordKind.MESSAGES:
            new = self._messages.extend(entry, entry.operations, entry.hashes, entry.ons)
            self._records.add(row, entry, self._messages.add(entry) if new is None else new)
            self._words.come(entry.text, entry.hashes)
        elif entry.kind is RecordKind.CLAIM:
            self._claim(entry, self._records.add(row, entry))
        elif entry.kind is RecordKind.BASE:
            self._add_base(entry, self._records.add(row, entry))
        elif entry.kind is RecordKind.OPENING:
            self._open(entry, self._records.add(row, entry))
        elif self._words.add(entry):
            self._records.add(row, entry)

    def extend(self, run: Sequence[Row]) -> bool:
        if isinstance(run, Letters):
            return self._extend_by_letters(run)
        entries = [entry for row in run if isinstance(entry := row.entry, Record)]
        first, hashes = entries[0], [of for entry in entries for of in entry.hashes]
        ons = [on for entry in entries for on in entry.ons]
        operations = (operation for entry in entries for operation in entry.operations)
        numbers = self._messages.extend(first, operations, hashes, ons)
        if numbers is None:
            return False
        self._records.extend(run, entries, numbers)
        self._words.come(first.text, hashes)
        return True

    def _extend_by_letters(self, run: Letters) -> bool:
        """Adds letters, where nothing was said of them; whether it did."""
        first = run.entry(0)
        assert isinstance(first, Record)
        numbers = self._messages.extend(first, run.operations(), run.names, [b""] * len(run))
        if numbers is None:
            return False
        self._records.extend_by_letters(run, first, numbers)
        self._words.come(first.text, run.names)
        return True

    def _claim(self, entry: Record, number: int) -> None:
        """Takes over a claim."""
        who, rank = (entry.site, entry.author), entry.rank
        if who not in self._claims or rank < self._claims[who]:
            self._claims[who] = rank
            self._by_name[self._form.keys.claim_name(entry.author, entry.site)] = number
        before = self.holder(entry.site)
        self._messages.claim(entry.site, entry.author, self._prefers(entry) + rank if self._prefers else rank)
        self._room.changed_hands(entry.site, before, self.holder(entry.site))

    def _add_base(self, entry: Record, number: int) -> None:
        """Takes over what may be of the base, once the opening is there, which says what names its messages."""
        if not self._founding:
            self._unlinked.append(number)
            return
        before = self._messages.base.missing()
        self._records.add_base(number, self._messages.add(entry))
        if before != self._messages.base.missing():
            self._room.base_moved()
        self._begin()

    def _open(self, entry: Record, number: int) -> None:
        """Takes over the opening."""
        if self._founding:
            return
        self._founding = founding = entry.founding
        self._by_name[self._form.keys.opening_name()] = number
        before = self.holder(founding.number) if founding else None
        self._messages.add(entry)
        if founding:
            self._by_name.setdefault(self._form.keys.claim_name(founding.founder, founding.number), number)
            self._room.changed_hands(founding.number, before, self.holder(founding.number))
            unlinked, self._unlinked = self._unlinked, []
            for one in unlinked:
                self._add_base(self._records.entry(one).linked(founding), one)
            self._room.base_moved()
        self._begin()

    def _begin(self) -> None:
        """Notes that messages are let through from now on, where they are."""
        if self._messages.has_begun and not self._has_begun:
            self._has_begun = True
            for site in self._messages.base.sites:
                self._room.changed_hands(site, self._messages.claimant(site), None)
            self._room.begun()

    def begun(self) -> bool:
        return self._messages.has_begun

    def let_through(self) -> None:
        for text in self._messages.texts.values():
            if not text.passage.is_anew:
                text.let_through()

    def count(self) -> Counted:
        turns = self.count_of_texts()
        if any(turn.ceased for turn in turns.values()):
            return Counted(self.let_through_in_order(), True)
        found = [turn.counting for turn in turns.values()]
        messages = found.pop(0) if found else Messages()
        for more in found:
            messages += more
        return Counted(messages, False)

    def count_of_texts(self) -> dict[int, Turn]:
        """What is otherwise since this was last asked, of each text where something is."""
        return self._messages.count()

    def is_anew(self) -> bool:
        return any(text.passage.is_anew for text in self._messages.texts.values())

    def let_through_in_order(self, text: int | None = None) -> Messages:
        messages = Messages()
        for one in sorted(self._messages.texts) if text is None else [text]:
            messages += self._messages.in_order(one)
        return messages

    def dropped(self) -> list[Row]:
        return self._room.given_back()

    def turns(self) -> set[int]:
        return self._room.turns()


def _ranks(entries: Iterable[Entry], prefers: Prefers) -> dict[bytes, bytes]:
    """What decides between messages of records: of one that several have the least."""
    found: dict[bytes, bytes] = {}
    for entry in entries:
        if isinstance(entry, Record) and entry.hashes:
            rank = prefers(entry)
            found |= {of: min(rank, found.get(of, rank)) for of in entry.hashes}
    return found
