"""What is told of the chains of a note of the second form, and of messages by their hashes."""
import math
from collections.abc import Iterable, Iterator, Mapping, Sequence

from share.admission.foldable import FoldableChain
from share.admission.in_fold import InFold
from share.admission.in_text import InText
from share.admission.ledger import Row
from share.admission.lines import MessageChain
from share.admission.one_text import OneText
from share.admission.record_set import Prefers, RecordSet
from share.admission.sayings import Whose
from share.admission.told import ToldOfMessages
from share.admission.twigs import Twig
from share.format.entry import NO_HASH, Entry
from share.format.operation import TEXT, Operation
from share.format.second.folding import LEFT_AFTER
from share.format.second.form import RecordForm
from share.format.second.record import Record
from share.text.names import Name, Names


class RecordChains(RecordSet):
    """Records, and the chains of their messages. Where a text isn't given the first one is meant."""

    def __init__(self, entries: Iterable[Entry] = (), prefers: Prefers | None = None, *, form: RecordForm, room: int | None = None):
        super().__init__(entries, prefers, form=form, room=room)
        self._told = ToldOfMessages(self._messages, self._words)
        # Each text as it was when somebody asked last, and what that hangs on.
        self._in_texts: dict[int, tuple[tuple[int, int], InText]] = {}

    # What is told of a site, and of an author under it.

    def holder(self, site: int) -> bytes | None:
        return self._messages.holder(site)

    def claimed(self) -> set[int]:
        return self._messages.held()

    def last(self, site: int, text: int = TEXT) -> Record:
        if line := self._own_line(site, text):
            return self._records.entry(self._records.having(line.branch.numbers[-1]))
        author = self.holder(site)
        keys = self._form.keys
        name = keys.claim_name(author, site) if author and (site, author) in self._claims else keys.opening_name()
        return self._records.entry(self._by_name[name])

    def last_name(self, site: int, text: int = TEXT) -> bytes:
        """What names the last message of a number's chain in a text; zeros without one."""
        line = self._own_line(site, text)
        return line.branch.hash(len(line.branch) - 1) if line else NO_HASH

    def _own_line(self, site: int, text: int) -> MessageChain | None:
        """The chain of a number in a text, where it has messages and isn't of the base."""
        one = self._messages.texts.get(text)
        line = one.lines.get(site) if one and self.holder(site) else None
        return line if line and line.branch.numbers else None

    def _text(self, text: int) -> OneText | None:
        """A text, of which all is let through that can be."""
        if found := self._messages.texts.get(text):
            found.let_through()
        return found

    def _line(self, site: int, text: int) -> MessageChain | None:
        """The chain of a number in a text, of which all is let through that can be."""
        found = self._text(text)
        return found.lines.get(site) if found else None

    def front(self, site: int, text: int = TEXT) -> int:
        line = self._line(site, text)
        return line.front if line else 0

    def length(self, site: int, text: int = TEXT) -> int:
        line = self._line(site, text)
        return line.length if line else 0

    def inserter(self, name: Name, text: int = TEXT) -> bytes | None:
        line = self._line(name[0], text)
        return line.inserter_of(name[1]) if line and name[1] < line.length else None

    def inserted(self, names: Names, text: int = TEXT) -> bytes | None:
        line = self._line(names.site, text)
        return line.inserted(names.at, names.at + names.length) if line and names.at + names.length <= line.length else None

    def is_of_base(self, site: int) -> bool:
        return site in self._messages.base.sites

    def front_of(self, author: bytes, site: int, text: int = TEXT) -> int:
        return self.front_up_to(author, site, NO_HASH, text)

    def front_up_to(self, author: bytes, site: int, last: bytes, text: int = TEXT) -> int:
        return self._in_text(text).front_up_to(author, site, last)

    def of(self, site: int, author: bytes) -> Iterator[Row]:
        return map(self._records.row, self._records.of((site, author)))

    # What is folded.

    def folded(self, since: int = 0) -> list[InFold]:
        records = self._records
        pairs = map(records.folds.pair, range(since, len(records.folds)))
        return [InFold(records.hash(one), records.made(one), records.hash(fold), records.made(fold)) for one, fold in pairs]

    def fold_of(self, of: bytes) -> bytes:
        number = self._records.number(of)
        return of if number is None else self._records.hash(self._records.folds.of(number))

    def foldable(self, site: int, text: int = TEXT) -> FoldableChain | None:
        line = self._line(site, text) if self.holder(site) else None
        return None if line is None else FoldableChain(self._records, self._sayings, line, LEFT_AFTER)

    def add_fold(self, row: Row) -> None:
        assert isinstance(row.entry, Record)
        self._records.add_fold(row, row.entry)

    def look_for_folded(self, most: float = math.inf) -> bool:
        return self._records.folds.look(most)

    # What is told of a record, of a message, and of copies.

    def entry_of(self, site: int, seq: int, text: int = TEXT) -> bytes | None:
        line = self._line(site, text)
        return line.branch.named(seq) if line and 0 < seq <= line.front else None

    def name_in(self, last: bytes, seq: int) -> bytes | None:
        number = self._before(last, seq)
        return None if number is None else self._sayings.hash(number)

    def _before(self, last: bytes, seq: int) -> int | None:
        """The message of a seq that a hash names, or that is before the one that it names."""
        number = self._message(last)
        return None if number is None else self._in_text(self._sayings.client(number).text).before(last, seq)

    def is_chained(self, of: bytes, last: bytes) -> bool:
        number = self._message(of)
        return number is not None and self._in_text(self._sayings.client(number).text).is_chained(number, last)

    def is_loose(self, of: bytes) -> bool:
        record = self._records.number(of)
        number = self._message(of) if record is None else next(iter(self._records.messages(record)), None)
        return number is not None and self._told.is_loose(number)

    def message(self, site: int, seq: int, text: int = TEXT) -> Operation:
        line = self._line(site, text)
        if line is None:
            raise KeyError(site)
        return next(line.branch.between(seq - 1, seq))

    def message_in(self, last: bytes, seq: int) -> Operation | None:
        number = self._before(last, seq)
        return None if number is None else self._sayings.message(number)

    def built_on(self, messages: Sequence[Operation], before: Sequence[Operation] = ()) -> Mapping[int, bytes]:
        first = messages[0]
        text = self._text(first.text)
        return text.built_on(first.site, messages, before) if text else {}

    def _in_text(self, text: int) -> InText:
        """A text as it is now."""
        self._text(text)
        state = self._messages.aside.changes, len(self._records)
        if text not in self._in_texts or self._in_texts[text][0] != state:
            self._in_texts[text] = state, self._told.in_text(text)
        return self._in_texts[text][1]

    def _twig(self, entry: Entry) -> Twig | None:
        """Those of a record's messages that are here; none are of one that was withdrawn."""
        assert isinstance(entry, Record)
        numbers = [number for of in entry.hashes if (number := self._message(of)) is not None]
        return Twig(self._sayings, Whose(entry.author, entry.site, entry.text), numbers, None) if numbers else None
