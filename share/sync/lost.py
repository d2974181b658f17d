"""What was made under the numbers of a person and doesn't count, and what of it stands elsewhere."""
from collections.abc import Iterator, Mapping
from itertools import chain, takewhile
from typing import NamedTuple

from share.admission.judging import Judging
from share.admission.ledger import Row, Who
from share.admission.left_out import LeftOut
from share.format.entry import Copy, Entry, Form
from share.format.operation import Operation
from share.store.own import Client
from share.sync.standing import Standing


class ToRebase(NamedTuple):
    """Messages of an entry that don't count, and that nothing stands for."""

    entry: Entry
    messages: list[Operation]


def who(one: Client | Entry) -> Who:
    """Who has a number, or made an entry."""
    return (one.site, one.author.name) if isinstance(one, Client) else (one.site, one.author)


class RowsInMemory(Mapping[bytes, Row]):
    """The entries that are in memory, by their hashes and by what names their messages: those that are judged, and those that were
    withdrawn."""

    def __init__(self, judge: Judging, withdrawn: Mapping[bytes, Row]):
        self._judge, self._withdrawn = judge, withdrawn
        self._named = {name: row for row in withdrawn.values() for name in row.entry.names}

    def __getitem__(self, of: bytes) -> Row:
        if (row := self._withdrawn.get(of) or self._judge.row(of) or self._named.get(of)) is None:
            raise KeyError(of)
        return row

    def __contains__(self, of: object) -> bool:
        return isinstance(of, bytes) and (of in self._withdrawn or of in self._judge or of in self._named)

    def __iter__(self) -> Iterator[bytes]:
        return chain(self._withdrawn, self._judge.hashes())

    def __len__(self) -> int:
        return len(self._withdrawn) + len(self._judge)

    def each(self) -> Iterator[Row]:
        """All of them. Each is made only once, which sealing makes dear."""
        return chain(self._withdrawn.values(), self._judge.rows())


class WhatWasLost:
    """What was read of a file, as far as it says what was lost."""

    _form: Form
    judge: Judging
    rows: RowsInMemory
    clients: dict[Who, Client]
    standing: Standing
    anew: set[Copy]
    _withdrawn: dict[bytes, Row]

    def lost(self) -> list[ToRebase]:
        """What was made here, doesn't count, and wasn't rebased."""
        found = (self._lost_of(row) for of in self.clients for row in self._not_counting(of) if row.made)
        return [one for one in found if one.messages]

    def left_out(self) -> list[ToRebase]:
        """What others made with a key that is here, and was left out since a smaller hash holds in its place, or since it
        builds on what was, and that nothing stands for; of a message and its copies the copies alone."""
        stretches: dict[Who, list[LeftOut]] = {}
        for one in self.judge.left_out():
            if (one.site, one.author) in self.clients:
                stretches.setdefault((one.site, one.author), []).append(one)
        found = [self._lost_of(row) for of, ones in stretches.items() for row in self.judge.not_through(*of)
                 if not row.made and not self.judge.is_loose(row.entry.name_of(row.entry.first))
                 and any(one.text == row.entry.text and one.first <= row.entry.last and row.entry.first <= one.last for one in ones)]
        left = {(entry.name_of(message.seq), message.seq) for entry, messages in found for message in messages}
        found = [ToRebase(entry, [message for message in messages
                                  if left.isdisjoint(self.standing.copies(entry, message.seq, self.rows))])
                 for entry, messages in found]
        return [one for one in found if one.messages]

    def _lost_of(self, row: Row) -> ToRebase:
        """The messages of an entry that don't count, and that nothing stands for."""
        return ToRebase(row.entry, [message for message in row.entry.messages if not self.judge.is_let_through(message)
                                    and not self._is_made_anew(row, message)])

    def _is_made_anew(self, row: Row, message: Operation) -> bool:
        """Whether a message was rebased here, or by another disk with its key, or typed again by somebody."""
        entry = row.entry
        is_noted = row.made and Copy(entry.author, message.site, message.seq, message.text) in self.anew
        return (is_noted and not self.standing.is_void(entry, message.seq)
                or self.standing.is_made_here(entry, message.seq)
                or self.standing.is_stood_for(entry, message.seq, self.judge.entry_of, self.rows)
                or self.judge.is_copied(entry, message.seq))

    def waited_for(self) -> list[tuple[Client, Entry]]:
        """The numbers that were given up and of which others wait for what never comes, since it was rebased; and the
        last entries of it."""
        found = []
        for one in self.clients.values():
            if one.retired and self.judge.holder(one.site) == one.author.name:
                for text in self._form.texts:
                    done = [*takewhile(self._was_made_anew, self.judge.held_up(one.site, text))]
                    found += [(one, last) for last in done[-1:]]
        return found

    def _was_made_anew(self, entry: Entry) -> bool:
        """Whether an entry was made here, and what doesn't count of it was rebased."""
        row = self.rows[entry.hash]
        return row.made and not self._lost_of(row).messages

    def _not_counting(self, of: Who) -> Iterator[Row]:
        """The entries of a client of which not all messages count, those that were withdrawn among them."""
        yield from (row for row in self._withdrawn.values() if who(row.entry) == of)
        yield from self.judge.not_through(*of)
