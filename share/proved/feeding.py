"""Hands what a note's file has to the library's note: what it begins with, claims and messages. What says something else is passed over,
since it doesn't say what counts."""
import zlib
from collections.abc import Callable, Sequence
from functools import partial
from typing import Any

from share.format.entry import Bad, Form, digest
from share.format.second.claim import rank_of
from share.format.second.form import RecordForm
from share.format.second.record import CLAIM_ZEROS, RECORD_HEAD, RecordKind
from share.proved.beginning import Beginning
from share.proved.library import library
from share.store.chained import KeptEntry
from share.text.errors import Trouble

# The number of who only reads, under which nobody types.
READS_ALONE = 65_535
# By which the library refuses bytes that are none.
MALFORMED = 1
OF_SECOND_ALONE = "The note is of the first form, and the proved note knows the second. bin/note renew NAME --form 2 copies it into that."


class Fed:
    """The library's note, of entries as a file has them."""

    def __init__(self, form: Form):
        if not isinstance(form, RecordForm):
            raise Trouble(OF_SECOND_ALONE)
        self._form, self._library = form, library()
        # None as long as nothing counts, since what it begins with isn't here, or not in its order.
        self.note: Any = None
        self._beginning = Beginning()
        self._waiting: list[Callable[[Any], object]] = []
        # The entries that it doesn't take for what they are here, in words.
        self.refused: list[str] = []

    def take(self, rows: Sequence[KeptEntry]) -> None:
        """Takes some."""
        for row in rows:
            if (body := self._body(row)) is not None:
                self._add(row[2], body)

    def end(self) -> None:
        """Has it show what counts of all that it took."""
        if not self.note:
            self._begin(looks_within=True)
        if self.note:
            self._takes(self.note.update)

    def close(self) -> None:
        """Lets it go."""
        if self.note:
            self.note.close()

    def _body(self, row: KeptEntry) -> bytes | None:
        """What is sealed in an entry; None where it is none."""
        _, of, raw, body, check, _ = row
        try:
            # What was looked at as it was kept isn't looked at again.
            if len(raw) >= self._form.head_bytes and digest(raw) == of and zlib.crc32(b"" if body is None else body) == check:
                return self._form.body(raw) if body is None else body
        except TypeError:
            # The disk damaged it.
            pass
        except Bad:
            return None
        return self._looked_at(raw)

    def _looked_at(self, raw: bytes) -> bytes | None:
        """The same of one that came from a stranger."""
        try:
            return self._form.open(raw).body
        except Bad:
            return None

    def _add(self, raw: bytes, body: bytes) -> None:
        kind = self._form.kind(raw)
        _, _, _, author, site, text, first, count, before = RECORD_HEAD.unpack_from(raw)
        if kind is RecordKind.MESSAGES:
            entry = self._library.Entry(self._library.Head(author, before, first, count, site, text), body)
            self._hand(lambda note: self._says(note, entry, raw))
        elif kind is RecordKind.CLAIM:
            rank = rank_of(self._form.note, author, int.from_bytes(before[len(CLAIM_ZEROS):], "big"))
            self._hand(lambda note: self._takes(lambda: note.claim(author, site, rank)))
        elif kind in (RecordKind.OPENING, RecordKind.BASE) and not self.note:
            self._beginning.add(self._form.reopened(raw, body, digest(raw)))
            self._begin()

    def _hand(self, hands: Callable[[Any], object]) -> None:
        if self.note:
            hands(self.note)
        else:
            self._waiting.append(hands)

    def _begin(self, looks_within: bool = False) -> None:
        """Begins the note where all is here that it begins with."""
        if words := self._beginning.words(looks_within):
            self._takes(partial(self._make, words))

    def _make(self, words: dict[str, Any]) -> None:
        self.note = self._library.Note(site=READS_ALONE, key=self._form.keys.hash, **words)
        for hands in self._waiting:
            hands(self.note)
        self._waiting.clear()

    def _says(self, note: Any, entry: Any, raw: bytes) -> None:
        """Hands it an entry of messages."""
        if not self._takes(lambda: note.add(entry)) and self._looked_at(raw) is not None:
            head = entry.head
            self.refused.append(f"the entry of site {head.site} in text {head.text} that begins with message {head.first}")

    def _takes(self, call: Callable[[], object]) -> bool:
        """Calls the library; whether that didn't take bytes for none."""
        try:
            call()
        except self._library.Refused as why:
            if why.number != MALFORMED:
                raise Trouble(f"The proved note can't go on: {why}.") from why
            return False
        return True
