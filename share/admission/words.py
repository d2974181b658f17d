"""What records without messages say in notes of the second form, of one text each: what was made anew, and which messages stand for
which; and that the note was renewed. They name messages by their hashes."""
from collections.abc import Collection, Iterable, Iterator

from share.admission.copies import Copies
from share.admission.ledger import Who
from share.admission.sayings import Whose
from share.admission.statements import MOST_NEWER, MOST_RENEWED
from share.format.second.record import Record, RecordKind


class Words:
    """What records say. `changes` rises with each."""

    def __init__(self) -> None:
        self.changes = 0
        self._copies: dict[int, Copies] = {}
        # The hashes of messages up to which their authors say that what doesn't count was made anew.
        self._made_anew: dict[Whose, set[bytes]] = {}
        # Who says that the note was renewed, and by what name.
        self._renewed: dict[Who, bytes] = {}
        # The hashes of records that this version doesn't know, of which there may be any number.
        self._newer: set[bytes] = set()

    def add(self, entry: Record) -> bool:
        """Takes over what a record says; whether it is to be kept."""
        if entry.kind is RecordKind.NEWER:
            if len(self._newer) < MOST_NEWER:
                self._newer.add(entry.hash)
            return False
        if entry.kind is RecordKind.RENEWED and len(self._renewed) >= MOST_RENEWED:
            return False
        self.changes += 1
        if entry.kind is RecordKind.ANEW:
            self._made_anew.setdefault(Whose(entry.author, entry.site, entry.text), set()).add(entry.before)
        elif entry.kind is RecordKind.RENEWED:
            self._renewed.setdefault((entry.site, entry.author), entry.body)
        elif copied := entry.copied:
            self.copies(entry.text).add(entry.site, entry.author, entry.before, copied)
        return True

    def copies(self, text: int) -> Copies:
        """What is said of copies in a text."""
        if text not in self._copies:
            self._copies[text] = Copies()
        return self._copies[text]

    def has_newer(self) -> bool:
        """Whether there are records of kinds that this version doesn't know."""
        return bool(self._newer)

    def made_anew(self, client: Whose) -> Collection[bytes]:
        """Up to which messages an author says that what doesn't count was made anew."""
        return self._made_anew.get(client, ())

    def made_anew_without_copies(self, client: Whose) -> Collection[bytes]:
        """The same where he doesn't say which messages stand for which."""
        return () if self.copies(client.text).are_told_by(client.site, client.author) else self.made_anew(client)

    def come(self, text: int, hashes: Iterable[bytes]) -> None:
        """Notes that messages are here: what was said of copies may hang on it, where the last of these is among them."""
        if text in self._copies and not self._copies[text].lasts.isdisjoint(hashes):
            self.changes += 1

    def renewed(self) -> Iterator[tuple[Who, bytes]]:
        """Who says that the note was renewed, and by what name."""
        return iter(self._renewed.items())
