"""What entries without messages say: what was made anew, which messages stand for which, and that the note was renewed."""
from collections.abc import Collection, Iterator

from share.admission.copies import Copies
from share.admission.ledger import Row, Who
from share.format.entry import Kind

# Anybody with the link can say that a note was renewed, or write what only a later version knows: of no more than this many
# it is known.
MOST_RENEWED, MOST_NEWER = 1_000, 10_000


class Statements:
    """The entries that say something, and what they say. `changes` rises with each."""

    def __init__(self) -> None:
        self.changes = 0
        self.copies = Copies()
        self._rows: dict[bytes, Row] = {}
        # The hashes of entries up to which their authors say that what doesn't count was made anew, by site and author.
        self._made_anew: dict[Who, set[bytes]] = {}
        # Who says that the note was renewed, and by what name.
        self._renewed: dict[Who, bytes] = {}
        # The hashes of entries that this version doesn't know, of which there may be any number.
        self._newer: set[bytes] = set()

    def __contains__(self, of: bytes) -> bool:
        return of in self._rows

    def __len__(self) -> int:
        return len(self._rows)

    def __iter__(self) -> Iterator[Row]:
        return iter(self._rows.values())

    def row(self, of: bytes) -> Row | None:
        """The entry that has a hash; None where it isn't here."""
        return self._rows.get(of)

    def has_come(self, of: bytes) -> bool:
        """Whether an entry came, of which something newer is known by its hash alone."""
        return of in self._rows or of in self._newer

    def has_newer(self) -> bool:
        """Whether there are entries of kinds that this version doesn't know."""
        return bool(self._newer)

    def add(self, row: Row) -> bool:
        """Takes over what an entry says; not where there are too many of its kind."""
        entry = row.entry
        if entry.kind is Kind.NEWER and len(self._newer) >= MOST_NEWER or (
                entry.kind is Kind.RENEWED and len(self._renewed) >= MOST_RENEWED):
            return False
        self.changes += 1
        if entry.kind is Kind.NEWER:
            # It says nothing here, but that what follows it lacks nothing.
            self._newer.add(entry.hash)
            return True
        self._rows[entry.hash] = row
        who = entry.site, entry.author
        if entry.kind is Kind.ANEW:
            self._made_anew.setdefault(who, set()).add(entry.before)
        elif entry.kind is Kind.COPIES:
            self.copies.add(entry.site, entry.author, entry.before, entry.copied)
        elif entry.kind is Kind.RENEWED:
            self._renewed.setdefault(who, entry.spelled)
        return True

    def made_anew(self, who: Who) -> Collection[bytes]:
        """Up to which entries an author says that what doesn't count was made anew."""
        return self._made_anew.get(who, ())

    def made_anew_without_copies(self, who: Who) -> Collection[bytes]:
        """The same where he doesn't say which messages stand for which. What counted as he said so was not made anew, and may count no
        more."""
        return () if self.copies.are_told_by(*who) else self.made_anew(who)

    def renewed(self) -> Iterator[tuple[Who, bytes]]:
        """Who says that the note was renewed, and by what name."""
        return iter(self._renewed.items())
