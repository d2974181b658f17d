"""The branches of entries outside chains: which entries one is chained to, and which message of a seq that makes.

A branch is a row of entries that follow one another; of several that follow the same entry each begins another branch but the
first. So it takes no longer to go down from an entry where the row is long.
"""
from bisect import bisect_left
from collections.abc import Iterator, Mapping, Sequence
from dataclasses import dataclass, field

from share.format.entry import Entry
from share.format.operation import Operation


@dataclass(slots=True)
class _Branch:
    """Entries that follow one another, the seqs of their last messages, and the hash of the entry before the first."""

    before: bytes
    entries: list[Entry] = field(default_factory=list)
    lasts: list[int] = field(default_factory=list)

    def add(self, entry: Entry) -> None:
        """Lengthens the branch."""
        self.entries.append(entry)
        self.lasts.append(entry.last)


class Branches:
    """Entries, by their hashes, and which follow which."""

    def __init__(self, entries: Mapping[bytes, Entry], after: Mapping[bytes, Sequence[bytes]]):
        # In which branch each entry is, and where.
        self._places: dict[bytes, tuple[_Branch, int]] = {}
        begins = [of for of, entry in entries.items() if entry.before not in entries]
        while begins:
            # It grows as it is walked.
            row = [begins.pop()]
            branch = _Branch(entries[row[0]].before)
            for of in row:
                self._places[of] = branch, len(branch.entries)
                branch.add(entries[of])
                following = [one for one in after.get(of, ()) if one in entries]
                row += [one for one in following if _follows(entries[one], entries[of])][:1]
                begins += [one for one in following if one != row[-1]]

    def is_chained(self, of: bytes, last: bytes) -> bool:
        """Whether an entry is another one here, or one to which that is chained."""
        wanted, at = self._places[of]
        return any(branch is wanted and at <= end for branch, end in self._down(last))

    def before(self, last: bytes) -> bytes:
        """The hash at which the way down from an entry leaves what is here."""
        for branch, _ in self._down(last):
            last = branch.before
        return last

    def message(self, last: bytes, seq: int) -> Operation | None:
        """The message of a seq of an entry or of those here to which it is chained."""
        entry = self.entry(last, seq)
        return entry.messages[seq - entry.first] if entry else None

    def entry(self, last: bytes, seq: int) -> Entry | None:
        """The one that has that message."""
        for branch, end in self._down(last):
            at = bisect_left(branch.lasts, seq)
            if at <= end and branch.entries[at].first <= seq:
                return branch.entries[at]
        return None

    def _down(self, last: bytes) -> Iterator[tuple[_Branch, int]]:
        """The branches on the way down from an entry, and up to where in each."""
        while place := self._places.get(last):
            yield place
            last = place[0].before


def _follows(entry: Entry, before: Entry) -> bool:
    return (entry.site, entry.author, entry.first) == (before.site, before.author, before.last + 1)
