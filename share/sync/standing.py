"""Which messages stand for others that don't count any more, as entries of copies say; and which of these copies are to be
hidden.

Of a message and all that stands for it one is shown, whatever comes and in whatever order: the message itself where it
counts, else of those copies that count the one of the least site and seq. Who made another copy hides it. A copy of a copy
is said to be one of what that stood for, too.
"""
import math
from collections.abc import Callable, Collection, Iterator, Mapping, Sequence
from typing import NamedTuple

from share.admission.ledger import Row, Who
from share.format.entry import NO_HASH, Copied, Copy, Entry, Form
from share.store.own import Client

# What names the message of a site, a seq and a text that counts.
EntryOf = Callable[[int, int, int], bytes | None]
# How many messages of an author and site count that something names, or that are before what it names, in a text.
FrontUpTo = Callable[[bytes, int, bytes, int], int]
# Up to which seq the messages count of an author and a site, in a text.
CountsUpTo = Callable[[bytes, int, int], int]
# By their hashes, and by what names them or their messages.
RowsByHash = Mapping[bytes, Row]
# A site, an author and a text.
WhoseText = tuple[int, bytes, int]
# The most stretches of an entry of copies.
MOST_COPIED_STRETCHES = 1_000
# The runs that are spoken of apart of entries that nobody else may have.
MOST_RUNS_OF_WITHDRAWN = 64
# The most entries and messages that are looked at of what others say of copies.
MOST_SAID_BY_OTHERS = 4_096


class Replaced(NamedTuple):
    """Old messages that follow one another from a seq on, and as many that stand for them; none where `new` is 0."""

    old: int
    new: int
    size: int


class Piece(NamedTuple):
    """Messages of one old entry, by their seqs, and what stands for them; whether that was made here."""

    author: bytes
    site: int
    stretch: Replaced
    own: bool
    # What names the last entry, or the last message, of what stands for them; and of which text all of it is.
    last: bytes
    text: int

    def copy(self, seq: int) -> Copy | None:
        """What stands for the old message of this seq, if something does."""
        old, new, size = self.stretch
        return Copy(self.author, self.site, new + seq - old, self.text) if new and old <= seq < old + size else None

    def speaks_of(self, seq: int) -> bool:
        """Whether it says what became of the old message of this seq."""
        return self.stretch.old <= seq < self.stretch.old + self.stretch.size


class Standing:
    """What entries of copies say of messages whose keys are here; or, up to a number of entries and messages, of any."""

    def __init__(self, most: float = math.inf) -> None:
        self._room = most
        # By the hash of the old entry.
        self._pieces: dict[bytes, list[Piece]] = {}
        # What is to be said of old entries that aren't here yet, by what names the last of them.
        self._open: dict[bytes, list[tuple[Copied, bool]]] = {}
        self._known: set[bytes] = set()
        # The old entries of which a copy was made here, and whose those copies are; all copies, by whose they are.
        self._own: dict[bytes, Entry] = {}
        self._own_copies: set[WhoseText] = set()
        self._copies: dict[WhoseText, list[tuple[bytes, Piece]]] = {}
        # Copies of which nothing remained when they were lost in their turn.
        self._void: set[Copy] = set()
        # Up to which seq it matters whether a client's messages count.
        self._watched: dict[WhoseText, int] = {}

    @property
    def waits(self) -> bool:
        """Whether something was said of entries that aren't here yet."""
        return bool(self._open)

    def add(self, row: Row, rows: RowsByHash) -> None:
        """Adds what an entry says, and what was said of it; `rows` has all that came."""
        entry = row.entry
        if entry.kind.says_copies and entry.hash not in self._known:
            self._known.add(entry.hash)
            said = entry.copied
            # Only who made messages says what stands for them.
            if (entry.author, entry.site) == said[:2] and entry.before != NO_HASH:
                self._say(said, row.made, entry.before, rows)
        for name in entry.names if self._open else ():
            for said, own in self._open.pop(name, ()):
                self._say(said, own, name, rows)

    def _say(self, said: Copied, own: bool, of: bytes, rows: RowsByHash) -> None:
        """Takes over what is said of an entry and of those before it."""
        least = min(old for old, _, _ in said.stretches)
        while of in rows:
            entry = rows[of].entry
            last = entry.seq_of(of)
            self._room -= 1
            if (entry.author, entry.site) != said[:2] or not last or self._room < 0:
                return
            for stretch in _parts_of(said.stretches, entry.first, last):
                self._room -= entry.size
                self._note(entry, Piece(said.by, said.by_site, stretch, own, said.last, entry.text))
            if entry.first <= least:
                return
            of = entry.before
        self._open.setdefault(of, []).append((said, own))

    def _note(self, entry: Entry, piece: Piece) -> None:
        self._pieces.setdefault(entry.hash, []).append(piece)
        old, new, size = piece.stretch
        whose, by = (entry.site, entry.author, entry.text), (piece.site, piece.author, piece.text)
        for of, last in (whose, old + size - 1), (by, new + size - 1):
            self._watched[of] = max(self._watched.get(of, 0), last)
        if new:
            self._copies.setdefault(by, []).append((entry.hash, piece))
        if piece.own and new:
            self._own[entry.hash] = entry
            self._own_copies.add(by)
        elif piece.own and whose in self._own_copies:
            self._void |= {Copy(entry.author, entry.site, seq, entry.text) for seq in range(old, old + size)}

    def is_made_here(self, entry: Entry, seq: int) -> bool:
        """Whether what remained of a message of an entry was rebased here, and something of that is left."""
        return any(piece.own and piece.speaks_of(seq) and piece.copy(seq) not in self._void
                   for piece in self._pieces.get(entry.hash, ()))

    def is_void(self, entry: Entry, seq: int) -> bool:
        """Whether nothing remained of what was rebased here of a message of an entry."""
        return any(piece.own and piece.copy(seq) in self._void for piece in self._pieces.get(entry.hash, ()))

    def is_stood_for(self, entry: Entry, seq: int, entry_of: EntryOf, rows: RowsByHash) -> bool:
        """Whether something that counts stands for a message of an entry, or nothing had to."""
        return any(piece.speaks_of(seq) and (not piece.stretch.new or _counts(piece, seq, entry_of, rows))
                   for piece in self._pieces.get(entry.hash, ()))

    def originals(self, copy: Entry, seq: int, rows: RowsByHash | None) -> Iterator[tuple[bytes, int]]:
        """The messages for which one of these stands: the hashes of their entries, and their seqs. Without the rows it isn't looked at
        whether another history of its number has it."""
        for of, piece in self._copies.get((copy.site, copy.author, copy.text), ()):
            old, new, size = piece.stretch
            if new <= seq < new + size and (rows is None or _name_of(piece, seq, rows) == copy.name_of(seq)):
                yield of, old + seq - new

    def copies(self, entry: Entry, seq: int, rows: RowsByHash) -> Iterator[tuple[bytes, int]]:
        """The messages that stand for one, whether they count or not: what names them, and their seqs."""
        for piece in self._pieces.get(entry.hash, ()):
            if (copy := piece.copy(seq)) and (of := _name_of(piece, copy.seq, rows)):
                yield of, copy.seq

    def fronts(self, counts_up_to: CountsUpTo) -> list[int]:
        """What is to be looked at again where it changes: how far those count of which copies were made here."""
        return [min(counts_up_to(author, site, text), most) for (site, author, text), most in self._watched.items()] if self._own else []

    def texts(self) -> set[int]:
        """The texts of the copies that were made here."""
        return {text for _, _, text in self._own_copies}

    def made_here(self, entry_of: EntryOf, rows: RowsByHash) -> Iterator[tuple[Copy, bool]]:
        """The copies that were made here and count, and whether each is to be hidden."""
        return self._to_be_seen(entry_of, lambda piece, seq: _counts(piece, seq, entry_of, rows), rows)

    def made_by_all(self, entry_of: EntryOf, front_up_to: FrontUpTo) -> Iterator[tuple[Copy, bool]]:
        """The same of all that is looked at, where all of it was added as if it had been made here."""
        fronts = {piece: front_up_to(piece.author, piece.site, piece.last, piece.text) if piece.last != NO_HASH else 0
                  for of in self._own for piece in self._pieces[of]}
        return self._to_be_seen(entry_of, lambda piece, seq: 0 < piece.stretch.new + seq - piece.stretch.old <= fronts[piece], None)

    def _to_be_seen(self, entry_of: EntryOf, counts: Callable[[Piece, int], bool], rows: RowsByHash | None) -> Iterator[tuple[Copy, bool]]:
        for entry in self._own.values():
            for seq in range(entry.first, entry.last + 1):
                # What stands for a copy is said to stand for what that was one of, too.
                if any(of in self._own for of, _ in self.originals(entry, seq, rows)):
                    continue
                # What a message came apart into was made together; of two histories of a number one may count.
                copies: dict[tuple[int, bytes, bytes], list[tuple[Copy, bool, bool]]] = {}
                for piece in self._pieces[entry.hash]:
                    if copy := piece.copy(seq):
                        found = copies.setdefault((copy.site, copy.author, piece.last), [])
                        found.append((copy, piece.own, counts(piece, seq)))
                stays = entry_of(entry.site, seq, entry.text) == entry.name_of(seq)
                for of in sorted(copies, key=lambda of: (of[0], min(copy.seq for copy, _, _ in copies[of]), of)):
                    yield from ((copy, stays) for copy, own, counts_now in copies[of] if own and counts_now)
                    stays = stays or all(counts_now for _, _, counts_now in copies[of])


def _counts(piece: Piece, seq: int, entry_of: EntryOf, rows: RowsByHash) -> bool:
    """Whether what stands for a message counts: what its author made, and nothing else under the same number."""
    copy = piece.copy(seq)
    return copy is not None and (of := _name_of(piece, copy.seq, rows)) is not None and entry_of(*copy[1:]) == of


def _name_of(piece: Piece, seq: int, rows: RowsByHash) -> bytes | None:
    """What names the copy of a seq; None where it isn't here."""
    of = piece.last
    while of in rows and rows[of].entry.first > seq:
        of = rows[of].entry.before
    if of not in rows or rows[of].entry.author != piece.author:
        return None
    entry = rows[of].entry
    return entry.name_of(seq) if seq <= entry.seq_of(of) else None


def _parts_of(stretches: Sequence[tuple[int, int, int]], first: int, last: int) -> Iterator[Replaced]:
    """The parts of stretches that are of an entry's messages, from one up to another."""
    for old, new, size in stretches:
        begin, end = max(old, first), min(old + size, last + 1)
        if begin < end:
            yield Replaced(begin, new + begin - old if new else 0, end - begin)


def in_stretches(pairs: Sequence[tuple[int, int]]) -> list[Replaced]:
    """Pairs of an old and a new seq as stretches; the new one is 0 where there is none."""
    out: list[Replaced] = []
    for old, new in sorted(set(pairs)):
        last = out[-1] if out else None
        if last and old == last.old + last.size and (new == last.new + last.size if new and last.new else new == last.new):
            out[-1] = last._replace(size=last.size + 1)
        else:
            out.append(Replaced(old, new, 1))
    return out


def said_of_copies(form: Form, keys: Mapping[Who, Client], rows: RowsByHash, new: Entry,
                   pairs: Mapping[bytes, Sequence[tuple[int, int]]], withdrawn: Collection[bytes] = ()) -> list[Entry]:
    """The entries that say which messages, of those up to a new entry, stand for those of old entries: pairs of seqs, by the
    old entries' hashes. Nobody else may have what was withdrawn, so that what is before it is spoken of apart; and a folder that is
    put back may have the first ones of it alone, so that each is, or each run of some where they are many."""
    left, found, entries = set(pairs), list[Entry](), {of: rows[of].entry for of in pairs}
    run = -(-sum(of in withdrawn for of in pairs) // MOST_RUNS_OF_WITHDRAWN)
    for of in sorted(pairs, key=lambda of: entries[of].last, reverse=True):
        if of not in left:
            continue
        last = entries[of]
        client = last.site, last.author, last.text
        least = min(entry.first for entry in map(entries.__getitem__, left) if (entry.site, entry.author, entry.text) == client)
        is_withdrawn, chained, size, row = of in withdrawn, list[tuple[int, int]](), 0, rows.get(of)
        while row and row.entry.first >= least and (of in withdrawn) == is_withdrawn and (size < run or not is_withdrawn):
            if of in left:
                chained += pairs[of]
                size += 1
            left.discard(of)
            row = rows.get(row.entry.before)
            of = row.entry.hash if row else of
        stretches = in_stretches(chained)
        for begin in range(0, len(stretches), MOST_COPIED_STRETCHES):
            part = tuple(stretches[begin:begin + MOST_COPIED_STRETCHES])
            copied = Copied(last.author, last.site, new.author, new.site, part, new.name)
            found.append(form.copies(copied, keys[client[:2]].author, last.site, last.name, last.text))
    return found
