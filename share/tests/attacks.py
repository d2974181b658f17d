"""What somebody who has a note's link can send to hold up everybody who has it open: entries that are right by themselves.

Each attack is one function that gives entries, or one that goes on as long as it is let. The entries are those of a sealed note, of either
form; in one of the second form nobody claims all numbers, or those of others, for nothing.
"""
from __future__ import annotations

import contextlib
import hashlib
import itertools
import random
import secrets
import sqlite3
import threading
import time
from collections.abc import Callable, Iterable, Iterator, Sequence
from typing import NamedTuple

from share.format import chunk
from share.format.entry import GREATEST_SITE, HEAD, MOST_BYTES, NO_HASH, Author, Bad, Entry, FirstForm, Form, Kind, digest
from share.format.heartbeat import Said, heartbeat_of, new_token
from share.format.operation import DELETE, INSERT, MOST_RANGES, PLAIN_LOOKS, TEXT, Operation
from share.format.second.claim import found_among
from share.format.second.form import RecordForm
from share.format.second.record import RECORD_HEAD, RecordKind
from share.text.names import Names

# Of what somebody types at the front so many letters fit an entry, each by itself; of what is typed on, so many.
AT_THE_FRONT, TYPED = 5_300, 15_900
# A number that nobody claims, for what isn't there.
NOBODY = GREATEST_SITE
# So many of the sites of the square type letters that stay in front, and as many others those that have to pass them.
SITES_OF_SQUARE = 7
LETTERS = "QZ"
# Stamps of the letters in front are so far above those of the others.
ABOVE = 500_000
# So many authors are tried for a claim that is before another's.
TRIED = 16
KIND_OF_NOBODY = 99
ADD = "INSERT OR IGNORE INTO entry (hash, raw) VALUES (?, ?)"
SAY = "INSERT OR REPLACE INTO presence VALUES (?, ?, ?)"


class Hostile:
    """Somebody with the link of a note, whose log is a file."""

    def __init__(self, form: Form, log: str):
        self.form, self.log = form, log
        self.rng = random.Random("attacks")
        self.taken = taken = {entry.site for entry in self.entries()}
        # The numbers that nobody has claimed, but for the one that stays nobody's as long as others are left.
        self.free = iter([site for site in [*range(GREATEST_SITE - 1, 0, -1), NOBODY] if site not in taken])
        # Stamps from here on are above those of the note as it is.
        self.stamp = max((run.stamp + run.size for entry in self.entries() if entry.size for run in entry.operations), default=1)

    def entries(self) -> list[Entry]:
        """What the log has."""
        with self._opened() as file:
            raws = [raw for raw, in file.execute("SELECT raw FROM entry ORDER BY place")]
        return [one for one in self.form.open_many(raws) if not isinstance(one, Bad)]

    def claims(self) -> list[Entry]:
        """The claims that the log has."""
        with self._opened() as file:
            kind = bytes([RecordKind.CLAIM if isinstance(self.form, RecordForm) else Kind.CLAIM])
            raws = [raw for raw, in file.execute("SELECT raw FROM entry WHERE substr(raw, 2, 1) = ? ORDER BY place", (kind,))]
        return [one for one in self.form.open_many(raws) if not isinstance(one, Bad)]

    def send(self, raws: Iterable[bytes]) -> None:
        """Puts entries into the log."""
        with self._opened() as file, file:
            file.executemany(ADD, ((digest(raw), raw) for raw in raws))

    def said(self) -> list[tuple[bytes, bytes]]:
        """What editors say of themselves, by their tokens."""
        with self._opened() as file:
            return file.execute("SELECT token, said FROM presence").fetchall()

    def say(self, token: bytes, said: bytes | None) -> None:
        """Puts what somebody has said under a token, or takes it away."""
        with self._opened() as file, file:
            if said is None:
                file.execute("DELETE FROM presence WHERE token = ?", (token,))
            else:
                file.execute(SAY, (token, time.time(), said))

    @contextlib.contextmanager
    def _opened(self) -> Iterator[sqlite3.Connection]:
        with contextlib.closing(sqlite3.connect(self.log, timeout=60)) as file:
            yield file

    def site(self) -> int:
        """A number that nobody has claimed."""
        return next(self.free)

    def claim(self) -> tuple[Entry, Author]:
        """A claim of such a number."""
        author, form = self.form.new_author(), self.form
        if not isinstance(form, RecordForm):
            return form.claim(self.site(), author), author
        found = next(one for one in found_among(itertools.count(), form.note, author.name, {*self.taken, NOBODY}, form.zero_bits))
        self.taken.add(found.site)
        return form.claim(found.site, author, found.counter), author

    def entry(self, before: Entry, author: Author, runs: Sequence[Operation], on: bytes = b"") -> Entry:
        """An entry of messages that follow an entry."""
        writer = chunk.Writer()
        if not all(writer.add(run) for run in runs):
            raise ValueError("an entry has no room for so much")
        if isinstance(self.form, RecordForm):
            return self.form.messages(chunk.Packed((*runs,), bytes(writer.data)), before.name, author, {0: on} if on else {})
        assert isinstance(self.form, FirstForm)
        kind = Kind.CHUNK_BUILDING if on else Kind.CHUNK
        return self.form._made(kind, before.site, runs[0].seq, sum(run.size for run in runs), before.hash, author, on, bytes(writer.data))

    def unknown(self, author: Author, before: Entry, size: int) -> bytes:
        """An entry of a kind that nobody knows."""
        if isinstance(self.form, RecordForm):
            head = RECORD_HEAD.pack(self.form.number, KIND_OF_NOBODY, self.form.note, author.name, before.site, TEXT, 0, 0, NO_HASH)
            unsigned = self.form._unsigned(head, self.rng.randbytes(size))
            return unsigned + self.form._signature(unsigned, author)
        assert isinstance(self.form, FirstForm)
        head = HEAD.pack(self.form.number, KIND_OF_NOBODY, self.form.note, before.site, 1, 0, before.hash) + author.name
        return self.form._closed(head, self.rng.randbytes(size), author)


def letters(site: int, stamps: Iterable[int], seq: int = 1, at: int = 0, letter: bytes = b"Q") -> Iterator[Operation]:
    """Letters, each of them typed at the front."""
    for number, stamp in enumerate(stamps):
        yield Operation(INSERT, site, seq + number, stamp, 1, (), at + number, letter, PLAIN_LOOKS)


def typed(site: int, seq: int, stamp: int, many: int) -> Operation:
    """Letters that are typed one after the other from a site's begin on."""
    mentions = (Names(site, seq - 2, 1),) if seq > 1 else ()
    return Operation(INSERT, site, seq, stamp, many, mentions, seq - 1, b"a" * many, PLAIN_LOOKS)


def square(hostile: Hostile, sites: int = SITES_OF_SQUARE) -> Iterator[bytes]:
    """Letters at the front, and then others that belong behind all of these: each of them passes each of those. To whom all come at
    once the first of each site comes first."""
    for behind in False, True:
        for number in range(sites):
            claim, author = hostile.claim()
            first = hostile.stamp + number + behind * sites
            low = hostile.stamp + 2 * sites + (not behind) * ABOVE
            stamps = [first, *range(low, low + AT_THE_FRONT - 1)]
            yield claim.raw
            yield hostile.entry(claim, author, [*letters(claim.site, stamps, letter=LETTERS[behind].encode())]).raw


def lost_forks(hostile: Hostile, many: int = 100) -> Iterator[bytes]:
    """Entries of one place, all but one of which have lost, and a message that waits."""
    claim, author = hostile.claim()
    yield claim.raw
    for number in range(many + 1):
        stamps = range(hostile.stamp + number, hostile.stamp + number + AT_THE_FRONT)
        yield hostile.entry(claim, author, [*letters(claim.site, stamps)]).raw
    yield from waiting(hostile, [Names(NOBODY, 5, 1)])


def waiting(hostile: Hostile, *names: list[Names]) -> Iterator[bytes]:
    """A site whose messages mention what isn't there."""
    claim, author = hostile.claim()
    yield claim.raw
    runs = [Operation(DELETE, claim.site, seq, hostile.stamp + seq, 1, tuple(of_one)) for seq, of_one in enumerate(names, 1)]
    yield hostile.entry(claim, author, runs, on=secrets.token_bytes(32)).raw


def blocked(hostile: Hostile, many: int = 300) -> Iterator[bytes]:
    """Sites whose next entry mentions thousands of characters that aren't there."""
    sets = [[Names(NOBODY, 2 * (MOST_RANGES * begin + number), 1) for number in range(MOST_RANGES)] for begin in range(4)]
    for _ in range(many):
        yield from waiting(hostile, *sets)


def loose(hostile: Hostile, sites: int = 60, many: int = 1_000) -> Iterator[bytes]:
    """Entries that lack one before them."""
    for _ in range(sites):
        last, author = hostile.claim()
        yield last.raw
        for seq in range(1, many + 2):
            last = hostile.entry(last, author, [typed(last.site, seq, hostile.stamp + seq, 1)])
            if seq > 1:
                yield last.raw


def all_numbers(hostile: Hostile) -> Iterator[bytes]:
    """Claims of all numbers that are free, by authors whose claims are before most others."""
    assert isinstance(hostile.form, FirstForm)
    authors = [hostile.form.new_author() for _ in range(256)]
    for site in hostile.free:
        yield hostile.form.claim(site, min(hostile.rng.sample(authors, TRIED), key=lambda author: _rank(site, author))).raw


def _rank(site: int, author: Author) -> bytes:
    return hashlib.blake2b(site.to_bytes(2, "big") + author.name, digest_size=32).digest()


def full(hostile: Hostile, many: int = 2_000_000) -> Iterator[bytes]:
    """As many letters as a note has messages."""
    last, author = hostile.claim()
    yield last.raw
    for begin in range(0, many, TYPED):
        run = typed(last.site, begin + 1, hostile.stamp + begin, min(TYPED, many - begin))
        last = hostile.entry(last, author, [run])
        yield last.raw


def unknown_kinds(hostile: Hostile, small: int = 50_000, large: int = 2_000) -> Iterator[bytes]:
    """Entries of kinds that no version knows, small ones and some as long as may be."""
    claim, author = hostile.claim()
    yield claim.raw
    for _ in range(small):
        yield hostile.unknown(author, claim, 16)
    for _ in range(large):
        yield hostile.unknown(author, claim, MOST_BYTES - len(claim.raw))


def claims_again(hostile: Hostile, stopped: threading.Event) -> None:
    """Each number that somebody claims is claimed, too, by who has it then."""
    assert isinstance(hostile.form, FirstForm)
    done = {claim.hash: claim for claim in hostile.claims()}
    own: set[bytes] = set()
    first = [*done.values()]
    while not stopped.wait(0.02):
        for claim in first or [one for one in hostile.claims() if one.hash not in done]:
            done[claim.hash] = claim
            theirs = hashlib.blake2b(claim.site.to_bytes(2, "big") + claim.author, digest_size=32).digest()
            author = next(one for one in map(lambda _: hostile.form.new_author(), itertools.count()) if _rank(claim.site, one) < theirs)
            mine = hostile.form.claim(claim.site, author)
            done[mine.hash] = mine
            own.add(mine.hash)
            hostile.send([mine.raw])
        first = []


def nothing(_: Hostile, stopped: threading.Event) -> None:
    """Nothing is done, as long as something else is."""
    stopped.wait()


def old_presence(hostile: Hostile, stopped: threading.Event) -> None:
    """What an editor has said once is put under other tokens, and taken away again."""
    said = hostile.form.presence(heartbeat_of(Said(new_token(), 1, 7, ())))
    for number in itertools.count():
        token = number.to_bytes(16, "big")
        hostile.say(token, said)
        if stopped.wait(1.6):
            break
        hostile.say(token, None)
        if stopped.wait(1.6):
            break


class Attack(NamedTuple):
    """What is sent at once, or what is done as long as others type; and how many keys were typed into the note by hand before."""

    words: str
    sends: Callable[[Hostile], Iterable[bytes]] | None = None
    does: Callable[[Hostile, threading.Event], None] | None = None
    keys: int = 0


ATTACKS = {
    "nothing": Attack("nothing"),
    "square": Attack("letters that pass letters", square),
    "forks": Attack("100 lost forks, one waits", lost_forks),
    "blocked": Attack("300 blocked chains", blocked),
    "loose": Attack("60,000 loose entries", loose),
    "numbers": Attack("claims of all numbers", all_numbers),
    "full": Attack("2,000,000 letters", full),
    "claims": Attack("claims again and again", does=claims_again),
    "unknown": Attack("unknown kinds, 43 MB", unknown_kinds),
    "presence": Attack("old presence, 30,000 keys", does=old_presence, keys=30_000),
    "hand": Attack("nothing, 30,000 keys", does=nothing, keys=30_000),
}
