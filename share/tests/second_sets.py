"""Sets of entries of the second form that are made at random, with all that authors can do wrong or that others can do to them."""
import random
from collections.abc import Callable, Sequence
from functools import cache
from typing import NamedTuple

from share.tests.naive_chunks import CHANGE_LOOKS, DELETE, RESTORE, Message, inserting, is_chunk, spelled, varint
from share.tests.naive_second import (LEAP, PLAIN, ZEROS, Author, Founding, Head, Kind, Name, Note, Saying, base_hashes, based, claim,
                                      closed, opening, searched, written)

# The founder's number, some that are claimed, and those of the base.
FOUNDED, CLAIMED, COPIED = 1, (2, 3, 65_528), (7, 9)
SITES = (FOUNDED, *CLAIMED, COPIED[0])
# Claims of these sets cost what says the number alone.
ZERO_BITS = 0


def authors(form: int = PLAIN) -> list[Author]:
    """Some, the founder first."""
    return [Author.of(bytes([number]) * 32, form) for number in range(1, 5)]


def base_messages() -> list[Message]:
    """What was copied into a note, of two sites, in two texts."""
    return [inserting(1, 7, 1, 1, None, 0, b"tea"), Message(DELETE, 1, 7, 2, 2, ((7, 1, 1),)), inserting(1, 9, 1, 3, (7, 0), 0, b"or"),
            inserting(2, 7, 1, 1, None, 0, b"well")]


class Made(NamedTuple):
    """A note with what it begins with."""

    note: Note
    founding: Founding
    # The opening and the base.
    begin: list[bytes]
    base: list[Saying]


@cache
def made(form: int = PLAIN, has_base: bool = True) -> Made:
    """A note."""
    secret, messages = b"S" * 32, base_messages() if has_base else []
    hashes = [ZEROS, *base_hashes(secret, messages)]
    founding = Founding(secret, hashes[-1], authors(form)[0].name, FOUNDED)
    note = Note(founding.key(), form)
    cuts = [0, 2, 3, 4] if has_base else [0]
    begin = [opening(note, founding), *(based(note, hashes[at], messages[at:end]) for at, end in zip(cuts, cuts[1:]))]
    base = [Saying(one, b"", of, before, note.public) for one, before, of in zip(messages, hashes, hashes[1:])]
    return Made(note, founding, begin, base)


@cache
def counters(form: int, has_base: bool, author: Author) -> dict[int, int]:
    """By which counters an author claims each number."""
    note, wanted, found, begin = made(form, has_base).note, {*SITES}, dict[int, int](), 0
    while wanted:
        counter, site = searched(note.identity, author.name, ZERO_BITS, wanted, begin)
        found[site], begin = counter, counter + 1
        wanted.discard(site)
    return found


class Branch(NamedTuple):
    """Messages of an author, a number and a text, each after the one before it."""

    author: Author
    site: int
    text: int
    said: tuple[Saying, ...] = ()

    @property
    def length(self) -> int:
        return sum(len(one.message.data) for one in self.said)

    @property
    def stamp(self) -> int:
        return self.said[-1].message.stamp if self.said else 0

    @property
    def next_seq(self) -> int:
        return self.said[-1].message.seq + 1 if self.said else 1

    @property
    def is_chain(self) -> bool:
        """Whether all of them are of this author and place, and none is missing between them."""
        return [(one.author, one.place, one.message.seq) for one in self.said] == [
            (self.author.name, (self.site, self.text), seq) for seq in range(1, len(self.said) + 1)]

    def inserter(self, offset: int) -> Saying | None:
        """The message that inserted a character."""
        return next((one for one in self.said if 0 <= offset - one.message.at < len(one.message.data)), None)

    def seen(self, site: int) -> int:
        """The greatest offset of another site that was mentioned."""
        return max((offset for one in self.said for of, offset in one.mentions() if of == site), default=-1)

    def gone_on(self, note: Note, message: Message, on: bytes = b"") -> "Branch":
        """The branch with one more message, and what that says that it builds on."""
        before = self.said[-1].hash if self.said else ZEROS
        of = note.message_hash(self.author.name, before, spelled(message), on)
        return self._replace(said=(*self.said, Saying(message, on, of, before, self.author.name)))

    def raw(self, note: Note, begin: int, end: int) -> bytes:
        """The entry that has some of the messages."""
        some = self.said[begin:end]
        ons = {index: one.on for index, one in enumerate(some) if one.on}
        return written(note, self.author, some[0].before, [one.message for one in some], ons)


class Fault(NamedTuple):
    """What is out of the ordinary with a message."""

    leap: int | None = None
    at: int = 0
    beyond: int | None = None
    on: Callable[[bytes], bytes] = bytes


class Set:
    """Entries that are made one after another by steps, each from a number of its own."""

    def __init__(self, steps: Sequence[tuple[str, int]], has_base: bool, form: int = PLAIN):
        self.steps, self.has_base, self.form = steps, has_base, form
        self.made, self.authors = made(form, has_base), authors(form)
        self.note = self.made.note
        self.raws = [*self.made.begin]
        self.branches: list[Branch] = []
        for what, seed in steps:
            self._chance = random.Random(seed)
            getattr(self, what)()

    def __repr__(self) -> str:
        return f"Set({self.steps}, {self.has_base})"

    def rest(self) -> None:
        """Nobody does anything."""

    def claim(self) -> None:
        """Somebody claims a number, which others may have."""
        author, site = self._who()
        self.raws.append(claim(self.note, author, counters(self.form, self.has_base, author)[site], site))

    def begin(self) -> None:
        """Somebody begins to write a text, perhaps under a number that is another's."""
        self._write(Branch(*self._who(), self._chance.choice([1, 1, 2])))

    def write(self) -> None:
        """A branch gets longer."""
        self._write(self._leaf())

    def fork(self) -> None:
        """An author goes on from an older message, as from a copied folder."""
        if one := self._leaf():
            self._write(one._replace(said=one.said[:self._chance.randrange(len(one.said))]))

    def cut_otherwise(self) -> None:
        """Messages come in other entries: in one, or in parts."""
        if one := self._leaf():
            self.raws += cut(self.note, one, self._chance)

    def leap(self) -> None:
        self._write(self._leaf(), Fault(leap=self._chance.choice([LEAP, LEAP + 1, LEAP // 2, 3 * LEAP])))

    def put_wrong(self) -> None:
        self._write(self._leaf(), Fault(at=self._chance.choice([-1, 1, 7])))

    def stamp_wrong(self) -> None:
        self._write(self._leaf(), Fault(leap=self._chance.choice([-3, -1, 0])))

    def mention_nobody(self) -> None:
        self._write(self._leaf(), Fault(beyond=self._chance.choice([0, 1, 3])))

    def build_wrong(self) -> None:
        """A message says that it builds on something else, says nothing of it, or needlessly."""
        other = bytes(31) + self._chance.randbytes(1)
        self._write(self._leaf(), Fault(on=self._chance.choice([lambda on: other, lambda on: b"" if on else other])))

    def forge(self) -> None:
        """Somebody goes on from another's message, or from one of another place."""
        one, other = self._leaf(), self._leaf()
        if one and other:
            what = self._chance.randrange(3)
            if what == 0:
                self._write(one._replace(author=self._chance.choice(self.authors)))
            elif what == 1:
                self._write(one._replace(site=other.site, text=other.text))
            else:
                self._write(one, skipped=self._chance.choice([1, 2]))

    def poach(self) -> None:
        """Somebody goes on under a number of the base: after what was copied, or after what isn't there."""
        if self.made.base:
            last, author = self._chance.choice(self.made.base), self._chance.choice(self.authors)
            before = self._chance.choice([last.hash, bytes(31) + self._chance.randbytes(1)])
            site, text = last.place
            some = [inserting(text, site, last.message.seq + 1 + number, 9 + number, None, 4 + number, b"p") for number in range(2)]
            self.raws.append(written(self.note, author, before, some[:self._chance.randint(1, 2)]))

    def say_anew(self) -> None:
        """Somebody says that messages were made anew."""
        if one := self._leaf():
            author = self._chance.choice([one.author, one.author, *self.authors])
            self._add(Kind.ANEW, author, one, self._chance.choice(one.said).hash, b"")

    def say_copied(self) -> None:
        """Somebody says that some messages stand for others."""
        old, new = self._leaf(), self._leaf()
        if old and new:
            by, stretch = self._chance.choice([old, new]), (1, self._chance.choice([0, 1, 2]), self._chance.choice([1, 3]))
            self._add(Kind.COPIES, by.author, by, self._chance.choice([ZEROS, old.said[-1].hash]), self._copies(old, new, stretch))

    def _copies(self, old: Branch, new: Branch, stretch: tuple[int, int, int]) -> bytes:
        """The body that says of a stretch of messages that others are their copies, perhaps up to which."""
        return b"".join([old.author.name, old.site.to_bytes(2, "big"), new.author.name, new.site.to_bytes(2, "big"),
                         self._chance.choice([ZEROS, new.said[-1].hash]), *map(varint, stretch)])

    def be_newer(self) -> None:
        """A later version says what this one doesn't know."""
        if one := self._leaf():
            self._add(self._chance.choice([0, 8, 255]), one.author, one, one.said[-1].hash, b"new")

    def _add(self, kind: int, author: Author, one: Branch, before: bytes, body: bytes) -> None:
        head = Head(self.form, kind, self.note.identity, author.name, one.site, one.text, before=before)
        self.raws.append(closed(self.note, head, body, author.secret))

    def _who(self) -> tuple[Author, int]:
        """An author and his number, or perhaps another's."""
        if self._chance.random() < 0.2:
            return self._chance.choice(self.authors), self._chance.choice(SITES)
        return self._chance.choice([*zip(self.authors, SITES)])

    def _leaf(self) -> Branch | None:
        """A branch that nobody went on from, or perhaps any."""
        gone_on = {one.said[:end] for one in self.branches for end in range(len(one.said))}
        leaves = [one for one in self.branches if one.said not in gone_on] if self._chance.random() < 0.9 else self.branches
        return self._chance.choice(leaves) if leaves else None

    def _write(self, branch: Branch | None, fault: Fault = Fault(), skipped: int = 0) -> None:
        """Makes an entry after a branch's last message; a fault is in one of its messages."""
        if branch is None:
            return
        count = self._chance.choice([1, 1, 2, 3])
        begin, wrong = len(branch.said), self._chance.randrange(count)
        for number in range(count):
            seq = branch.next_seq + (skipped if branch.said and not number else 0)
            branch = self._said(branch, seq, fault if number == wrong else Fault())
        self._send(branch, begin)

    def _send(self, branch: Branch, begin: int) -> None:
        """Puts a branch's messages from one on into entries."""
        self.raws += cut(self.note, branch, self._chance, begin)
        self.branches.append(branch)

    def _said(self, branch: Branch, seq: int, fault: Fault) -> Branch:
        """A branch with one more message."""
        other = self._other(branch)
        stamp = max(branch.stamp, other.stamp if other else 0)
        stamp = max(1, stamp + (self._chance.choice([1, 1, 2, 10]) if fault.leap is None else fault.leap))
        message = self._does(branch, other or branch, seq, stamp, fault)
        return branch.gone_on(self.note, message, fault.on(self._on(branch, other, message)))

    def _does(self, branch: Branch, other: Branch, seq: int, stamp: int, fault: Fault) -> Message:
        """A message that speaks of characters of a branch."""
        first = self._chance.randrange(other.length) if other.length else None
        if fault.beyond is not None:
            first = other.length + fault.beyond
        at = max(0, branch.length + fault.at)
        if first is None or fault.beyond is None and self._chance.random() < 0.6:
            cause = (other.site, first) if first is not None and (other.site != branch.site or first < at) else None
            data = bytes(self._chance.choices(b"ab\7", k=self._chance.choice([1, 2])))
            return inserting(branch.text, branch.site, seq, stamp, cause, at, data)
        kind, many = self._chance.choice([DELETE, RESTORE, CHANGE_LOOKS]), self._chance.randint(1, max(1, other.length - first))
        looks = b"\2\7" if kind == CHANGE_LOOKS else b""
        return Message(kind, branch.text, branch.site, seq, stamp, ((other.site, first, many),), looks=looks)

    def _other(self, branch: Branch) -> Branch | None:
        """A branch of another number, or of the base, that may be spoken of."""
        others = [one for one in self._others(branch) if one.site != branch.site]
        return self._chance.choice(others) if others and self._chance.random() < 0.6 else None

    def _others(self, branch: Branch) -> list[Branch]:
        """All branches of a text, those of the base first."""
        base = [Branch(Author(self.note.public, b""), site, branch.text, tuple(one for one in self.made.base if one.place == (
            site, branch.text))) for site in COPIED if self.has_base]
        return [one for one in [*base, *self.branches] if one.text == branch.text]

    def _on(self, branch: Branch, other: Branch | None, message: Message) -> bytes:
        """What a message builds on."""
        names: list[Name] = [(site, at + length - 1) for site, at, length in message.ranges]
        if other is None or not names or other.site in (COPIED if self.has_base else ()) or names[0][0] == branch.site:
            return b""
        if names[0][1] <= branch.seen(names[0][0]):
            return b""
        inserter = other.inserter(names[0][1])
        return self.note.built_on([inserter.hash if inserter else ZEROS])


def cut(note: Note, branch: Branch, chance: random.Random, begin: int = 0) -> list[bytes]:
    """A branch's messages from one on in entries, cut anywhere, and where one chunk can't have them."""
    found, messages = list[bytes](), [one.message for one in branch.said]
    while begin < len(messages):
        ends = [end for end in range(begin + 1, len(messages) + 1) if is_chunk(messages[begin:end])]
        end = chance.choice([ends[-1], chance.choice(ends)])
        found.append(branch.raw(note, begin, end))
        begin = end
    return found


RIGHT = ["rest", "claim", "begin", "write", "write", "write", "write", "fork", "cut_otherwise"]
WORDS = ["say_anew", "say_copied", "be_newer"]
STEPS = RIGHT * 2 + WORDS + ["leap", "put_wrong", "stamp_wrong", "mention_nobody", "build_wrong", "forge", "poach"]
