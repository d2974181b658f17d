"""The rules of judging as a plain, slow program, which tests compare with the quick one.

It was written from what the rules say, and shares no code with what it is compared with. A set of entries goes
in as a whole; what counts of it comes out.
"""
import hashlib
from collections.abc import Callable, Iterable, Iterator, Mapping, Sequence
from dataclasses import dataclass
from itertools import chain
from typing import Any, cast
from typing import NamedTuple

from share.format.chunk import Packed, packed, packed_in_parts
from share.format.entry import HEAD, NO_HASH, Author, BuiltOn, Entry, FirstEntry, FirstForm, Form, Kind
from share.format.operation import NoMessage, Operation
from share.program.process import Program
from share.text.names import Names

LEAP = 1 << 20
INSERT, DELETE, CHANGE_LOOKS, RESTORE = 1, 2, 3, 4

# A character: the site that inserted it, and its offset in that site's file.
Name = tuple[int, int]
Rank = Callable[[FirstEntry], tuple[Any, ...]]


class Reading(NamedTuple):
    """What a message's bytes say."""

    kind: int
    site: int
    seq: int
    stamp: int
    # Where an insertion's characters begin, and how many they are.
    at: int
    length: int
    # The ranges of names that it mentions, as site, first offset and length.
    ranges: list[tuple[int, int, int]]

    def inserted(self) -> Iterator[Name]:
        """The characters that it inserts."""
        return ((self.site, self.at + offset) for offset in range(self.length))

    def mentioned(self) -> Iterator[Name]:
        """The characters that it mentions."""
        return ((site, at + offset) for site, at, length in self.ranges for offset in range(length))


def reading(data: bytes) -> Reading:
    """Reads the bytes of a message, field by field."""
    fields = _Fields(data)
    tag, _, kind, _ = fields.take(2), fields.take(1), fields.take(1), fields.take(2)
    assert tag == int.from_bytes(b"OT", "big")
    site, seq, stamp = fields.take(2), fields.take(4), fields.take(8)
    at = length = 0
    if kind == INSERT:
        cause_site, cause_offset, at = fields.take(2), fields.take(4), fields.take(4)
        fields.skip(fields.take(1) + 2)
        length = fields.take(2)
        fields.skip(length)
        ranges = [(cause_site, cause_offset, 1)] if cause_site else []
    else:
        if kind == CHANGE_LOOKS:
            selected = fields.take(1)
            for bit in 1, 2, 4:
                if selected & bit:
                    fields.skip(fields.take(1) if bit == 1 else 1)
        ranges = [(fields.take(2), fields.take(4), fields.take(4)) for _ in range(fields.take(2))]
    assert fields.at == len(data)
    return Reading(kind, site, seq, stamp, at, length, ranges)


class _Fields:
    """Bytes that are read from the front."""

    def __init__(self, data: bytes):
        self.data, self.at = data, 0

    def take(self, count: int) -> int:
        """The number that so many bytes spell."""
        self.skip(count)
        return int.from_bytes(self.data[self.at - count:self.at], "big")

    def skip(self, count: int) -> None:
        self.at += count
        assert self.at <= len(self.data)


def rank(entry: FirstEntry) -> tuple[bytes, ...]:
    """The smaller one of two claims, or of two entries of one place, holds. Two claims of one author are told
    apart by their own hashes."""
    if entry.kind is Kind.CLAIM:
        return hashlib.blake2b(entry.site.to_bytes(2, "big") + entry.author, digest_size=32).digest(), entry.hash
    return (entry.hash,)


@dataclass
class Answer:
    """What counts of a set of entries."""

    # The entries of each site that hold, its claim first.
    chains: dict[int, list[FirstEntry]]
    # The messages of each site that are let through, and those that are next.
    through: dict[int, list[Operation]]
    following: dict[int, list[Operation]]
    # The stamp of the Insert of each character that is there, and the hash of its entry.
    stamps: dict[Name, int]
    inserted_by: dict[Name, bytes]

    @property
    def greatest(self) -> int:
        """The greatest stamp that was let through."""
        return max((one.stamp for messages in self.through.values() for one in messages), default=0)

    def length(self, site: int) -> int:
        """How many characters of a site are there."""
        return sum(reading(spelled(one)).length for one in self.through.get(site, []))

    def is_let_through(self, message: Operation) -> bool:
        """Whether a message is among those that are let through."""
        return message in self.through.get(message.site, [])

    def is_wrong(self, message: Operation) -> bool:
        """Whether a message that is next at its site can never be let through. As where a message is taken
        in, its place is looked at first, then whether all that it mentions is there, then its stamp."""
        read, before = reading(spelled(message)), self.through[message.site]
        if before and message.stamp <= before[-1].stamp:
            return True
        if read.kind == INSERT and read.at != self.length(message.site):
            return True
        # What is held back for its stamp isn't looked at further.
        if message.stamp > self.greatest + LEAP:
            return False
        spoken_of = self._spoken_of(message)
        lacking = {name for name in spoken_of if name not in self.stamps}
        if lacking:
            return any(site == message.site for site, _ in lacking)
        return self._sees_the_same(message) and any(self.stamps[name] >= message.stamp for name in spoken_of)

    def is_right(self, message: Operation) -> bool:
        """Whether the message that is next at its site is let through."""
        return (not self.is_wrong(message) and message.stamp <= self.greatest + LEAP
                and all(name in self.stamps for name in self._spoken_of(message)) and self._sees_the_same(message))

    def entry_of(self, message: Operation) -> FirstEntry:
        """The entry of the message that is next at its site."""
        return next(entry for entry in self.chains[message.site] if message in entry.messages)

    def _spoken_of(self, message: Operation) -> set[Name]:
        """The characters that have to be there before the message that is next at its site."""
        names = set(reading(spelled(message)).mentioned())
        entry = self.entry_of(message)
        if entry.on and message == entry.messages[0]:
            names |= {name for one in entry.messages for name in reading(spelled(one)).mentioned() if name[0] != entry.site}
        return names

    def _sees_the_same(self, message: Operation) -> bool:
        """Whether the characters that the entry of a message mentions are those that its author saw. They are
        there."""
        entry = self.entry_of(message)
        return not entry.on or message != entry.messages[0] or entry.on == built_on(entry.messages, self.inserted_by)

    def wrong(self) -> list[Operation]:
        """The messages that end their sites' chains."""
        return [messages[0] for messages in self.following.values() if messages and self.is_wrong(messages[0])]

    def incomplete(self, entries: list[FirstEntry]) -> int:
        """How many messages of these entries came that something is missing for."""
        left_out = self._blocked_by_what_was_left_out(entries)
        waiting = [one for site in self._blocked() - left_out for one in self.held_up(site, entries)]
        return len(waiting) + sum(len(entry.messages) for entry in loose(entries))

    def _blocked(self) -> set[int]:
        """The sites of which something isn't let through that isn't wrong."""
        return {site for site, messages in self.following.items() if messages and not self.is_wrong(messages[0])}

    def _blocked_by_what_was_left_out(self, entries: list[FirstEntry]) -> set[int]:
        """Those of them whose next message builds on what was left out."""
        at_hand = loose(entries)
        kept = {entry.hash for entry in [*at_hand, *chain.from_iterable(self.chains.values())]}
        # The characters that were left out, as far as each site has them.
        ends: dict[int, int] = {}
        for read in (reading(spelled(one)) for entry in entries if entry.hash not in kept for one in entry.messages):
            ends[read.site] = max(ends.get(read.site, 0), read.at + read.length)
        # All that a site would have inserted whose next message is left out is left out with it.
        left_out: set[int] = set()
        while gone := {site for site in self._blocked() - left_out
                       if self._builds_on(self.following[site][0], ends, left_out)}:
            left_out |= gone
        return left_out

    def left_out(self, entries: list[FirstEntry]) -> list[tuple[int, bytes, int, int]]:
        """The site, author and seq of each message that doesn't count since a smaller hash holds in its place, or since it
        builds on such, and for which no copy stands that counts; and how many characters it inserted."""
        in_chains = {entry.hash for entry in chain.from_iterable(self.chains.values())}
        known = {entry.hash: entry for entry in entries if entry.kind is not Kind.NEWER}
        lost = [(entry, one) for entry in known.values() if entry.hash not in in_chains and entry.messages
                and is_rooted(entry, known) and not self._has_just(entry.messages) and not is_said_anew(entry, known)
                for one in entry.messages]
        told = [entry for entry in entries if entry.kind is not Kind.ANEW or not tells_copies(entry, known)]
        for site in self._blocked_by_what_was_left_out(entries):
            held = self.held_up(site, told)
            lost += [(entry, one) for entry in self.chains[site] for one in entry.messages if one in held]
        return sorted((one.site, entry.author, one.seq, reading(spelled(one)).length) for entry, one in lost
                      if not self._is_copied(entry, one, known))

    def _has_just(self, messages: tuple[Operation, ...]) -> bool:
        """Whether an entry that counts has the same messages."""
        return any(entry.messages == messages and set(messages) <= set(self.through[messages[0].site])
                   for entry in self.chains.get(messages[0].site, []))

    def _is_copied(self, entry: FirstEntry, message: Operation, known: Mapping[bytes, FirstEntry]) -> bool:
        """Whether a copy of a message of an entry counts: by the word of its author, or since it has all that was typed, as one
        message or as all those of one author and site together."""
        others: dict[tuple[int, bytes], dict[int, bytes]] = {}
        for one in known.values():
            if one.kind is not Kind.COPIES or (one.copied.author, one.copied.site) != (entry.author, entry.site):
                continue
            is_authors = (one.author, one.site) == (entry.author, entry.site)
            if one.before != NO_HASH and entry.hash not in chained_to(one.before, known):
                continue
            for seq, by, count in one.copied.stretches:
                found = self._counting(one.copied.by, one.copied.by_site, by + message.seq - seq)
                if found and one.copied.last != NO_HASH and not any(
                        found in known[of].messages for of in chained_to(one.copied.last, known) & self._hashes()):
                    found = None
                if seq <= message.seq < seq + count and (found or not by):
                    if is_authors:
                        return True
                    if found and by:
                        others.setdefault((found.site, one.copied.by), {})[found.seq] = found.data
        return bool(message.data) and any(
            message.data in (b"".join(parts[seq] for seq in sorted(parts)), *parts.values()) for parts in others.values())

    def _hashes(self) -> set[bytes]:
        """The hashes of the entries that hold."""
        return {entry.hash for entry in chain.from_iterable(self.chains.values())}

    def _counting(self, author: bytes, site: int, seq: int) -> Operation | None:
        """The message of an author, a site and a seq, if it counts."""
        if site not in self.chains or self.chains[site][0].author != author:
            return None
        return next((one for one in self.through[site] if one.seq == seq), None)

    def held_up(self, site: int, entries: list[FirstEntry]) -> list[Operation]:
        """The messages of a site that aren't let through and aren't wrong, but those of which one of these entries says
        that they were made anew."""
        messages, chain = self.following.get(site, []), self.chains.get(site, [])
        if not messages or self.is_wrong(messages[0]):
            return []
        said = {entry.before for entry in entries
                if entry.kind is Kind.ANEW and (entry.site, entry.author) == (site, chain[0].author)}
        up_to = max([one.messages[-1].seq for one in chain if one.messages and one.hash in said], default=0)
        return [one for one in messages if one.seq > up_to]

    def _builds_on(self, message: Operation, ends: dict[int, int], left_out: set[int]) -> bool:
        """Whether a message builds on characters that were left out: it lacks some of a site, of which it mentions what
        was left out, or which is left out from here on; or others are in their place. What is held back for its stamp isn't
        looked at further."""
        if message.stamp > self.greatest + LEAP:
            return False
        names = self._spoken_of(message)
        lacking = {site for site, offset in names if (site, offset) not in self.stamps}
        if not lacking:
            return not self._sees_the_same(message) and any(
                offset < ends.get(site, 0) for site, offset in lasts(self.entry_of(message).messages))
        return any(site in left_out or min(offset for of, offset in names if of == site) < ends.get(site, 0)
                   for site in lacking)


def judged(entries: Iterable[FirstEntry], prefers: Rank = rank) -> Answer:
    """What counts of a set of entries: the least that has all that is right over it."""
    known = {entry.hash: entry for entry in entries}.values()
    chains = {site: chain_of(known, site, prefers) for site in sorted({
        entry.site for entry in known if entry.kind is Kind.CLAIM})}
    following = {site: [one for entry in chain for one in entry.messages] for site, chain in chains.items()}
    answer = Answer(chains, {site: [] for site in chains}, following, {}, {})
    while site := next((site for site in chains if following[site] and answer.is_right(following[site][0])), None):
        message = following[site].pop(0)
        entry = answer.entry_of(message)
        answer.through[site].append(message)
        answer.stamps |= dict.fromkeys(reading(spelled(message)).inserted(), message.stamp)
        answer.inserted_by |= dict.fromkeys(reading(spelled(message)).inserted(), entry.hash)
    return answer


def lasts(messages: Iterable[Operation]) -> list[Name]:
    """The last character of each other site that messages mention, site by site."""
    names = {name for one in messages for name in reading(spelled(one)).mentioned() if name[0] != one.site}
    return [max(name for name in names if name[0] == site) for site in sorted({site for site, _ in names})]


def built_on(messages: Iterable[Operation], inserted_by: Mapping[Name, bytes]) -> bytes:
    """What messages build on, as an entry says it."""
    hashes = [inserted_by[name] for name in lasts(messages)]
    return hashlib.blake2b(b"".join(hashes), digest_size=32).digest() if hashes else b""


def chain_of(known: Iterable[FirstEntry], site: int, prefers: Rank) -> list[FirstEntry]:
    """The entries of a site that hold: from its claim on, each time the one that holds of all that follow."""
    chain: list[FirstEntry] = []
    found = [entry for entry in known if entry.kind is Kind.CLAIM and entry.site == site]
    while found:
        chain.append(min(found, key=prefers))
        found = [entry for entry in known if follows(entry, chain[-1])]
    return chain


def follows(entry: FirstEntry, before: FirstEntry) -> bool:
    """Whether an entry has the place after another one: of its site and author, with the seq that is next."""
    return (entry.kind not in (Kind.CLAIM, Kind.NEWER, Kind.COPIES) and entry.before == before.hash and entry.site == before.site
            and entry.author == before.author
            and entry.first == (before.messages[-1].seq if before.messages else 0) + 1)


def tells_copies(entry: FirstEntry, known: Mapping[bytes, FirstEntry]) -> bool:
    """Whether its author says of own messages what stands for them."""
    return any(one.kind is Kind.COPIES and (one.site, one.author) == (entry.site, entry.author)
               == (one.copied.site, one.copied.author) for one in known.values())


def is_said_anew(entry: FirstEntry, known: Mapping[bytes, FirstEntry]) -> bool:
    """Whether its author says that it was made anew, and doesn't say what stands for what."""
    own = [one for one in known.values() if one.kind is Kind.ANEW and (one.site, one.author) == (entry.site, entry.author)]
    return not tells_copies(entry, known) and any(entry.hash in chained_to(one.before, known) for one in own)


def chained_to(of: bytes, known: Mapping[bytes, FirstEntry]) -> set[bytes]:
    """An entry, and those to which it is chained. No chain goes through a word."""
    found: set[bytes] = set()
    while of in known and (known[of].messages or known[of].kind is Kind.CLAIM):
        found.add(of)
        of = known[of].before
    return found


def is_rooted(entry: FirstEntry, known: Mapping[bytes, FirstEntry]) -> bool:
    """Whether each entry from a claim up to this one has the place after the one before it."""
    while entry.kind is not Kind.CLAIM:
        before = known.get(entry.before)
        if before is None or not follows(entry, before):
            return False
        entry = before
    return True


def ended(entries: Iterable[FirstEntry]) -> set[bytes]:
    """The hashes of the entries that a smaller hash keeps from holding, for good."""
    known = list({entry.hash: entry for entry in entries}.values())
    gone: set[bytes] = set()
    for entry in known:
        # Those that have its place, itself among them.
        rivals = [one for one in known if (one.kind is Kind.CLAIM) == (entry.kind is Kind.CLAIM)
                  and one.site == entry.site
                  and (entry.kind is Kind.CLAIM or one.before == entry.before and one.author == entry.author
                       and one.first == entry.first)]
        if min(rivals, key=rank).hash != entry.hash:
            gone.add(entry.hash)
    while more := {entry.hash for entry in known if entry.before in gone} - gone:
        gone |= more
    return gone


def loose(entries: Iterable[FirstEntry]) -> list[FirstEntry]:
    """The entries from which no walk to what came before them ends at a claim that is there. What says that something
    was made anew, or what stands for what, waits for nothing, nor does what a later version wrote."""
    known = {entry.hash: entry for entry in entries}
    found = []
    for entry in known.values():
        at: FirstEntry | None = entry
        while at is not None and at.kind not in (Kind.CLAIM, Kind.ANEW, Kind.COPIES, Kind.NEWER):
            at = known.get(at.before)
        if at is None:
            found.append(entry)
    return sorted(found, key=lambda one: (one.site, one.first, one.hash))


class Replica:
    """A text's replica as far as it says whether a message can be taken in at once."""

    def __init__(self) -> None:
        self.fronts: dict[int, Reading] = {}
        self.lengths: dict[int, int] = {}
        self.stamps: dict[Name, int] = {}

    def take(self, messages: Iterable[Operation]) -> list[bytes]:
        """What is answered to messages that are handed in: that each is taken in, and else something else."""
        return [b"taken 0 0" if self._is_ready(reading(spelled(one))) else b"not ready" for one in messages]

    def close(self) -> None:
        """There is nothing to end."""

    def _is_ready(self, read: Reading) -> bool:
        before, length = self.fronts.get(read.site), self.lengths.get(read.site, 0)
        if read.seq != (before.seq if before else 0) + 1 or read.kind == INSERT and read.at != length:
            return False
        causes = [self.stamps.get(name) for name in read.mentioned()] + ([before.stamp] if before else [])
        if any(stamp is None or stamp >= read.stamp for stamp in causes):
            return False
        self.fronts[read.site], self.lengths[read.site] = read, length + read.length
        self.stamps |= dict.fromkeys(read.inserted(), read.stamp)
        return True


LOOKS = b"\x10Oberon10.Scn.Fnt\x01\x00"


def newer(form: Form, before: Entry, author: Author, body: bytes = b"new") -> FirstEntry:
    """What a later version wrote after an entry, of a kind that this version doesn't know."""
    head_of_it = HEAD.pack(form.number, 9, form.note, before.site, before.last + 1, 0, before.hash)
    assert isinstance(form, FirstForm)
    return form.open(form._closed(head_of_it + author.name, body, author))


def head(kind: int, site: int, seq: int, stamp: int) -> bytes:
    """The first 20 bytes of a message of the note's text."""
    version = 2 if kind == RESTORE else 1
    return b"OT%c%c\x00\x01" % (version, kind) + b"".join([
        site.to_bytes(2, "big"), seq.to_bytes(4, "big"), stamp.to_bytes(8, "big")])


def spelled(one: Operation) -> bytes:
    """The message of an operation, as the program spells it."""
    begin = head(one.kind, one.site, one.seq, one.stamp)
    if one.kind == INSERT:
        site, offset, _ = one.mentions[0] if one.mentions else (0, 0, 1)
        return b"".join([begin, site.to_bytes(2, "big"), offset.to_bytes(4, "big"), one.at.to_bytes(4, "big"), one.looks,
                         len(one.data).to_bytes(2, "big"), one.data])
    ranges = [of.to_bytes(2, "big") + at.to_bytes(4, "big") + length.to_bytes(4, "big") for of, at, length in one.mentions]
    return b"".join([begin, one.looks, len(ranges).to_bytes(2, "big"), *ranges])


def is_spelled(data: bytes) -> bool:
    """Whether bytes are read as a message."""
    try:
        Operation.read(data)
    except NoMessage:
        return False
    return True


def taking(program: Program, one: Operation) -> bytes:
    """The event that hands an operation in, as its message."""
    return program.event("take", spelled(one).hex().encode())


def chunk_of(operations: Iterable[Operation], length: int = 0) -> bytes | None:
    """The chunk of operations; None where none has them."""
    part = packed(operations, length)
    return part.chunk if part else None


def in_entries(operations: Iterable[Operation]) -> list[list[Operation]]:
    """Operations in parts that fit an entry each, one by one."""
    return [[each for one in part.operations for each in one.each()] for part in packed_in_parts(operations)]


def in_chunks(operations: Iterable[Operation]) -> list[list[Operation]]:
    """Split operations into parts of which each has a chunk. An operation that doesn't follow the one before it begins another part."""
    parts: list[list[Operation]] = []
    for one in operations:
        if parts and _packed([*parts[-1], one]):
            parts[-1].append(one)
        else:
            parts.append([one])
    return parts


def _packed(operations: Sequence[Operation]) -> Packed | None:
    """Operations with their chunk, wherever their characters begin; None where no chunk has them."""
    return packed(operations, next((one.at for one in operations if one.data), 0))


def entry_of(form: Form, before: Entry, operations: Sequence[Operation], author: Author, on: BuiltOn = b"", length: int = 0) -> FirstEntry:
    """The entry of operations that follow an entry. Their chunk may say that their characters begin at another place than they should."""
    part = packed(operations, length) or _packed(operations)
    assert part, "no chunk has them"
    return cast(FirstEntry, form.entry(before, part, author, on))


def inserting(site: int, seq: int, stamp: int, cause: Name | None, at: int, data: bytes) -> Operation:
    """An Insert of these bytes in the default looks, after a character or, without one, at the beginning."""
    mentions = (Names(*cause, 1),) if cause else ()
    return Operation(INSERT, site, seq, stamp, 1, mentions, at, data, LOOKS)


def about(kind: int, site: int, seq: int, stamp: int, ranges: list[tuple[int, int, int]]) -> Operation:
    """A Delete or a Restore of ranges of names, or a change of their colour."""
    looks = b"\x02\x07" if kind == CHANGE_LOOKS else b""
    return Operation(kind, site, seq, stamp, 1, tuple(Names(*one) for one in ranges), looks=looks)
