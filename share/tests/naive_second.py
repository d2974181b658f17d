"""The second form of notes as a plain, slow program: keys, entries, links, and what counts of a set of entries.

It was written from docs/NOTES.md and docs/FORMATS.md, and shares no code with what will be compared with it. It is pure: nothing is
read or written, and there is no clock and no chance in it.
"""
import base64
import hashlib
import hmac
from collections.abc import Iterable, Sequence
from dataclasses import dataclass, field
from enum import Enum, IntEnum
from itertools import count as counting
from typing import NamedTuple

from cryptography.exceptions import InvalidSignature, InvalidTag
from cryptography.hazmat.primitives.asymmetric.ed25519 import Ed25519PrivateKey, Ed25519PublicKey
from cryptography.hazmat.primitives.ciphers.aead import AESGCM
from cryptography.hazmat.primitives.hashes import SHA256
from cryptography.hazmat.primitives.kdf.hkdf import HKDF
from cryptography.hazmat.primitives.serialization import Encoding, PublicFormat

from share.tests.naive_chunks import Message, NoChunk, chunk_of, messages_of, spelled

PLAIN, SEALED = 3, 4
PRESENCE = b"\5"
HEAD, NONCE, TAG, SIGNATURE, MOST_BYTES = 91, 12, 16, 64, 16_384
ZEROS = bytes(32)
GREATEST_SITE, GREATEST_TEXT, LONGEST_NAME = 65_528, 16, 200
ZERO_BITS = 20
LEAP = 1 << 20
INSERT = 1
# The field of Ed25519's curve, the ys of its points of small order, and the order of its group.
FIELD, ORDER = 2**255 - 19, 2**252 + 27742317777372353535851937790883648493
SMALL = (0, 1, FIELD - 1, 0x05FC536D880238B13933C6D305ACDFD5F098EFF289F4C345B027B2C28F95E826,
         0x7A03AC9277FDC74EC6CC392CFA53202A0F67100D760B3CBA4FD83D3D8E7A17C7)

# A number and a text; a character, by its site and offset.
Place = tuple[int, int]
Name = tuple[int, int]


class Bad(ValueError):
    """Bytes that are nothing of this note."""


class Kind(IntEnum):
    """What an entry is; all others are newer."""

    OPENING = 1
    CLAIM = 2
    BASE = 3
    MESSAGES = 4
    ANEW = 5
    COPIES = 6
    RENEWED = 7


class Why(Enum):
    """Why a message doesn't count."""

    NO_OPENING = "the opening, or some of the base, isn't there"
    LOOSE = "one before it is missing"
    PLACE = "it has no place after the one before it"
    BASE = "it isn't of the base"
    UNCLAIMED = "its author doesn't claim the number"
    HOLDER = "its author doesn't hold the number"
    BRANCH = "another branch holds"
    WRONG = "it is wrong"
    STAMP = "it waits for stamps"
    LACKS = "it waits for what it mentions"
    OTHERS = "it builds on others"
    AFTER = "one before it doesn't count"


# Keys.


class Founding(NamedTuple):
    """What a note begins with."""

    secret: bytes
    root: bytes
    founder: bytes
    number: int

    def spelled(self) -> bytes:
        return self.secret + self.root + self.founder + self.number.to_bytes(2, "big")

    def key(self) -> bytes:
        """The note's key."""
        return hashlib.sha256(b"vialshoal 2 key" + self.spelled()).digest()


def derived(key: bytes, use: str) -> bytes:
    """What comes of a key for a use."""
    return HKDF(SHA256(), 32, b"", f"vialshoal 2 {use}".encode()).derive(key)


def public_of(secret: bytes) -> bytes:
    """The public half of a key of Ed25519."""
    return Ed25519PrivateKey.from_private_bytes(secret).public_key().public_bytes(Encoding.Raw, PublicFormat.Raw)


class Note:
    """All that comes of a note's key."""

    def __init__(self, key: bytes, form: int = SEALED):
        self.key, self.form = key, form
        self.hashing, self.seal, self.nonces, self.on, self.append = (
            derived(key, use) for use in ("hash", "seal", "nonce", "presence", "append"))
        self.public = derived(key, "plain") if form == PLAIN else public_of(self.append)
        self.identity = hashlib.sha256(b"vialshoal 2 note" + self.public).digest()[:16]

    def digest(self, data: bytes) -> bytes:
        """What hashes are made by."""
        return hmac.digest(self.hashing, data, "sha256")

    def message_hash(self, author: bytes, before: bytes, message: bytes, on: bytes) -> bytes:
        return self.digest(b"\1" + author + before + message + on)

    def built_on(self, hashes: Iterable[bytes]) -> bytes:
        """What a message builds on, of the hashes of others'."""
        return self.digest(b"\2" + b"".join(hashes))

    def claim_name(self, author: bytes, site: int) -> bytes:
        """By which a claim is asked for."""
        return self.digest(b"\0" + author + site.to_bytes(2, "big"))

    def nonce(self, data: bytes) -> bytes:
        return hmac.digest(self.nonces, data, "sha256")[:NONCE]


def base_hashes(secret: bytes, messages: Iterable[Message], before: bytes = ZEROS) -> list[bytes]:
    """The hashes of the base's messages from one on."""
    key, found = derived(secret, "base"), [before]
    for one in messages:
        found.append(hmac.digest(key, found[-1] + spelled(one), "sha256"))
    return found[1:]


# Claims.


def rank(note: bytes, author: bytes, counter: int) -> bytes:
    """What is hashed for a claim."""
    return hashlib.sha512(b"vialshoal 2 claim" + note + author + counter.to_bytes(8, "big")).digest()[:32]


def number_of(of: bytes, zero_bits: int = ZERO_BITS) -> int | None:
    """The number that a rank claims; None where it claims none."""
    after = int.from_bytes(of[2:], "big") >> 240 - zero_bits
    number = int.from_bytes(of[:2], "big")
    return number if not after and 1 <= number <= GREATEST_SITE else None


def searched(note: bytes, author: bytes, zero_bits: int = ZERO_BITS, wanted: Iterable[int] = (), begin: int = 0) -> tuple[int, int]:
    """A counter by which an author has a number, one of those that are wanted if any are; and that number."""
    some = set(wanted)
    for counter in counting(begin):
        number = number_of(rank(note, author, counter), zero_bits)
        if number is not None and (not some or number in some):
            return counter, number
    raise AssertionError


# Entries.


class Head(NamedTuple):
    """What an entry has before its nonce."""

    form: int
    kind: int
    note: bytes
    author: bytes
    site: int = 0
    text: int = 0
    first: int = 0
    size: int = 0
    before: bytes = ZEROS

    def spelled(self) -> bytes:
        return b"".join([bytes([self.form, self.kind]), self.note, self.author, self.site.to_bytes(2, "big"), bytes([self.text]),
                         self.first.to_bytes(4, "big"), self.size.to_bytes(2, "big"), self.before])

    @classmethod
    def read(cls, data: bytes) -> "Head":
        site, text, first, size = (int.from_bytes(part, "big") for part in (data[50:52], data[52:53], data[53:57], data[57:59]))
        return cls(data[0], data[1], data[2:18], data[18:50], site, text, first, size, data[59:HEAD])


class Saying(NamedTuple):
    """A message of an entry, what it says that it builds on, and its hash and that before it."""

    message: Message
    on: bytes
    hash: bytes
    before: bytes
    author: bytes

    @property
    def place(self) -> Place:
        return self.message.site, self.message.text

    def mentions(self) -> set[Name]:
        """The characters that it mentions."""
        return {(site, at + offset) for site, at, length in self.message.ranges for offset in range(length)}


class Entry(NamedTuple):
    """An entry that was opened."""

    head: Head
    body: bytes
    # What it says, message by message; of a base without hashes, which take what the opening says.
    says: tuple[Saying, ...] = ()
    messages: tuple[Message, ...] = ()

    @property
    def counter(self) -> int:
        """A claim's."""
        return int.from_bytes(self.head.before[24:], "big")


def is_point(spelled_point: bytes) -> bool:
    """Whether all libraries read a point alike."""
    y = int.from_bytes(spelled_point, "little") & 2**255 - 1
    return y < FIELD and y not in SMALL


def is_signed(data: bytes, signature: bytes, author: bytes) -> bool:
    """Whether an author signed this."""
    if not (is_point(author) and is_point(signature[:32]) and int.from_bytes(signature[32:], "little") < ORDER):
        return False
    try:
        Ed25519PublicKey.from_public_bytes(author).verify(signature, data)
    except (InvalidSignature, ValueError):
        return False
    return True


def closed(note: Note, head: Head, body: bytes, secret: bytes = b"") -> bytes:
    """The bytes of an entry, signed with a secret where it is sealed."""
    spelled_head = head.spelled()
    nonce = note.nonce(spelled_head + body)
    if note.form == PLAIN:
        return spelled_head + nonce + body
    data = spelled_head + nonce + AESGCM(note.seal).encrypt(nonce, body, spelled_head)
    return data + Ed25519PrivateKey.from_private_bytes(secret).sign(data)


def _body(note: Note, raw: bytes) -> bytes:
    """What is boxed in an entry."""
    if not HEAD + NONCE <= len(raw) <= MOST_BYTES or raw[0] != note.form or raw[2:18] != note.identity:
        raise Bad("no entry of this note")
    head, nonce, rest = raw[:HEAD], raw[HEAD:HEAD + NONCE], raw[HEAD + NONCE:]
    if note.form == SEALED:
        if len(rest) < TAG + SIGNATURE or not is_signed(raw[:-SIGNATURE], raw[-SIGNATURE:], raw[18:50]):
            raise Bad("not signed by its author")
        try:
            rest = AESGCM(note.seal).decrypt(nonce, rest[:-SIGNATURE], head)
        except InvalidTag as why:
            raise Bad("not sealed with this note's key") from why
    if nonce != note.nonce(head + rest):
        raise Bad("another nonce, or damaged")
    return rest


def opened(note: Note, raw: bytes, zero_bits: int = ZERO_BITS) -> Entry:
    """The entry that has these bytes; raises Bad where they are none of this note."""
    body = _body(note, raw)
    head = Head.read(raw)
    if head.kind not in list(Kind):
        return Entry(head, body)
    if head.kind == Kind.OPENING:
        if head[4:] != (0, 0, 0, 0, ZEROS) or head.author != note.public:
            raise Bad("no opening")
        if hashlib.sha256(b"vialshoal 2 key" + body).digest() != note.key or len(body) != 98:
            raise Bad("not what the note's key comes of")
        return Entry(head, body)
    if not 1 <= head.site <= GREATEST_SITE:
        raise Bad("no number")
    if head.kind in (Kind.BASE, Kind.MESSAGES):
        return with_messages(note, head, body)
    return _without_messages(note, head, body, zero_bits)


def _without_messages(note: Note, head: Head, body: bytes, zero_bits: int) -> Entry:
    """A claim, or an entry that says what became of messages or of the note."""
    if head.first or head.size:
        raise Bad("has messages")
    has_text = head.kind in (Kind.ANEW, Kind.COPIES)
    if has_text != (1 <= head.text <= GREATEST_TEXT) or not has_text and head.text:
        raise Bad("of another text")
    entry = Entry(head, body)
    if head.kind == Kind.CLAIM:
        if body or any(head.before[:24]) or number_of(rank(note.identity, head.author, entry.counter), zero_bits) != head.site:
            raise Bad("a claim that didn't cost what it has to")
    elif head.kind == Kind.ANEW:
        if body or head.before == ZEROS:
            raise Bad("speaks of nothing")
    elif head.kind == Kind.COPIES:
        copied_of(entry)
    elif head.before != ZEROS or len(body) > LONGEST_NAME:
        raise Bad("no name")
    return entry


def with_messages(note: Note, head: Head, body: bytes) -> Entry:
    """An entry of messages, each with its hash."""
    if not (1 <= head.text <= GREATEST_TEXT and head.size and head.first) or (head.kind == Kind.BASE and head.author != note.public):
        raise Bad("of no place")
    if head.kind == Kind.MESSAGES and (head.first == 1) != (head.before == ZEROS):
        raise Bad("begins a chain, and names one before it, or neither")
    ons, chunk = _ons(body) if head.kind == Kind.MESSAGES else ({}, body)
    try:
        messages = messages_of(chunk)
    except NoChunk as why:
        raise Bad("no chunk") from why
    if [(one.text, one.site, one.seq) for one in messages] != [(head.text, head.site, head.first + at) for at in range(head.size)]:
        raise Bad("messages of another place")
    if any(index >= head.size for index in ons):
        raise Bad("says of no message what it builds on")
    if head.kind == Kind.BASE:
        return Entry(head, body, (), messages)
    said, before = list[Saying](), head.before
    for index, message in enumerate(messages):
        on = ons.get(index, b"")
        of = note.message_hash(head.author, before, spelled(message), on)
        said.append(Saying(message, on, of, before, head.author))
        before = of
    return Entry(head, body, tuple(said), messages)


def _ons(body: bytes) -> tuple[dict[int, bytes], bytes]:
    """What messages build on, by their index, and the chunk after that."""
    many = int.from_bytes(body[:2], "big")
    parts = [body[begin:begin + 34] for begin in range(2, 2 + 34 * many, 34)]
    indexes = [int.from_bytes(part[:2], "big") for part in parts]
    if len(body) < 2 + 34 * many or indexes != sorted(set(indexes)):
        raise Bad("cut short, or doubled")
    return {index: part[2:] for index, part in zip(indexes, parts)}, body[2 + 34 * many:]


class Copied(NamedTuple):
    """What an entry says of copies."""

    author: bytes
    site: int
    by: bytes
    by_site: int
    last: bytes
    stretches: tuple[tuple[int, int, int], ...]


def copied_of(entry: Entry) -> Copied:
    """What an entry of copies says; Bad where it can't."""
    data = entry.body
    author, site, by, by_site, last = data[:32], data[32:34], data[34:66], data[66:68], data[68:100]
    numbers = _varints(data[100:])
    found = Copied(author, int.from_bytes(site, "big"), by, int.from_bytes(by_site, "big"), last, tuple(
        zip(numbers[::3], numbers[1::3], numbers[2::3])))
    if len(data) < 100 or not numbers or len(numbers) % 3:
        raise Bad("no stretches")
    if any(min(seq, many) < 1 or max(seq, copy) + many - 1 > 2**32 - 1 for seq, copy, many in found.stretches):
        raise Bad("stretches that can't be")
    if not (1 <= found.site <= GREATEST_SITE and 1 <= found.by_site <= GREATEST_SITE):
        raise Bad("no numbers")
    if (entry.head.author, entry.head.site) not in ((author, found.site), (by, found.by_site)):
        raise Bad("speaks of copies of others")
    return found


def _varints(data: bytes) -> list[int]:
    """The numbers that bytes spell, each in its one spelling."""
    found, at = list[int](), 0
    while at < len(data):
        end = next((end for end in range(at, len(data)) if data[end] < 0x80), None)
        if end is None or end - at >= 7 or end > at and not data[end]:
            raise Bad("no number")
        found.append(sum((data[place] & 0x7F) << 7 * (place - at) for place in range(at, end + 1)))
        at = end + 1
    return found


# Judging.


class Verdict(NamedTuple):
    """What becomes of the next message of a chain: it counts, or why not."""

    counts: bool
    why: Why | None = None


@dataclass
class Answer:
    """What counts of a set of entries."""

    note: Note
    # The entries, and their messages by their hashes, each of which is one author's.
    entries: list[Entry] = field(default_factory=list)
    said: dict[bytes, Saying] = field(default_factory=dict)
    founding: Founding | None = None
    # The messages of the base, where it is whole; its numbers.
    base: list[Saying] | None = None
    # Who claims numbers, and who holds each; the chains; and of each chain what counts, and what follows.
    claims: set[tuple[int, bytes]] = field(default_factory=set)
    holders: dict[int, bytes] = field(default_factory=dict)
    chains: dict[Place, list[Saying]] = field(default_factory=dict)
    through: dict[Place, list[Saying]] = field(default_factory=dict)
    following: dict[Place, list[Saying]] = field(default_factory=dict)
    # By text and name: the stamp and the hash of the message that inserted each character that is there.
    stamps: dict[tuple[int, Name], int] = field(default_factory=dict)
    inserted_by: dict[tuple[int, Name], bytes] = field(default_factory=dict)
    # Why each other message, by its hash, doesn't count; what bytes are no entries.
    left_out: dict[bytes, tuple[Saying, Why]] = field(default_factory=dict)
    bad: set[bytes] = field(default_factory=set)

    @property
    def base_sites(self) -> set[int]:
        return {one.message.site for one in self.base or ()}

    def counted(self) -> dict[Place, list[Message]]:
        """The messages that count."""
        return {place: [one.message for one in said] for place, said in self.through.items() if said}

    def greatest(self, text: int) -> int:
        """The greatest stamp that counts in a text."""
        return max((said[-1].message.stamp for (_, of), said in self.through.items() if of == text and said), default=0)

    def beyond(self, one: Saying, before: Sequence[Saying]) -> list[Name]:
        """Of each other site of which a message mentions what none before it did, the last character."""
        def lasts(some: Iterable[Saying]) -> dict[int, int]:
            names = {name for said in some for name in said.mentions()}
            return {site: max(offset for of, offset in names if of == site) for site, _ in names
                    if site != one.message.site and site not in self.base_sites}

        seen = lasts(before)
        return [(site, offset) for site, offset in sorted(lasts([one]).items()) if offset > seen.get(site, -1)]

    def verdict(self, one: Saying) -> Verdict:
        """What becomes of the message that is next in its chain."""
        message, before, text = one.message, self.through[one.place], one.message.text
        names = {(text, name) for name in one.mentions()}
        beyond = self.beyond(one, before)
        if (before and message.stamp <= before[-1].message.stamp
                or message.kind == INSERT and message.at != sum(len(said.message.data) for said in before)
                or any(name[0] == message.site and (text, name) not in self.stamps for _, name in names)
                or bool(one.on) != bool(beyond)):
            return Verdict(False, Why.WRONG)
        if message.stamp > self.greatest(text) + LEAP:
            return Verdict(False, Why.STAMP)
        if not names <= self.stamps.keys():
            return Verdict(False, Why.LACKS)
        if beyond and one.on != self.note.built_on(self.inserted_by[text, name] for name in beyond):
            return Verdict(False, Why.OTHERS)
        if any(self.stamps[name] >= message.stamp for name in names):
            return Verdict(False, Why.WRONG)
        return Verdict(True)


def judged(note: Note, raws: Iterable[bytes], zero_bits: int = ZERO_BITS) -> Answer:
    """What counts of a set of entries, as they are carried."""
    answer = Answer(note)
    for raw in set(raws):
        try:
            answer.entries.append(opened(note, raw, zero_bits))
        except Bad:
            answer.bad.add(raw)
    answer.said = {one.hash: one for entry in answer.entries for one in entry.says}
    if opening := next((entry for entry in answer.entries if entry.head.kind == Kind.OPENING), None):
        body = opening.body
        answer.founding = Founding(body[:32], body[32:64], body[64:96], int.from_bytes(body[96:], "big"))
        answer.base = _base(answer.founding, answer.entries, note.public)
    if answer.base is not None:
        _hold(answer)
        _admit(answer)
    answer.left_out = {of: (one, _why(answer, one)) for of, one in answer.said.items()
                       if one not in answer.through.get(one.place, [])}
    return answer


def _hold(answer: Answer) -> None:
    """Finds who holds each number, and the chains."""
    note, founding = answer.note, answer.founding
    assert founding
    claims = [(rank(note.identity, entry.head.author, entry.counter), entry) for entry in answer.entries if entry.head.kind == Kind.CLAIM]
    for _, entry in sorted(claims, key=lambda one: one[0], reverse=True):
        answer.holders[entry.head.site] = entry.head.author
        answer.claims.add((entry.head.site, entry.head.author))
    if 1 <= founding.number <= GREATEST_SITE:
        answer.holders[founding.number] = founding.founder
        answer.claims.add((founding.number, founding.founder))
    for site in answer.base_sites:
        answer.holders.pop(site, None)
    for copied in answer.base or ():
        answer.chains.setdefault(copied.place, []).append(copied)
    for place in {one.place for one in answer.said.values()}:
        if place[0] in answer.holders:
            answer.chains[place] = _chain(answer.said.values(), place, answer.holders[place[0]])


def _admit(answer: Answer) -> None:
    """Finds the least set."""
    answer.through = {place: [] for place in answer.chains}
    answer.following = {place: [*chain] for place, chain in answer.chains.items()}
    while one := next((rest[0] for rest in answer.following.values() if rest and answer.verdict(rest[0]).counts), None):
        answer.through[one.place].append(answer.following[one.place].pop(0))
        for offset in range(len(one.message.data)):
            name = one.message.text, (one.message.site, one.message.at + offset)
            answer.stamps[name], answer.inserted_by[name] = one.message.stamp, one.hash


def _base(founding: Founding, entries: Iterable[Entry], public: bytes) -> list[Saying] | None:
    """What was copied into a note; None where not all of it is there, or it isn't in order."""
    by_hash = dict[bytes, Saying]()
    for entry in entries:
        if entry.head.kind == Kind.BASE:
            before = entry.head.before
            for message, of in zip(entry.messages, base_hashes(founding.secret, entry.messages, before)):
                by_hash[of] = Saying(message, b"", of, before, public)
                before = of
    found, wanted = list[Saying](), founding.root
    while wanted != ZEROS:
        if wanted not in by_hash:
            return None
        found.insert(0, by_hash[wanted])
        wanted = found[0].before
    seqs: dict[Place, int] = {}
    for one in found:
        seqs[one.place] = seqs.get(one.place, 0) + 1
        if one.message.seq != seqs[one.place]:
            return None
    places = [(one.message.text, one.message.site) for one in found]
    return found if places == sorted(places) else None


def _chain(said: Iterable[Saying], place: Place, author: bytes) -> list[Saying]:
    """The messages of a number, its holder and a text that hold: each time the least of those that follow."""
    own, chain = [one for one in said if one.place == place and one.author == author], list[Saying]()
    while after := [one for one in own if one.message.seq == len(chain) + 1 and one.before == (chain[-1].hash if chain else ZEROS)]:
        chain.append(min(after, key=lambda one: one.hash))
    return chain


def before_of(answer: Answer, one: Saying) -> list[Saying] | Why:
    """A message and those before it in its chain, the last first; or why there is no such chain."""
    found = [one]
    while found[-1].message.seq > 1:
        before = answer.said.get(found[-1].before)
        if before is None:
            return Why.LOOSE
        if (before.author, before.place, before.message.seq) != (one.author, one.place, found[-1].message.seq - 1):
            return Why.PLACE
        found.append(before)
    return found


def is_loose(answer: Answer, one: Saying) -> bool:
    """Whether a message lacks one before it, with which it may count."""
    return before_of(answer, one) is Why.LOOSE and one.message.site not in answer.base_sites


def _why(answer: Answer, one: Saying) -> Why:
    """Why a message doesn't count."""
    site, before = one.message.site, before_of(answer, one)
    if answer.base is None:
        return Why.NO_OPENING
    if site in answer.base_sites and before is not Why.PLACE:
        return Why.BASE
    if isinstance(before, Why):
        return before
    if (site, one.author) not in answer.claims:
        return Why.UNCLAIMED
    if answer.holders[site] != one.author:
        return Why.HOLDER
    if one not in answer.chains[one.place]:
        return Why.BRANCH
    if one != answer.following[one.place][0]:
        return Why.AFTER
    return answer.verdict(one).why or Why.AFTER


# Writing.


class Author(NamedTuple):
    """Who writes: his name in entries, and his secret, where they are signed."""

    name: bytes
    secret: bytes

    @classmethod
    def of(cls, secret: bytes, form: int = SEALED) -> "Author":
        return cls(secret if form == PLAIN else public_of(secret), secret)


def opening(note: Note, founding: Founding) -> bytes:
    """A note's first entry."""
    return closed(note, Head(note.form, Kind.OPENING, note.identity, note.public), founding.spelled(), note.append)


def claim(note: Note, author: Author, counter: int, site: int) -> bytes:
    """A claim that was searched."""
    before = bytes(24) + counter.to_bytes(8, "big")
    return closed(note, Head(note.form, Kind.CLAIM, note.identity, author.name, site, before=before), b"", author.secret)


def written(note: Note, author: Author, before: bytes, messages: Sequence[Message], ons: dict[int, bytes] | None = None) -> bytes:
    """An entry of messages, of which some, by their index, say what they build on."""
    first, found = messages[0], sorted((ons or {}).items())
    body = len(found).to_bytes(2, "big") + b"".join(index.to_bytes(2, "big") + on for index, on in found) + chunk_of(messages)
    head = Head(note.form, Kind.MESSAGES, note.identity, author.name, first.site, first.text, first.seq, len(messages), before)
    return closed(note, head, body, author.secret)


def based(note: Note, before: bytes, messages: Sequence[Message]) -> bytes:
    """An entry of the base."""
    first = messages[0]
    head = Head(note.form, Kind.BASE, note.identity, note.public, first.site, first.text, first.seq, len(messages), before)
    return closed(note, head, chunk_of(messages), note.append)


# Presence, proving to have the link, links.


def presence(note: Note, data: bytes) -> bytes:
    """What is said beside the log."""
    beside = PRESENCE + note.identity
    nonce = note.nonce(beside + data)
    return nonce + AESGCM(note.on).encrypt(nonce, data, beside)


def present(note: Note, raw: bytes) -> bytes:
    """What was said; raises Bad where nobody of this note can have said it."""
    beside = PRESENCE + note.identity
    try:
        data = AESGCM(note.on).decrypt(raw[:NONCE], raw[NONCE:], beside)
    except (InvalidTag, ValueError) as why:
        raise Bad("not of this note") from why
    if raw[:NONCE] != note.nonce(beside + data):
        raise Bad("another nonce")
    return data


def proof(note: Note, challenge: bytes, origin: str) -> bytes:
    """What shows a server that one has the link."""
    return Ed25519PrivateKey.from_private_bytes(note.append).sign(challenged(note.identity, challenge, origin))


def challenged(identity: bytes, challenge: bytes, origin: str) -> bytes:
    """What is signed."""
    return b"vialshoal 2 append" + identity + challenge + origin.encode()


def link_of(key: bytes, url: str, form: str = "s") -> str:
    """A note's link."""
    check = hashlib.sha256(b"vialshoal 2 link " + form.encode() + key + url.encode()).digest()[:4]
    return f"vialshoal:2:{form}:{base64.urlsafe_b64encode(key + check).decode()}@{url}"


def read_link(text: str) -> tuple[str, bytes, str]:
    """The form, the key and the URL of a link; raises Bad where it isn't spelled right."""
    form, _, rest = text.removeprefix("vialshoal:2:").partition(":")
    secret, _, url = rest.partition("@")
    try:
        key = base64.b64decode(secret, altchars=b"-_", validate=True)[:32]
    except ValueError as why:
        raise Bad("no link") from why
    if form not in ("s", "p") or link_of(key, url, form) != text:
        raise Bad("no link, or with a mistake in it")
    return form, key, url
