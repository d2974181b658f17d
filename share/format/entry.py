"""Entries: what a log carries and each person's disk keeps. An entry is a claim of a site's number, some messages of a
site that follow one another, a word that messages were made anew, or which messages stand for which.

All numbers are big-endian. An entry has this head:

    form      1      1 plain, 2 sealed
    kind      1      1 a claim, 4 made anew, 5 a chunk of messages, 6 a chunk that says what they build on, 7 copies,
                     8 renewed
    note      16     the note's identity
    site      2      1 to 65,528
    first     4      the seq of its first message; 0 without messages
    count     2      the number of its messages
    before    32     the hash of this site's entry before it; zeros in a claim
    author    16/32  who claims or writes: 128 random bits where plain, an Ed25519 public key where sealed

Then, in kind 6, 32 bytes that say what the messages build on, and the chunk of them (docs/FORMATS.md): as they are, where
the form is plain, with a digest of all before it; else sealed, with the head as what is authenticated beside them, and
signed. Kinds 2 and 3 are none: unreleased versions alone wrote them.
The hash of an entry is that of all its bytes. So the entries of a site make a chain that begins with its claim. What
says that messages were made anew is in no chain: it names the last entry of those that it speaks of.
What speaks of copies is in no chain either. It is said by the author of messages or by that of their copies, and has who
wrote the messages and their site (2 bytes), who wrote the copies and their site, the hash of the last entry that has such
copies (zeros where that isn't said), and then varints three by three: the seq of the first message of a
stretch, that of its copy, and their number. What was typed in one go may have come apart and have several copies; 0 in
place of the copy's seq says that nothing remained of them that had to be made anew. It names the last entry that has such
messages as the one before it: two histories of one number have the same seqs. With zeros there it speaks of each. Where what
stands for a message is a deletion it was made to hide that, which is a copy itself.
Renewed (kind 8) says that the note goes on under a new key, in no chain, too: its body is what its author is called, in 200
bytes at most.
An entry of another kind is a later version's: it is kept and carried as it is, and says nothing here.

What messages build on is said where they mention characters of other sites: of each of these sites, in the order of
their numbers, the entry in which the last mentioned one of its characters was inserted; 32 bytes are the hash of
these entries' hashes. Names alone don't say it, since two copies of one number give theirs the same ones.
"""
import hashlib
import secrets
import struct
from abc import ABC, abstractmethod
from collections.abc import Mapping, Sequence
from enum import IntEnum
from typing import NamedTuple, Protocol

from share.format import chunk
from share.format.chunk import GREATEST_SEQ, NoChunk, Packed, varint
from share.format.latest import Latest
from share.format.operation import TEXT, Operation
from share.format.presence import MOST_PRESENCE

HEAD = struct.Struct(">BB16sHIH32s")
# The same without the form and the note.
HEAD_WITHOUT_NOTE = ">xB16xHIH32s"
SITE_FIELD = struct.Struct(">H")
# The most bytes of an entry.
MOST_BYTES = 16_384
NOTE_BYTES = 16
NO_HASH = bytes(32)
MOST_AUTHOR_BYTES = 32
DIGEST_BYTES = 16
# Sites have these numbers, as the program's option says.
GREATEST_SITE = 65_528


class EntryKind(IntEnum):
    """What an entry is. Each form of notes has kinds of its own, whose numbers say other things in another one: so what is asked of an
    entry of either is asked by these words."""

    @property
    def is_newer(self) -> bool:
        """Whether it is a later version's."""
        return self._name_ == "NEWER"

    @property
    def is_claim(self) -> bool:
        """Whether it claims a number."""
        return self._name_ == "CLAIM"

    @property
    def is_base(self) -> bool:
        """Whether it has messages that were copied into the note as it began."""
        return self._name_ == "BASE"

    @property
    def says_copies(self) -> bool:
        """Whether it says which messages stand for which."""
        return self._name_ == "COPIES"

    @property
    def has_messages(self) -> bool:
        """Whether it has messages that somebody made under a number."""
        return self._name_ in HAVE_MESSAGES

    @property
    def says_what_became(self) -> bool:
        """Whether it says what became of messages or of the note, and is in no chain."""
        return self._name_ in SAY_WHAT_BECAME

    @property
    def is_under_a_number(self) -> bool:
        """Whether it shows that its author goes on under the number."""
        return self.has_messages or self.is_newer


HAVE_MESSAGES = frozenset(("MESSAGES", "CHUNK", "CHUNK_BUILDING"))
SAY_WHAT_BECAME = frozenset(("ANEW", "COPIES", "RENEWED"))


class Kind(EntryKind):
    """What an entry of the first form is; `NEWER` are all kinds that this version doesn't know, whatever their number."""

    NEWER = 0
    CLAIM = 1
    ANEW = 4
    CHUNK = 5
    CHUNK_BUILDING = 6
    COPIES = 7
    RENEWED = 8


KINDS = {int(kind): kind for kind in Kind if kind is not Kind.NEWER}
# Kinds that unreleased versions alone wrote.
GONE_KINDS = (2, 3)
CHUNKS = frozenset((Kind.CHUNK, Kind.CHUNK_BUILDING))
# The most bytes that are said of a renewed note.
LONGEST_SAID = 200
# The hashes of the entries that were made, or came, last: of this many bytes of them, where fewer came at once.
MOST_HASHED, MANY = 2**17, 200
_hashes = Latest[bytes](MOST_HASHED)


class Copy(NamedTuple):
    """A message that stands for another one."""

    author: bytes
    site: int
    seq: int
    text: int = TEXT


class Copied(NamedTuple):
    """What an entry says of copies: whose messages they stand for, whose they are, stretches of both: where each begins,
    and the number of its messages; and the hash of the last entry of the copies."""

    author: bytes
    site: int
    by: bytes
    by_site: int
    stretches: tuple[tuple[int, int, int], ...]
    last: bytes = NO_HASH

    @classmethod
    def read(cls, spelled: bytes, size: int) -> "Copied":
        """What an entry says, where an author has this many bytes; ValueError where it isn't spelled rightly."""
        begin = 2 * (size + SITE_FIELD.size)
        end = begin + len(NO_HASH)
        if len(spelled) < end:
            raise ValueError("cut short")
        numbers = chunk.varints_in(spelled[end:])
        stretches = tuple(zip(numbers[::3], numbers[1::3], numbers[2::3]))
        if not numbers or len(numbers) % 3 or not all(map(_is_stretch, stretches)):
            raise ValueError("no stretches")
        site, by = SITE_FIELD.unpack_from(spelled, size)[0], spelled[size + SITE_FIELD.size:begin - SITE_FIELD.size]
        by_site = SITE_FIELD.unpack_from(spelled, begin - SITE_FIELD.size)[0]
        return cls(spelled[:size], site, by, by_site, stretches, spelled[begin:end])

    def as_spelled(self) -> bytes:
        """As an entry has it."""
        numbers = b"".join(varint(number) for stretch in self.stretches for number in stretch)
        return self.author + SITE_FIELD.pack(self.site) + self.by + SITE_FIELD.pack(self.by_site) + self.last + numbers

    def is_of(self, author: bytes, site: int) -> bool:
        """Whether it may be said by an author under a number: whose the messages are, or the copies."""
        return (author, site) in ((self.author, self.site), (self.by, self.by_site))

    @property
    def has_sites(self) -> bool:
        """Whether its numbers are ones that sites have."""
        return 1 <= self.site <= GREATEST_SITE and 1 <= self.by_site <= GREATEST_SITE


class Bad(Exception):
    """Bytes that are no entry of this note, and why, in words that follow `An entry`."""


class Entry(Protocol):
    """An entry of either form that was opened: its form, its size, its messages' spelling and their places were found right."""

    @property
    def kind(self) -> EntryKind:
        """What it is."""

    @property
    def author(self) -> bytes:
        """Who made it."""

    @property
    def site(self) -> int:
        """Under which number."""

    @property
    def text(self) -> int:
        """Of which text it is; 0 where it is of none."""

    @property
    def first(self) -> int:
        """The seq of its first message, 0 without messages."""

    @property
    def size(self) -> int:
        """The number of its messages."""

    @property
    def last(self) -> int:
        """The seq of its last message, 0 without messages."""

    @property
    def before(self) -> bytes:
        """What names what is before it."""

    @property
    def on(self) -> bytes:
        """What the messages build on, as the body has it before them."""

    @property
    def spelled(self) -> bytes:
        """The messages, as the body has them; or what it says."""

    @property
    def body(self) -> bytes:
        """All that is sealed in it."""

    @property
    def raw(self) -> bytes:
        """Its bytes."""

    @property
    def hash(self) -> bytes:
        """The hash of its bytes."""

    @property
    def name(self) -> bytes:
        """What names it to what follows it."""

    @property
    def names(self) -> tuple[bytes, ...]:
        """What names it, or each of its messages."""

    def name_of(self, seq: int) -> bytes:
        """What names its message of a seq."""

    def seq_of(self, name: bytes) -> int:
        """The seq of the last message that a name of it means; 0 where it means none."""

    @property
    def chunk(self) -> bytes:
        """The chunk of its messages, where it has them in one."""

    @property
    def operations(self) -> tuple[Operation, ...]:
        """The operations, letters typed one after the other in one."""

    @property
    def messages(self) -> tuple[Operation, ...]:
        """The operations one by one."""

    @property
    def copied(self) -> Copied:
        """What an entry of copies says."""


class FirstEntry(NamedTuple):
    """An entry of the first form."""

    kind: Kind
    site: int
    first: int
    # The number of operations.
    size: int
    before: bytes
    author: bytes
    # What the messages build on, where the entry says it; all that is after the head of what is newer.
    on: bytes
    # The messages, as the entry has them.
    spelled: bytes
    raw: bytes
    hash: bytes

    @property
    def text(self) -> int:
        """A note of the first form has one text."""
        return TEXT

    @property
    def last(self) -> int:
        """The seq of the last message, 0 without messages."""
        return self.first + self.size - 1 if self.size else 0

    @property
    def name(self) -> bytes:
        """What names it to what follows it."""
        return self.hash

    @property
    def names(self) -> tuple[bytes, ...]:
        """What names it."""
        return (self.hash,)

    def name_of(self, seq: int) -> bytes:
        """What names its messages: all of them alike."""
        return self.hash

    def seq_of(self, name: bytes) -> int:
        """The seq of the last message that a name of it means: its last one."""
        return self.last

    @property
    def body(self) -> bytes:
        """What the messages build on, and they themselves."""
        return self.on + self.spelled

    @property
    def chunk(self) -> bytes:
        """The chunk of the messages, where the entry has them in one."""
        return self.spelled if self.kind in CHUNKS else b""

    @property
    def operations(self) -> tuple[Operation, ...]:
        """The operations, letters typed one after the other in one."""
        return chunk.unpacked(self.spelled) if self.kind in CHUNKS else ()

    @property
    def messages(self) -> tuple[Operation, ...]:
        """The operations one by one."""
        return chunk.unpacked_one_by_one(self.spelled) if self.kind in CHUNKS else ()

    @property
    def copied(self) -> Copied:
        """What an entry of copies says; ValueError where it isn't spelled rightly."""
        return Copied.read(self.spelled, len(self.author))


class Author(NamedTuple):
    """Who makes entries: the name that stands in them, and the secret that signs them, where they are
    signed."""

    name: bytes
    secret: bytes


# What messages build on, as an entry says it: of all of them, or by the index of each that says it.
BuiltOn = bytes | Mapping[int, bytes]


class OneByOne(Protocol):
    """Looks at entries one after the other."""

    def type_on(self, entry: Entry) -> bool:
        """Whether an entry is known to type on after the one before it; raises Bad where its messages are spelled wrong, or aren't those
        of its place."""


class Form(ABC):
    """How entries of one note are spelled: in the first form or the second, plain, or sealed with the note's key."""

    number: int
    # The number of an entry's last bytes that can't be computed from the others.
    tail_bytes: int
    # How many of an entry's first bytes are its head, and where in them its site is, and what names the one before it.
    head_bytes: int
    site_at: int
    before_at: int
    # The kinds of entries that have messages that somebody made under a number, and of claims, by the byte that says so.
    kinds_of_messages: tuple[int, ...]
    kind_of_claims: int
    # The numbers that texts have.
    texts: Sequence[int]
    # Whether messages are named by hashes of their own, and not by that of their entry.
    names_messages: bool
    # Whether a number costs a search.
    is_searched: bool

    def __init__(self, note: bytes):
        self.note = note

    @abstractmethod
    def new_author(self) -> Author:
        """An author whom nobody else can be."""

    @abstractmethod
    def presence(self, data: bytes) -> bytes:
        """What an editor says of itself, as a log may have it."""

    @abstractmethod
    def present(self, raw: bytes) -> bytes | None:
        """What an editor said of itself; None where nobody of this note can have said it."""

    # Reading.

    @abstractmethod
    def open(self, raw: bytes) -> Entry:
        """The entry that has these bytes; raises Bad where they are none of this note's."""

    @abstractmethod
    def open_many(self, raws: Sequence[bytes]) -> list[Entry | Bad]:
        """What each of these bytes are."""

    @abstractmethod
    def formed(self, raws: Sequence[tuple[bytes, bytes]]) -> list[Entry | Bad]:
        """The entries of bytes and their hashes; at their messages looks what `one_by_one` gives."""

    @abstractmethod
    def one_by_one(self) -> OneByOne:
        """What looks at the messages of entries that were formed, or kept."""

    @abstractmethod
    def reopened(self, raw: bytes, body: bytes, of: bytes) -> Entry:
        """The entry of bytes that were opened before: its body and its hash were kept."""

    @abstractmethod
    def body(self, raw: bytes) -> bytes:
        """The body of an entry that was opened before."""

    @abstractmethod
    def kind(self, raw: bytes) -> EntryKind:
        """The kind of an entry that was opened before, by its first bytes."""

    def is_gone(self, raw: bytes) -> bool:
        """Return whether an unreleased version made an entry."""
        return False

    @abstractmethod
    def author(self, raw: bytes) -> bytes:
        """The author of such an entry."""

    def tail(self, raw: bytes) -> bytes:
        """The last bytes of an entry, which can't be computed from the others."""
        return raw[len(raw) - self.tail_bytes:]

    def before_of(self, raw: bytes) -> bytes:
        """What names what is before an entry, as bytes say it that may be damaged."""
        return raw[self.before_at:self.before_at + len(NO_HASH)]

    # Making.

    @abstractmethod
    def claim(self, site: int, author: Author, counter: int = 0) -> Entry:
        """The entry with which an author claims a site's number, by the counter that a search found where one has to be made."""

    @abstractmethod
    def entry(self, before: Entry, part: Packed, author: Author, on: BuiltOn = b"") -> Entry:
        """The entry of operations that follow those of an author's entry before it, and of what they build on."""

    @abstractmethod
    def made_anew(self, last: Entry, author: Author) -> Entry:
        """The entry with which an author says that of his entries up to this one all that doesn't count was made
        anew."""

    @abstractmethod
    def copies(self, copied: Copied, author: Author, site: int, before: bytes = NO_HASH, text: int = TEXT) -> Entry:
        """The entry with which the author of messages of a text, or that of their copies, says which stand for which. `before` names the
        last entry that has such messages."""

    @abstractmethod
    def renewed(self, name: str, site: int, author: Author) -> Entry:
        """The entry by which an author of this name says that the note goes on under a new key."""


class FirstForm(Form):
    """The first form: hashes are of entries, and a claim costs nothing."""

    author_bytes: int
    site_at, before_at = 18, HEAD.size - len(NO_HASH)
    names_messages = is_searched = False
    texts = (TEXT,)
    kinds_of_messages, kind_of_claims = (int(Kind.CHUNK), int(Kind.CHUNK_BUILDING)), int(Kind.CLAIM)

    def body(self, raw: bytes) -> bytes:
        return self._checked(raw)

    def bodies(self, raws: Sequence[bytes]) -> list[bytes]:
        """What is after the head of each of some entries that were opened before, unsealed."""
        return [*map(self.body, raws)]

    def whole(self, entry: Entry, tail: bytes) -> bytes:
        """The bytes of an entry that was opened before, by what it says and these last ones."""
        return self._unsigned(self._head(entry.kind, entry.site, entry.first, entry.size, entry.before) + entry.author,
                              entry.body) + tail

    def _head(self, kind: int, site: int, first: int, count: int, before: bytes) -> bytes:
        return HEAD.pack(self.number, kind, self.note, site, first, count, before)

    @abstractmethod
    def _unsigned(self, head: bytes, body: bytes) -> bytes:
        """The bytes of an entry of this head and this body that everybody of the note could write."""

    @abstractmethod
    def _closed(self, head: bytes, body: bytes, author: Author) -> bytes:
        """The bytes of an entry of this head and this body."""

    @abstractmethod
    def _opened(self, head: bytes, rest: bytes, author: bytes) -> bytes:
        """The body of an entry; raises Bad where it isn't right."""

    def claim(self, site: int, author: Author, counter: int = 0) -> FirstEntry:
        return self._made(Kind.CLAIM, site, 0, 0, NO_HASH, author, b"", b"")

    def entry(self, before: Entry, part: Packed, author: Author, on: BuiltOn = b"") -> FirstEntry:
        assert isinstance(on, bytes)
        kind = Kind.CHUNK_BUILDING if on else Kind.CHUNK
        return self._made(kind, before.site, part.operations[0].seq, part.size, before.hash, author, on, part.chunk)

    def made_anew(self, last: Entry, author: Author) -> FirstEntry:
        return self._made(Kind.ANEW, last.site, 0, 0, last.hash, author, b"", b"")

    def copies(self, copied: Copied, author: Author, site: int, before: bytes = NO_HASH, text: int = TEXT) -> FirstEntry:
        return self._made(Kind.COPIES, site, 0, 0, before, author, b"", copied.as_spelled())

    def renewed(self, name: str, site: int, author: Author) -> FirstEntry:
        return self._made(Kind.RENEWED, site, 0, 0, NO_HASH, author, b"", said_by_name(name))

    def open(self, raw: bytes) -> FirstEntry:
        entry = self.reopened(raw, self._checked(raw), digest(raw))
        check_entry(entry)
        return entry

    def kind(self, raw: bytes) -> Kind:
        return kind_of(raw[1])

    def is_gone(self, raw: bytes) -> bool:
        return raw[1] in GONE_KINDS

    def author(self, raw: bytes) -> bytes:
        return raw[HEAD.size:HEAD.size + self.author_bytes]

    def open_many(self, raws: Sequence[bytes]) -> list[Entry | Bad]:
        return [_as_checked(one) for one in self.formed([(raw, digest(raw)) for raw in raws])]

    def one_by_one(self) -> OneByOne:
        # Loaded where it is needed, since it knows entries.
        from share.format.keystrokes import Keystrokes
        return Keystrokes()

    def formed(self, raws: Sequence[tuple[bytes, bytes]]) -> list[Entry | Bad]:
        return [self._as_formed(*one) for one in raws]

    def _as_formed(self, raw: bytes, of: bytes) -> Entry | Bad:
        try:
            return self.reopened(raw, self._checked(raw), of)
        except Bad as why:
            return why

    def reopened(self, raw: bytes, body: bytes, of: bytes) -> FirstEntry:
        _, number, _, site, first, count, before = HEAD.unpack_from(raw)
        kind = kind_of(number)
        size = len(body) if kind is Kind.NEWER else len(NO_HASH) if kind is Kind.CHUNK_BUILDING else 0
        count = 0 if kind is Kind.NEWER else count
        return FirstEntry(kind, site, first, count, before, self.author(raw), body[:size], body[size:], raw, of)

    def _checked(self, raw: bytes) -> bytes:
        """The body of bytes that are spelled as an entry."""
        if len(raw) > MOST_BYTES:
            raise Bad(f"has {len(raw):,} bytes, more than {MOST_BYTES:,}")
        begin = HEAD.size + self.author_bytes
        if len(raw) < begin or raw[0] != self.number:
            raise Bad("isn't spelled as one")
        if raw[2:2 + NOTE_BYTES] != self.note:
            raise Bad("is of another note")
        if self.is_gone(raw):
            raise Bad("was made by an unreleased version of vialshoal")
        return self._opened(raw[:begin], raw[begin:], raw[HEAD.size:begin])

    def _made(self, kind: Kind, site: int, first: int, count: int, before: bytes, author: Author, on: bytes,
              spelled: bytes) -> FirstEntry:
        head = self._head(kind, site, first, count, before) + author.name
        raw = self._closed(head, on + spelled, author)
        return FirstEntry(kind, site, first, count, before, author.name, on, spelled, raw, digest(raw))


class Plain(FirstForm):
    """Entries of a note on one machine, which nobody but its accounts can reach. A digest shows damage."""

    number, author_bytes, tail_bytes, head_bytes = 1, 16, 0, HEAD.size + 16

    def new_author(self) -> Author:
        return Author(secrets.token_bytes(self.author_bytes), b"")

    def presence(self, data: bytes) -> bytes:
        return data

    def present(self, raw: bytes) -> bytes | None:
        return raw if len(raw) <= MOST_PRESENCE else None

    def body(self, raw: bytes) -> bytes:
        return raw[HEAD.size + self.author_bytes:-DIGEST_BYTES]

    def bodies(self, raws: Sequence[bytes]) -> list[bytes]:
        begin = HEAD.size + self.author_bytes
        return [raw[begin:-DIGEST_BYTES] for raw in raws]

    def formed(self, raws: Sequence[tuple[bytes, bytes]]) -> list[Entry | Bad]:
        # Nearly all are chunks, which are opened in one step here: a call for each of its parts takes most of the time.
        begins, body, kind = bytes([self.number, Kind.CHUNK]) + self.note, HEAD.size + self.author_bytes, Kind.CHUNK
        found = list[Entry | Bad]()
        for raw, of in raws:
            if raw.startswith(begins) and body + DIGEST_BYTES <= len(raw) <= MOST_BYTES and (
                    hashlib.blake2b(raw[:-DIGEST_BYTES], digest_size=DIGEST_BYTES).digest() == raw[-DIGEST_BYTES:]):
                _, _, _, site, first, count, before = HEAD.unpack_from(raw)
                found.append(FirstEntry(kind, site, first, count, before, raw[HEAD.size:body], b"", raw[body:-DIGEST_BYTES], raw, of))
            else:
                found.append(self._as_formed(raw, of))
        return found

    def _unsigned(self, head: bytes, body: bytes) -> bytes:
        return head + body + _short_digest(head + body)

    def _closed(self, head: bytes, body: bytes, author: Author) -> bytes:
        return self._unsigned(head, body)

    def _opened(self, head: bytes, rest: bytes, author: bytes) -> bytes:
        body = rest[:-DIGEST_BYTES]
        if len(rest) < DIGEST_BYTES or rest[-DIGEST_BYTES:] != _short_digest(head + body):
            raise Bad("is damaged")
        return body


def said_by_name(name: str) -> bytes:
    """What somebody of this name says of a renewed note."""
    return name.encode("utf-8", "ignore")[:LONGEST_SAID].decode("utf-8", "ignore").encode()


def kind_of(number: int) -> Kind:
    """The kind that has a number."""
    return KINDS.get(number, Kind.NEWER)


def digest(raw: bytes) -> bytes:
    """The hash of an entry's bytes. They come again, from the note's file and from the log, and aren't hashed again then."""
    found = _hashes.get(raw)
    if found is None:
        found = _hashed(raw)
        if len(raw) <= MOST_BYTES:
            _hashes.put(raw, found)
    return found


def digests(raws: Sequence[bytes]) -> list[bytes]:
    """The hashes of entries' bytes. Where they are many nobody remembers them, since each would take another one's place."""
    if len(raws) <= MANY:
        return [*map(digest, raws)]
    return [hashlib.blake2b(raw, digest_size=32).digest() for raw in raws]


def _hashed(raw: bytes) -> bytes:
    return hashlib.blake2b(raw, digest_size=32).digest()


def _short_digest(data: bytes) -> bytes:
    return hashlib.blake2b(data, digest_size=DIGEST_BYTES).digest()


def _is_stretch(stretch: tuple[int, int, int]) -> bool:
    seq, by, count = stretch
    return min(seq, count) >= 1 and max(seq, by) + count - 1 <= GREATEST_SEQ


def _check_copies(entry: Entry) -> None:
    """Raises Bad where an entry says of copies what nobody but another may say, or says it wrong."""
    try:
        copied = entry.copied
    except ValueError as why:
        raise Bad("has bytes that say nothing of copies") from why
    if entry.first or entry.size or not copied.has_sites:
        raise Bad("says of copies what can't be")
    if not copied.is_of(entry.author, entry.site):
        raise Bad("speaks of copies of others")


def _as_checked(entry: Entry | Bad) -> Entry | Bad:
    """An entry, or what is wrong with it."""
    try:
        if not isinstance(entry, Bad):
            check_entry(entry)
        return entry
    except Bad as why:
        return why


def check_entry(entry: Entry) -> None:
    """Raises Bad where an entry's messages are spelled wrong, or aren't those of its place."""
    if entry.kind is Kind.NEWER:
        return
    if entry.kind is Kind.CHUNK_BUILDING and len(entry.on) < len(NO_HASH):
        raise Bad("has messages that are cut short")
    if not 1 <= entry.site <= GREATEST_SITE:
        raise Bad("is of a site that can't be")
    if entry.kind is Kind.CLAIM:
        if entry.first or entry.size or entry.spelled or entry.before != NO_HASH:
            raise Bad("is a claim with more in it than a claim has")
    elif entry.kind is Kind.ANEW:
        if entry.first or entry.size or entry.spelled or entry.before == NO_HASH:
            raise Bad("says of nothing that it was made anew, or has more in it")
    elif entry.kind is Kind.COPIES:
        _check_copies(entry)
    elif entry.kind is Kind.RENEWED:
        if entry.first or entry.size or entry.before != NO_HASH or len(entry.spelled) > LONGEST_SAID:
            raise Bad("says of a renewed note what can't be")
    elif not entry.size or entry.before == NO_HASH:
        raise Bad("has no messages, or nothing before it")
    else:
        _check_messages(entry)


def _check_messages(entry: Entry) -> None:
    """Raises Bad where an entry's messages are spelled wrong, or aren't those of its place."""
    try:
        operations = entry.operations
    except NoChunk as why:
        raise Bad("has bytes that are no chunk") from why
    seq = entry.first
    for one in operations:
        if one.site != entry.site or one.seq != seq:
            raise Bad("has messages of another place")
        seq += one.size
    if seq != entry.first + entry.size:
        raise Bad("doesn't have as many messages as it says")
