"""Records: what a log of the second form carries. docs/NOTES.md calls them entries, and has them byte by byte."""
import struct
from collections.abc import Iterable, Mapping
from typing import NamedTuple

from share.format.chunk import NoChunk, unpacked, unpacked_one_by_one
from share.format.entry import GREATEST_SITE, LONGEST_SAID, NO_HASH, Bad, Copied, EntryKind, digest
from share.format.operation import Operation
from share.format.presence import clean_name
from share.format.second.claim import ZERO_BITS, number_of_rank, rank_of
from share.format.second.keys import FOUNDING, Founding, NoteKeys, key_of_founding

# The form, the kind, the note, the author, the site, the text, the seq of the first message, the number of them, and the hash before.
RECORD_HEAD = struct.Struct(">BB16s32sHBIH32s")
GREATEST_TEXT = 16
# Of a claim before its counter.
CLAIM_ZEROS = bytes(24)
# How many messages say what they build on; and of each its index, and that.
MANY_ONS, ON_FIELD = struct.Struct(">H"), struct.Struct(">H32s")
# How bodies begin of which none does, as nearly all do.
NO_ONS = MANY_ONS.pack(0)


class RecordKind(EntryKind):
    """What a record is; `NEWER` are all kinds that this version doesn't know, whatever their number."""

    NEWER = 0
    OPENING = 1
    CLAIM = 2
    BASE = 3
    MESSAGES = 4
    ANEW = 5
    COPIES = 6
    RENEWED = 7


RECORD_KINDS = {int(kind): kind for kind in RecordKind if kind is not RecordKind.NEWER}
WITH_CHUNK = frozenset((RecordKind.BASE, RecordKind.MESSAGES))
# Those of one text; the others are of none.
OF_A_TEXT = frozenset((*WITH_CHUNK, RecordKind.ANEW, RecordKind.COPIES))


class Record(NamedTuple):
    """A record that was opened: its seal, its signature, its body and its place were found right."""

    kind: RecordKind
    author: bytes
    site: int
    text: int
    first: int
    # The number of its messages.
    size: int
    before: bytes
    # What is sealed.
    body: bytes
    raw: bytes
    # By which a file has it, and nothing else: what follows a message names that.
    hash: bytes
    # The hash of each of its messages; none of a base's.
    hashes: tuple[bytes, ...] = ()
    # What names each message of a base, where the opening was there to say it.
    links: tuple[bytes, ...] = ()

    @property
    def note(self) -> bytes:
        """The identity of its note."""
        return self.raw[2:18]

    @property
    def last(self) -> int:
        """The seq of its last message, 0 without messages."""
        return self.first + self.size - 1 if self.size else 0

    @property
    def name(self) -> bytes:
        """What names it to what follows it: the hash of its last message, zeros where it has none."""
        return self.hashes[-1] if self.hashes else NO_HASH

    def name_of(self, seq: int) -> bytes:
        """The hash of its message of a seq; of one of the base, what names that."""
        return self.names[seq - self.first]

    @property
    def names(self) -> tuple[bytes, ...]:
        """What names each of its messages."""
        return self.hashes or self.links

    def seq_of(self, name: bytes) -> int:
        """The seq of the message that a name means; 0 where it names none of these."""
        return self.first + self.names.index(name) if name in self.names else 0

    @property
    def on(self) -> bytes:
        """What its messages build on, as the body has it before them."""
        return self.body[:_chunk_begin(self.body)] if self.kind is RecordKind.MESSAGES else b""

    @property
    def spelled(self) -> bytes:
        """The chunk of its messages, or what it says."""
        return self.body[len(self.on):]

    @property
    def chunk(self) -> bytes:
        """The chunk of its messages, if it has any."""
        if self.kind is RecordKind.MESSAGES:
            return self.body[_chunk_begin(self.body):]
        return self.body if self.kind is RecordKind.BASE else b""

    @property
    def operations(self) -> tuple[Operation, ...]:
        """Its messages, letters typed one after the other in one."""
        return unpacked(self.chunk, self.text) if self.kind in WITH_CHUNK else ()

    @property
    def messages(self) -> tuple[Operation, ...]:
        """Its messages one by one."""
        return unpacked_one_by_one(self.chunk, self.text) if self.kind in WITH_CHUNK else ()

    @property
    def ons(self) -> tuple[bytes, ...]:
        """What each of its messages builds on, empty where one doesn't say it."""
        if self.kind is not RecordKind.MESSAGES or self.body.startswith(NO_ONS):
            return (b"",) * self.size
        ons = _ons_by_index(self.body)
        return tuple(ons.get(index, b"") for index in range(self.size))

    @property
    def counter(self) -> int:
        """A claim's."""
        return int.from_bytes(self.before[len(CLAIM_ZEROS):], "big") if self.kind is RecordKind.CLAIM else 0

    @property
    def rank(self) -> bytes:
        """A claim's."""
        return rank_of(self.note, self.author, self.counter) if self.kind is RecordKind.CLAIM else b""

    @property
    def founding(self) -> Founding | None:
        """What an opening says."""
        return Founding.read(self.body) if self.kind is RecordKind.OPENING else None

    @property
    def copied(self) -> Copied:
        """What is said of copies; ValueError where nothing is."""
        return Copied.read(self.body if self.kind is RecordKind.COPIES else b"", len(self.author))

    @property
    def called(self) -> str:
        """What who renewed the note is called."""
        return clean_name(self.body.decode("utf-8", "replace")) if self.kind is RecordKind.RENEWED else ""

    def linked(self, founding: Founding) -> "Record":
        """The record, and where it is of the base what names its messages."""
        if self.kind is not RecordKind.BASE:
            return self
        return self._replace(links=tuple(founding.links(self.before, self.operations)))


def record_of(keys: NoteKeys, raw: bytes, body: bytes, of: bytes) -> Record:
    """The record of bytes that were opened before, with what is sealed in them and their hash."""
    _, number, _, author, site, text, first, size, before = RECORD_HEAD.unpack_from(raw)
    kind, hashes = RECORD_KINDS.get(number, RecordKind.NEWER), tuple[bytes, ...]()
    if kind is RecordKind.MESSAGES:
        begin = _chunk_begin(body)
        hashes = message_hashes(keys, author, before, unpacked(body[begin:], text), _ons_by_index(body) if begin > MANY_ONS.size else {})
    return Record(kind, author, site, text, first, size if kind is not RecordKind.NEWER else 0, before, body, raw, of, hashes)


def checked(keys: NoteKeys, public: bytes, raw: bytes, body: bytes, zero_bits: int = ZERO_BITS) -> Record:
    """The record of bytes and what is sealed in them, of the note in which this key may append; Bad where they say what can't be."""
    _, number, _, author, site, text, first, size, before = RECORD_HEAD.unpack_from(raw)
    kind, of = RECORD_KINDS.get(number, RecordKind.NEWER), digest(raw)
    if kind is RecordKind.NEWER or kind is RecordKind.OPENING:
        one = Record(kind, author, site, text, first, size if kind is not RecordKind.NEWER else 0, before, body, raw, of)
        if kind is RecordKind.OPENING:
            _check_opening(one, keys.key, public)
        return one
    if not 1 <= site <= GREATEST_SITE:
        raise Bad("is of a site that can't be")
    if text > GREATEST_TEXT or (text > 0) != (kind in OF_A_TEXT):
        raise Bad("is of a text that can't be")
    if kind is RecordKind.MESSAGES:
        if (first == 1) != (before == NO_HASH):
            raise Bad("begins where something is before it, or goes on where nothing is")
        ons = _checked_ons(body, size)
        operations = _checked_chunk(body[_chunk_begin(body):], site, text, first, size)
        return Record(kind, author, site, text, first, size, before, body, raw, of, message_hashes(keys, author, before, operations, ons))
    one = Record(kind, author, site, text, first, size, before, body, raw, of)
    if kind is RecordKind.BASE:
        if author != public:
            raise Bad("is no base by the note itself")
        _checked_chunk(body, site, text, first, size)
    else:
        _check_said(one, zero_bits)
    return one


def body_of_messages(chunk: bytes, ons: Mapping[int, bytes]) -> bytes:
    """The body of messages of which some, by their index, say what they build on."""
    return MANY_ONS.pack(len(ons)) + b"".join(ON_FIELD.pack(index, ons[index]) for index in sorted(ons)) + chunk


def message_hashes(keys: NoteKeys, author: bytes, before: bytes, operations: Iterable[Operation],
                   ons: Mapping[int, bytes]) -> tuple[bytes, ...]:
    """The hash of each of an author's messages after the one that has a hash."""
    if not ons:
        return tuple(keys.hashes_after(author, before, (message for operation in operations for message in operation.spellings())))
    found = list[bytes]()
    for operation in operations:
        for message in operation.spellings():
            before = keys.message_hash(author, before, message, ons.get(len(found), b""))
            found.append(before)
    return tuple(found)


def _chunk_begin(body: bytes) -> int:
    """Where the chunk of a body of messages begins."""
    if body.startswith(NO_ONS):
        return len(NO_ONS)
    return MANY_ONS.size + ON_FIELD.size * int.from_bytes(body[:MANY_ONS.size], "big")


def _ons_by_index(body: bytes) -> dict[int, bytes]:
    """What messages build on, by their index; none of most."""
    end = _chunk_begin(body)
    return {index: on for index, on in ON_FIELD.iter_unpack(body[MANY_ONS.size:end])} if end > MANY_ONS.size else {}


def _check_opening(one: Record, key: bytes, public: bytes) -> None:
    """Raises Bad where it isn't the note's opening."""
    if one.author != public or any((one.site, one.text, one.first, one.size)) or one.before != NO_HASH:
        raise Bad("is an opening with more in its head than an opening has")
    if len(one.body) != FOUNDING.size or key_of_founding(one.body) != key:
        raise Bad("opens another note")


def _check_said(one: Record, zero_bits: int) -> None:
    """Raises Bad where something without messages says what can't be."""
    if one.first or one.size:
        raise Bad("counts messages where it has none")
    if one.kind is RecordKind.CLAIM:
        if one.body or not one.before.startswith(CLAIM_ZEROS):
            raise Bad("is a claim with more in it than a claim has")
        if number_of_rank(one.rank, zero_bits) != one.site:
            raise Bad("claims a number that wasn't searched for")
    elif one.kind is RecordKind.ANEW:
        if one.body or one.before == NO_HASH:
            raise Bad("says of nothing that it was made anew, or has more in it")
    elif one.kind is RecordKind.COPIES:
        _check_copied(one)
    elif one.before != NO_HASH or len(one.body) > LONGEST_SAID:
        raise Bad("says of a renewed note what can't be")


def _check_copied(one: Record) -> None:
    """Raises Bad where it says of copies what nobody but another may say, or says it wrong."""
    try:
        copied = Copied.read(one.body, len(one.author))
    except ValueError as why:
        raise Bad("has bytes that say nothing of copies") from why
    if not copied.has_sites:
        raise Bad("says of copies what can't be")
    if not copied.is_of(one.author, one.site):
        raise Bad("speaks of copies of others")


def _checked_ons(body: bytes, size: int) -> dict[int, bytes]:
    """What some messages build on, by their index; Bad where a body doesn't say it rightly."""
    if len(body) < MANY_ONS.size or len(body) < _chunk_begin(body):
        raise Bad("has messages that are cut short")
    ons = _ons_by_index(body)
    if ons and ([*ons] != sorted(ons) or max(ons) >= size or MANY_ONS.size + ON_FIELD.size * len(ons) != _chunk_begin(body)):
        raise Bad("doesn't say in order which messages build on something")
    return ons


def _checked_chunk(chunk: bytes, site: int, text: int, first: int, size: int) -> tuple[Operation, ...]:
    """The operations of a chunk; Bad where they are spelled wrong, or aren't those of this place."""
    if not first or not size:
        raise Bad("has no messages")
    try:
        operations = unpacked(chunk, text)
    except NoChunk as why:
        raise Bad("has bytes that are no chunk") from why
    if operations[0].site != site or operations[0].seq != first:
        raise Bad("has messages of another place")
    if sum(one.size for one in operations) != size:
        raise Bad("doesn't have as many messages as it says")
    return operations
