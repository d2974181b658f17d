"""How records of a note of the second form are made and opened: plain, or sealed with the note's key and signed by their author."""
import os
import secrets
from abc import abstractmethod
from collections.abc import Mapping, Sequence
from concurrent.futures import ThreadPoolExecutor

from share.format.chunk import Packed
from share.format.entry import MOST_BYTES, NO_HASH, Author, Bad, BuiltOn, Copied, Entry, Form, OneByOne, digest, said_by_name
from share.format.operation import TEXT, Operation
from share.format.presence import MOST_PRESENCE
from share.format.second.append import challenged
from share.format.second.claim import COUNTER_BYTES, ZERO_BITS
from share.format.second.keys import IDENTITY_BYTES, RECORD_NONCE_BYTES, Founding, NoteKeys, identity_of_public
from share.format.second.record import (CLAIM_ZEROS, GREATEST_TEXT, RECORD_HEAD, RECORD_KINDS, Record, RecordKind, body_of_messages,
                                        checked, record_of)
from share.format.second.signature import HAS_CRYPTOGRAPHY, POINT_BYTES, SIGNED_BYTES, check_library, is_signed, public_of, signed

if HAS_CRYPTOGRAPHY:
    from cryptography.exceptions import InvalidTag
    from cryptography.hazmat.primitives.ciphers.aead import AESGCM

BOX_TAG_BYTES = 16
BEFORE_NONCE, BEFORE_BOX = RECORD_HEAD.size, RECORD_HEAD.size + RECORD_NONCE_BYTES
# What is authenticated beside presence begins so.
OF_PRESENCE = b"\5"
# The records that go to one thread at once, and the least that are worth threads.
SHARE_TO_OPEN = 200


class LookedAt(OneByOne):
    """Records are looked at as they are opened, each by itself."""

    def type_on(self, entry: Entry) -> bool:
        return False


class RecordForm(Form):
    """Records of one note. Nothing in one changes after it was made."""

    head_bytes, site_at, before_at = RECORD_HEAD.size, 50, RECORD_HEAD.size - len(NO_HASH)
    kinds_of_messages, kind_of_claims = (int(RecordKind.MESSAGES),), int(RecordKind.CLAIM)
    names_messages = is_searched = True
    texts = range(1, GREATEST_TEXT + 1)

    def __init__(self, keys: NoteKeys, public: bytes, zero_bits: int = ZERO_BITS):
        super().__init__(identity_of_public(public))
        self.keys, self.public, self.zero_bits = keys, public, zero_bits

    @staticmethod
    @abstractmethod
    def author_of_any_note() -> Author:
        """An author whom nobody else can be, in a note that needn't be known yet."""

    def new_author(self) -> Author:
        return self.author_of_any_note()

    @property
    @abstractmethod
    def itself(self) -> Author:
        """The author of the opening and the base: whoever has the note's key."""

    @abstractmethod
    def _unsigned(self, head: bytes, body: bytes) -> bytes:
        """The bytes of a record of this head and this body that everybody of the note could write."""

    @abstractmethod
    def _signature(self, unsigned: bytes, author: Author) -> bytes:
        """What follows these bytes."""

    @abstractmethod
    def _opened(self, raw: bytes) -> bytes:
        """The body of a record; raises Bad where it isn't right."""

    # Opening.

    def open(self, raw: bytes) -> Record:
        if not BEFORE_BOX <= len(raw) <= MOST_BYTES or raw[0] != self.number:
            raise Bad("isn't spelled as one")
        if raw[2:2 + IDENTITY_BYTES] != self.note:
            raise Bad("is of another note")
        return checked(self.keys, self.public, raw, self._opened(raw), self.zero_bits)

    def open_many(self, raws: Sequence[bytes]) -> list[Entry | Bad]:
        return [*map(self._record_or_bad, raws)]

    def formed(self, raws: Sequence[tuple[bytes, bytes]]) -> list[Entry | Bad]:
        return self.open_many([raw for raw, _ in raws])

    def one_by_one(self) -> OneByOne:
        return LookedAt()

    def reopened(self, raw: bytes, body: bytes, of: bytes) -> Record:
        return record_of(self.keys, raw, body, of)

    def body(self, raw: bytes) -> bytes:
        return self._opened(raw)

    def kind(self, raw: bytes) -> RecordKind:
        return RECORD_KINDS.get(raw[1], RecordKind.NEWER)

    def author(self, raw: bytes) -> bytes:
        return raw[2 + IDENTITY_BYTES:2 + IDENTITY_BYTES + POINT_BYTES]

    def before_of(self, raw: bytes) -> bytes:
        before = super().before_of(raw)
        if before != NO_HASH or self.kind(raw) is not RecordKind.MESSAGES:
            return before
        # Before the first messages there is a claim.
        return self.keys.claim_name(self.author(raw), int.from_bytes(raw[self.site_at:self.site_at + 2], "big"))

    def whole(self, head: bytes, body: bytes, tail: bytes) -> bytes:
        """The bytes of a record that was opened before, by its head, its body and its last bytes."""
        return self._unsigned(head, body) + tail

    def _record_or_bad(self, raw: bytes) -> Record | Bad:
        try:
            return self.open(raw)
        except Bad as why:
            return why

    # Making.

    def opening(self, founding: Founding) -> Record:
        """A note's first record."""
        return self._made(RecordKind.OPENING, self.itself, founding.spelled(), site=0, text=0)

    def claim(self, site: int, author: Author, counter: int = 0) -> Record:
        before = CLAIM_ZEROS + counter.to_bytes(COUNTER_BYTES, "big")
        return self._made(RecordKind.CLAIM, author, b"", site=site, text=0, before=before)

    def base(self, part: Packed, link: bytes) -> Record:
        """A record of the base, after the message that a link names."""
        return self._made_of(RecordKind.BASE, part, self.itself, part.chunk, link)

    def messages(self, part: Packed, before: bytes, author: Author, ons: Mapping[int, bytes] | None = None) -> Record:
        """The record of messages after the one that has a hash; some, by their index, say what they build on."""
        return self._made_of(RecordKind.MESSAGES, part, author, body_of_messages(part.chunk, ons or {}), before)

    def fold(self, chunk: bytes, first: Operation, hashes: Sequence[bytes], before: bytes, author: Author,
             ons: Mapping[int, bytes]) -> Record:
        """The same of the messages of a chunk, whose first one is known, and their hashes."""
        return self._made(RecordKind.MESSAGES, author, body_of_messages(chunk, ons), site=first.site, text=first.text, first=first.seq,
                          size=len(hashes), before=before, hashes=tuple(hashes))

    def entry(self, before: Entry, part: Packed, author: Author, on: BuiltOn = b"") -> Record:
        return self.messages(part, before.name, author, on if isinstance(on, Mapping) else {})

    def made_anew(self, last: Entry, author: Author) -> Record:
        return self.anew_up_to(last.name, author, last.site, last.text)

    def anew_up_to(self, last: bytes, author: Author, site: int, text: int) -> Record:
        """With this an author says that of his messages up to the one with a hash all that doesn't count was made anew."""
        return self._made(RecordKind.ANEW, author, b"", site=site, text=text, before=last)

    def copies(self, copied: Copied, author: Author, site: int, before: bytes = NO_HASH, text: int = TEXT) -> Record:
        return self._made(RecordKind.COPIES, author, copied.as_spelled(), site=site, text=text, before=before)

    def renewed(self, name: str, site: int, author: Author) -> Record:
        return self._made(RecordKind.RENEWED, author, said_by_name(name), site=site, text=0)

    def _made_of(self, kind: RecordKind, part: Packed, author: Author, body: bytes, before: bytes) -> Record:
        first: Operation = part.operations[0]
        return self._made(kind, author, body, site=first.site, text=first.text, first=first.seq, size=part.size, before=before)

    def _made(self, kind: RecordKind, author: Author, body: bytes, *, site: int, text: int, first: int = 0, size: int = 0,
              before: bytes = NO_HASH, hashes: tuple[bytes, ...] = ()) -> Record:
        head = RECORD_HEAD.pack(self.number, kind, self.note, author.name, site, text, first, size, before)
        unsigned = self._unsigned(head, body)
        raw = unsigned + self._signature(unsigned, author)
        if hashes:
            return Record(kind, author.name, site, text, first, size, before, body, raw, digest(raw), hashes)
        return record_of(self.keys, raw, body, digest(raw))


class PlainRecords(RecordForm):
    """Records of a note on one machine, which nobody but its accounts can reach. Their nonce shows damage."""

    number, tail_bytes = 3, 0

    def __init__(self, key: bytes, zero_bits: int = ZERO_BITS):
        keys = NoteKeys(key)
        super().__init__(keys, keys.plain, zero_bits)

    @staticmethod
    def author_of_any_note() -> Author:
        return Author(secrets.token_bytes(POINT_BYTES), b"")

    @property
    def itself(self) -> Author:
        return Author(self.public, b"")

    def presence(self, data: bytes) -> bytes:
        return data

    def present(self, raw: bytes) -> bytes | None:
        return raw if len(raw) <= MOST_PRESENCE else None

    def _unsigned(self, head: bytes, body: bytes) -> bytes:
        return head + self.keys.nonce_of(head + body) + body

    def _signature(self, unsigned: bytes, author: Author) -> bytes:
        return b""

    def body(self, raw: bytes) -> bytes:
        # It was seen that it isn't damaged.
        return raw[BEFORE_BOX:]

    def _opened(self, raw: bytes) -> bytes:
        head, body = raw[:BEFORE_NONCE], raw[BEFORE_BOX:]
        if raw[BEFORE_NONCE:BEFORE_BOX] != self.keys.nonce_of(head + body):
            raise Bad("is damaged")
        return body


class SealedRecords(RecordForm):
    """Records of a note that goes over a network: sealed with its key, and signed by their authors."""

    number, tail_bytes = 4, SIGNED_BYTES

    def __init__(self, key: bytes, zero_bits: int = ZERO_BITS):
        check_library()
        keys = NoteKeys(key)
        self._seal, self._on = AESGCM(keys.seal), AESGCM(keys.presence)
        super().__init__(keys, public_of(keys.append), zero_bits)

    @staticmethod
    def author_of_any_note() -> Author:
        check_library()
        secret = secrets.token_bytes(POINT_BYTES)
        return Author(public_of(secret), secret)

    @property
    def itself(self) -> Author:
        return Author(self.public, self.keys.append)

    def proof(self, challenge: bytes, origin: str) -> bytes:
        """What shows a server of this origin, which chose the challenge, that one has the note's link."""
        return signed(challenged(self.note, challenge, origin), self.keys.append)

    def open_many(self, raws: Sequence[bytes]) -> list[Entry | Bad]:
        # To check a signature takes most of the time, and other threads go on meanwhile.
        if len(raws) <= SHARE_TO_OPEN:
            return super().open_many(raws)
        shares = [raws[begin:begin + SHARE_TO_OPEN] for begin in range(0, len(raws), SHARE_TO_OPEN)]
        with ThreadPoolExecutor(min(len(shares), os.cpu_count() or 1)) as threads:
            return [one for share in threads.map(super().open_many, shares) for one in share]

    def presence(self, data: bytes) -> bytes:
        beside = OF_PRESENCE + self.note
        nonce = self.keys.nonce_of(beside + data)
        return nonce + self._on.encrypt(nonce, data, beside)

    def present(self, raw: bytes) -> bytes | None:
        if not RECORD_NONCE_BYTES + BOX_TAG_BYTES <= len(raw) <= MOST_PRESENCE:
            return None
        nonce, beside = raw[:RECORD_NONCE_BYTES], OF_PRESENCE + self.note
        try:
            data = self._on.decrypt(nonce, raw[RECORD_NONCE_BYTES:], beside)
        except InvalidTag:
            return None
        return data if nonce == self.keys.nonce_of(beside + data) else None

    def _unsigned(self, head: bytes, body: bytes) -> bytes:
        nonce = self.keys.nonce_of(head + body)
        return head + nonce + self._seal.encrypt(nonce, body, head)

    def _signature(self, unsigned: bytes, author: Author) -> bytes:
        return signed(unsigned, author.secret)

    def _opened(self, raw: bytes) -> bytes:
        if len(raw) < BEFORE_BOX + BOX_TAG_BYTES + SIGNED_BYTES:
            raise Bad("isn't spelled as one")
        head, nonce = raw[:BEFORE_NONCE], raw[BEFORE_NONCE:BEFORE_BOX]
        # What has no right box is refused first, since that is quicker than to check a signature.
        try:
            body = self._seal.decrypt(nonce, raw[BEFORE_BOX:-SIGNED_BYTES], head)
        except InvalidTag as why:
            raise Bad("isn't sealed with this note's key") from why
        if nonce != self.keys.nonce_of(head + body):
            raise Bad("isn't sealed with this note's key")
        if not is_signed(raw[:-SIGNED_BYTES], raw[-SIGNED_BYTES:], raw[2 + IDENTITY_BYTES:2 + IDENTITY_BYTES + POINT_BYTES]):
            raise Bad("isn't signed by its author")
        return body
