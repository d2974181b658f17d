"""Keys of a note of the second form: what it begins with gives its key, and this all others."""
import hashlib
import hmac
import secrets
import struct
from collections.abc import Iterable, Iterator
from typing import NamedTuple

from share.format.entry import NO_HASH
from share.format.operation import Operation

FOUNDING = struct.Struct(">32s32s32sH")
NOTE_KEY_BYTES, IDENTITY_BYTES, RECORD_NONCE_BYTES = 32, 16, 12
# What is hashed begins with one of these, by what it is.
OF_A_CLAIM, OF_A_MESSAGE, OF_WHAT_IT_BUILDS_ON = b"\0", b"\1", b"\2"


class Founding(NamedTuple):
    """What a note begins with: random bytes, the last link of its base or zeros, who founded it, and his number."""

    secret: bytes
    root: bytes
    founder: bytes
    number: int

    def __repr__(self) -> str:
        # Where it is printed by mistake, the secret isn't.
        return f"Founding(number={self.number})"

    @classmethod
    def read(cls, body: bytes) -> "Founding":
        """What an opening says, which has these bytes."""
        return cls(*FOUNDING.unpack(body))

    def spelled(self) -> bytes:
        """As an opening has it."""
        return FOUNDING.pack(*self)

    def key(self) -> bytes:
        """The note's key."""
        return key_of_founding(self.spelled())

    def links(self, before: bytes, operations: Iterable[Operation]) -> Iterator[bytes]:
        """What names each of some messages of the base, and all before it, after what names the one before them."""
        begin = hmac.new(derived(self.secret, b"base"), digestmod="sha256")
        for operation in operations:
            for message in operation.spellings():
                link = begin.copy()
                link.update(before + message)
                before = link.digest()
                yield before


class NoteKeys:
    """A note's key, and what comes of it."""

    def __init__(self, key: bytes):
        if len(key) != NOTE_KEY_BYTES:
            raise ValueError(f"a note's key has {NOTE_KEY_BYTES} bytes")
        self.key = key
        self.hash, self.seal, self.nonce, self.presence, self.append, self.plain = (
            derived(key, use) for use in (b"hash", b"seal", b"nonce", b"presence", b"append", b"plain"))
        # A copy of these is quicker than to begin anew each time.
        self._hashing, self._nonces = (hmac.new(one, digestmod="sha256") for one in (self.hash, self.nonce))

    def digest(self, data: bytes) -> bytes:
        """What messages and claims are named by."""
        found = self._hashing.copy()
        found.update(data)
        return found.digest()

    def nonce_of(self, data: bytes) -> bytes:
        """The nonce under which this is said."""
        found = self._nonces.copy()
        found.update(data)
        return found.digest()[:RECORD_NONCE_BYTES]

    def message_hash(self, author: bytes, before: bytes, message: bytes, on: bytes = b"") -> bytes:
        """The hash of an author's message after the one that has a hash, and of what it builds on."""
        return self.digest(OF_A_MESSAGE + author + before + message + on)

    def hashes_after(self, author: bytes, before: bytes, messages: Iterable[bytes]) -> list[bytes]:
        """The hashes of an author's messages, each after the one before it, which build on nothing else."""
        begin, found = OF_A_MESSAGE + author, list[bytes]()
        for message in messages:
            # As in `digest` and `message_hash`: to call these takes a third of the time.
            of = self._hashing.copy()
            of.update(begin + before + message)
            found.append(before := of.digest())
        return found

    def built_on(self, hashes: list[bytes]) -> bytes:
        """What a message builds on that mentions what messages with these hashes inserted last, in the order of their sites."""
        return self.digest(OF_WHAT_IT_BUILDS_ON + b"".join(hashes))

    def claim_name(self, author: bytes, site: int) -> bytes:
        """By which a claim is asked for."""
        return self.digest(OF_A_CLAIM + author + site.to_bytes(2, "big"))

    def opening_name(self) -> bytes:
        """By which the opening is asked for."""
        return self.digest(OF_A_CLAIM)


def new_founding(founder: bytes, number: int, root: bytes = NO_HASH) -> Founding:
    """What a new note begins with."""
    return Founding(secrets.token_bytes(NOTE_KEY_BYTES), root, founder, number)


def key_of_founding(spelled: bytes) -> bytes:
    """The key of the note that begins with this."""
    return hashlib.sha256(b"vialshoal 2 key" + spelled).digest()


def identity_of_public(public: bytes) -> bytes:
    """The identity of the note to which the key may append that has this public half."""
    return hashlib.sha256(b"vialshoal 2 note" + public).digest()[:IDENTITY_BYTES]


def derived(key: bytes, use: bytes) -> bytes:
    """What comes of a key for a use: 32 bytes by HKDF, whose salt is empty."""
    extracted = hmac.digest(bytes(32), key, "sha256")
    return hmac.digest(extracted, b"vialshoal 2 " + use + b"\1", "sha256")
