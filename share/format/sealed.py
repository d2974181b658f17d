"""Entries of a note that goes over a network: sealed with the note's key, so that only who has its link can read
them, and signed by who made them, so that nobody can forge them, not even who has the link.

After the head and the author are

    nonce      24
    box        the messages by XChaCha20-Poly1305, with the head and the author authenticated beside them
    signature  64  Ed25519, by the author, of all before it

What is signed is the sealed bytes, and the nonce comes of a hash with a key of its own. A signature of the
messages themselves, or a hash of them without a key, would let the server's operator guess them: an entry has
often one letter, and there are few letters to try.
"""
import hashlib
import os
import secrets
from collections.abc import Sequence
from concurrent.futures import ThreadPoolExecutor

from share.format.entry import HEAD, Author, Bad, Entry, FirstForm
from share.format.presence import MOST_PRESENCE
from share.text.errors import Trouble

try:
    from nacl import bindings
    from nacl.exceptions import CryptoError
    HAS_NACL = True
except ImportError:
    HAS_NACL = False

KEY_BYTES = 32
NONCE_BYTES, TAG_BYTES, SIGNATURE_BYTES = 24, 16, 64
# The entries that go to one thread at once, and the least that are worth threads.
SHARE_OF_A_THREAD = 200


class Sealed(FirstForm):
    """Entries that are sealed with a note's key. The note's identity is a hash of the key, so a log can't choose
    it."""

    number, author_bytes, tail_bytes, head_bytes = 2, 32, SIGNATURE_BYTES, HEAD.size + 32

    def __init__(self, key: bytes):
        if not HAS_NACL:
            raise Trouble("Python's module nacl isn't here, which a note over a network needs. On Debian: "
                          "apt-get install python3-nacl.")
        if len(key) != KEY_BYTES:
            raise ValueError(f"a note's key has {KEY_BYTES} bytes")
        super().__init__(identity_of(key))
        self._sealing, self._nonces, self._presence = (
            hashlib.blake2b(key=key, digest_size=KEY_BYTES, person=use).digest()
            for use in (b"vialshoal seal", b"vialshoal nonce", b"vialshoal on"))

    def new_author(self) -> Author:
        return Author(*bindings.crypto_sign_keypair())

    def formed(self, raws: Sequence[tuple[bytes, bytes]]) -> list[Entry | Bad]:
        # To check a signature takes most of the time, and other threads go on meanwhile.
        if len(raws) <= SHARE_OF_A_THREAD:
            return super().formed(raws)
        shares = [raws[begin:begin + SHARE_OF_A_THREAD] for begin in range(0, len(raws), SHARE_OF_A_THREAD)]
        with ThreadPoolExecutor(min(len(shares), os.cpu_count() or 1)) as threads:
            return [one for share in threads.map(super().formed, shares) for one in share]

    def presence(self, data: bytes) -> bytes:
        nonce = secrets.token_bytes(NONCE_BYTES)
        box = bindings.crypto_aead_xchacha20poly1305_ietf_encrypt(data, self.note, nonce, self._presence)
        return nonce + box

    def present(self, raw: bytes) -> bytes | None:
        if not NONCE_BYTES + TAG_BYTES <= len(raw) <= MOST_PRESENCE:
            return None
        return _unsealed(raw[NONCE_BYTES:], self.note, raw[:NONCE_BYTES], self._presence)

    def _unsigned(self, head: bytes, body: bytes) -> bytes:
        nonce = self._nonce(head, body)
        return head + nonce + bindings.crypto_aead_xchacha20poly1305_ietf_encrypt(body, head, nonce, self._sealing)

    def _closed(self, head: bytes, body: bytes, author: Author) -> bytes:
        sealed = self._unsigned(head, body)
        return sealed + bindings.crypto_sign(sealed, author.secret)[:SIGNATURE_BYTES]

    def _opened(self, head: bytes, rest: bytes, author: bytes) -> bytes:
        if len(rest) < NONCE_BYTES + TAG_BYTES + SIGNATURE_BYTES:
            raise Bad("isn't spelled as one")
        nonce, signature = rest[:NONCE_BYTES], rest[-SIGNATURE_BYTES:]
        # What has no right box is refused first, since that is quicker than to check a signature.
        body = _unsealed(rest[NONCE_BYTES:-SIGNATURE_BYTES], head, nonce, self._sealing)
        if body is None or nonce != self._nonce(head, body):
            raise Bad("isn't sealed with this note's key")
        try:
            bindings.crypto_sign_open(signature + head + rest[:-SIGNATURE_BYTES], author)
        except CryptoError as why:
            raise Bad("isn't signed by its author") from why
        return body

    def _nonce(self, head: bytes, body: bytes) -> bytes:
        """The nonce of an entry: the same one where the entry is made twice, another one for anything else, even
        where a disk that was put back makes other messages for the same place."""
        return hashlib.blake2b(head + body, key=self._nonces, digest_size=NONCE_BYTES).digest()


def new_key() -> bytes:
    """The key of a new note."""
    return secrets.token_bytes(KEY_BYTES)


def identity_of(key: bytes) -> bytes:
    """The identity of the note of a key, which says nothing of the key."""
    return hashlib.blake2b(key, digest_size=16, person=b"vialshoal note").digest()


def _unsealed(box: bytes, beside: bytes, nonce: bytes, key: bytes) -> bytes | None:
    try:
        return bindings.crypto_aead_xchacha20poly1305_ietf_decrypt(box, beside, nonce, key)
    except CryptoError:
        return None
