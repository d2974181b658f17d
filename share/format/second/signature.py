"""Signatures by Ed25519, which each library that checks them finds right or wrong alike."""
from functools import lru_cache

from share.text.errors import Trouble

try:
    from cryptography.exceptions import InvalidSignature
    from cryptography.hazmat.primitives.asymmetric.ed25519 import Ed25519PrivateKey, Ed25519PublicKey
    from cryptography.hazmat.primitives.serialization import Encoding, PublicFormat
    HAS_CRYPTOGRAPHY = True
except ImportError:
    HAS_CRYPTOGRAPHY = False

POINT_BYTES, SIGNED_BYTES = 32, 64
FIELD, ORDER = 2**255 - 19, 2**252 + 27742317777372353535851937790883648493
# Points of small order, by their y.
SMALL_ORDER = (0, 1, FIELD - 1, 0x05FC536D880238B13933C6D305ACDFD5F098EFF289F4C345B027B2C28F95E826,
               0x7A03AC9277FDC74EC6CC392CFA53202A0F67100D760B3CBA4FD83D3D8E7A17C7)
# Those, and what is beyond the field, with either top bit: some libraries take them, and others don't.
REFUSED_POINTS = frozenset((y | top).to_bytes(POINT_BYTES, "little") for y in (*SMALL_ORDER, *range(FIELD, 2**255)) for top in (0, 2**255))
# The keys that are kept as the library has them.
MOST_LIBRARY_KEYS = 1_024


def check_library() -> None:
    """Raises Trouble where there is no library of ciphers and signatures."""
    if not HAS_CRYPTOGRAPHY:
        raise Trouble("Python's module cryptography isn't here, which a note over a network needs. On Debian: "
                      "apt-get install python3-cryptography.")


def public_of(secret: bytes) -> bytes:
    """The public half of a key, of which this is the other one."""
    return _private_key(secret).public_key().public_bytes(Encoding.Raw, PublicFormat.Raw)


def signed(data: bytes, secret: bytes) -> bytes:
    """The signature of this by a key."""
    return _private_key(secret).sign(data)


def is_signed(data: bytes, signature: bytes, public: bytes) -> bool:
    """Whether this is a signature of that by the key with this public half, to all who check it."""
    if (len(signature) != SIGNED_BYTES or public in REFUSED_POINTS or signature[:POINT_BYTES] in REFUSED_POINTS
            or int.from_bytes(signature[POINT_BYTES:], "little") >= ORDER):
        return False
    try:
        _public_key(public).verify(signature, data)
    except (InvalidSignature, ValueError):
        return False
    return True


@lru_cache(MOST_LIBRARY_KEYS)
def _public_key(public: bytes) -> "Ed25519PublicKey":
    return Ed25519PublicKey.from_public_bytes(public)


@lru_cache(MOST_LIBRARY_KEYS)
def _private_key(secret: bytes) -> "Ed25519PrivateKey":
    return Ed25519PrivateKey.from_private_bytes(secret)
