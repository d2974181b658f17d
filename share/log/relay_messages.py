"""What goes over a relay's WebSocket, both ways, byte by byte as docs/RELAY.md has it. Whoever sent it may be anyone: what isn't spelled so
is refused as it is read."""
import re
import struct
from collections.abc import Iterable, Iterator, Sequence
from enum import IntEnum
from typing import NamedTuple

from share.format.entry import MOST_BYTES
from share.format.presence import MOST_PRESENCE
from share.format.second.append import CHALLENGE_BYTES
from share.format.second.keys import IDENTITY_BYTES
from share.format.second.signature import POINT_BYTES, SIGNED_BYTES
from share.log.base import READ_AT_ONCE, InLog
from share.log.page_size import batches

SOCKET_PATH, ABOUT_PATH, SUBPROTOCOL = "/relay/socket", "/relay", "vialshoal-relay-1"
RELAY_VERSION = 1
# The most bytes of a client's message, of what it appends by one, and of the entries of a page beside their places.
MOST_REQUEST, MOST_APPENDED_AT_ONCE, MOST_BYTES_OF_PAGE = 2**18, 2**17, 2**20
# A page with all that stands beside its entries.
MOST_ANSWERED = MOST_BYTES_OF_PAGE + MOST_BYTES + 2**8 * READ_AT_ONCE
# A number that no request has, under which comes what nobody asked for.
UNASKED = 0
MOST_WORDS_OF_REFUSAL = 300
PLACE = re.compile(rb"[!-~]{0,64}")
PROOF_HEAD = struct.Struct(f">x{IDENTITY_BYTES}s{POINT_BYTES}s{SIGNED_BYTES}s")
REQUEST_HEAD, READ, PAGE, REFUSED, ENTRY_LENGTH = (struct.Struct(form) for form in (">BI", ">BII", ">BIBQ", ">BIB", ">I"))
NO_ENTRY = 2**32 - 1


class MessageKind(IntEnum):
    """What a message is, in its first byte: a request and its answer have the same one."""

    PROOF = 1
    WELCOME = 2
    READ = 3
    APPEND = 4
    PRESENCE = 5
    REFUSED = 6


class Why(IntEnum):
    """Why a request is refused."""

    FULL = 1
    RATE = 2
    NEW = 3
    AWAY = 4
    LOST = 5
    WRONG = 6


class Misspelled(Exception):
    """A message isn't one that this protocol has."""


class Proof(NamedTuple):
    """What shows that somebody has the link of a note: the signature of a challenge, for a server of this origin."""

    note: bytes
    public: bytes
    signature: bytes
    origin: str

    def spelled(self) -> bytes:
        """As a message."""
        return bytes([MessageKind.PROOF]) + self.note + self.public + self.signature + self.origin.encode()


class ReadRequest(NamedTuple):
    """Asks for entries after a place, of no more bytes than this, unless the first one alone has more."""

    id: int
    most: int
    after: str

    def spelled(self) -> bytes:
        """As a message."""
        return READ.pack(MessageKind.READ, self.id, self.most) + _place(self.after)


class AppendRequest(NamedTuple):
    """Asks that entries be appended."""

    id: int
    raws: Sequence[bytes]

    def spelled(self) -> bytes:
        """As a message."""
        return REQUEST_HEAD.pack(MessageKind.APPEND, self.id) + b"".join(ENTRY_LENGTH.pack(len(raw)) + raw for raw in self.raws)


class RelayPage(NamedTuple):
    """What stands after a place, whether that is all, and how many entries the log has. Where nobody asked for it and it is empty there is
    more than was told before."""

    id: int
    at_end: bool
    size: int
    after: str
    entries: Sequence[InLog]

    def spelled(self) -> bytes:
        """As a message."""
        return PAGE.pack(MessageKind.READ, self.id, self.at_end, self.size) + _place(self.after) + b"".join(map(_entry, self.entries))


class Refusal(NamedTuple):
    """Says why a request isn't done."""

    id: int
    why: Why
    words: str

    def spelled(self) -> bytes:
        """As a message."""
        return REFUSED.pack(MessageKind.REFUSED, self.id, self.why) + self.words.encode()[:MOST_WORDS_OF_REFUSAL]


def challenge_message(challenge: bytes) -> bytes:
    """The message with which a relay begins."""
    return bytes([MessageKind.PROOF]) + challenge


def read_challenge(data: bytes) -> bytes:
    """The random bytes of that message."""
    if len(data) != 1 + CHALLENGE_BYTES or data[0] != MessageKind.PROOF:
        raise Misspelled
    return data[1:]


def welcome_message() -> bytes:
    """What follows a right proof."""
    return bytes([MessageKind.WELCOME, RELAY_VERSION])


def kept_message(number: int) -> bytes:
    """What answers an append."""
    return REQUEST_HEAD.pack(MessageKind.APPEND, number)


def presence_message(presence: bytes) -> bytes:
    """Presence, which goes both ways."""
    return bytes([MessageKind.PRESENCE]) + presence


def read_presence_message(data: bytes) -> bytes:
    """The presence of such a message."""
    if not 2 <= len(data) <= 1 + MOST_PRESENCE:
        raise Misspelled
    return data[1:]


def read_proof(data: bytes) -> Proof:
    """A proof, of which nothing but its spelling was looked at."""
    if len(data) < PROOF_HEAD.size or data[0] != MessageKind.PROOF:
        raise Misspelled
    try:
        note, public, signature = PROOF_HEAD.unpack_from(data)
        return Proof(note, public, signature, data[PROOF_HEAD.size:].decode("ascii"))
    except UnicodeDecodeError as why:
        raise Misspelled from why


def read_request(data: bytes) -> ReadRequest:
    """A request for entries."""
    _, number, most = _unpacked(READ, data)
    after, end = _read_place(data, READ.size)
    if end != len(data) or number == UNASKED:
        raise Misspelled
    return ReadRequest(number, most, after)


def append_request(data: bytes) -> AppendRequest:
    """A request to append."""
    _, number = _unpacked(REQUEST_HEAD, data)
    raws, at = list[bytes](), REQUEST_HEAD.size
    while at < len(data):
        (size,), at = _unpacked(ENTRY_LENGTH, data, at), at + ENTRY_LENGTH.size
        raws.append(data[at:at + size])
        at += size
    if at != len(data) or number == UNASKED:
        raise Misspelled
    return AppendRequest(number, raws)


def read_page(data: bytes) -> RelayPage:
    """What a relay gives of a log."""
    _, number, flags, size = _unpacked(PAGE, data)
    after, at = _read_place(data, PAGE.size)
    if flags > 1:
        raise Misspelled
    return RelayPage(number, bool(flags), size, after, [*_entries(data, at)])


def read_refusal(data: bytes) -> Refusal:
    """Why a relay refuses something. Its words may be any."""
    _, number, why = _unpacked(REFUSED, data)
    try:
        return Refusal(number, Why(why), data[REFUSED.size:][:MOST_WORDS_OF_REFUSAL].decode("utf-8", "replace"))
    except ValueError as wrong:
        raise Misspelled from wrong


def read_kept(data: bytes) -> int:
    """The number of the request to append that was done."""
    _, number = _unpacked(REQUEST_HEAD, data)
    if len(data) != REQUEST_HEAD.size:
        raise Misspelled
    return int(number)


def in_messages(raws: Iterable[bytes]) -> Iterator[list[bytes]]:
    """Entries in parts that are appended by one message each."""
    return batches(raws, MOST_APPENDED_AT_ONCE, ENTRY_LENGTH.size)


def _place(place: str) -> bytes:
    return bytes([len(place)]) + place.encode("ascii")


def _entry(one: InLog) -> bytes:
    return _place(one.place) + (ENTRY_LENGTH.pack(NO_ENTRY) if one.raw is None else ENTRY_LENGTH.pack(len(one.raw)) + one.raw)


def _entries(data: bytes, at: int) -> Iterator[InLog]:
    many = 0
    while at < len(data):
        place, at = _read_place(data, at)
        (size,), at = _unpacked(ENTRY_LENGTH, data, at), at + ENTRY_LENGTH.size
        raw = None if size == NO_ENTRY else data[at:at + size]
        many, at = many + 1, at + (0 if raw is None else size)
        if not place or many > READ_AT_ONCE or at > len(data):
            raise Misspelled
        yield InLog(place, raw if raw is None or len(raw) <= MOST_BYTES else None)


def _read_place(data: bytes, at: int) -> tuple[str, int]:
    """A place, and where it ends."""
    end = at + 1 + (data[at] if at < len(data) else 0)
    if end > len(data) or not PLACE.fullmatch(data, at + 1, end):
        raise Misspelled
    return data[at + 1:end].decode("ascii"), end


def _unpacked(form: struct.Struct, data: bytes, at: int = 0) -> tuple[int, ...]:
    try:
        return form.unpack_from(data, at)
    except struct.error as why:
        raise Misspelled from why
