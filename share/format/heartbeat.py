"""What a replicator says of itself through a log: that it is on, and which entries it lacks.

A heartbeat has a token, a count that only rises, how often its replicator has asked, and for which entries: by their
hashes, or by that of the entry before them. Who has just these gives them again. It also says how its replicator hears
others, so that what goes by a log's channel goes by its table too while somebody is on who can't reach the channel.

The second half of a token is zeros, of which the first four bytes are the version of what is said. What has another version there was made
by a later version of vialshoal, and is passed over.
"""
import secrets
import struct
from collections.abc import Sequence
from enum import IntEnum
from typing import NamedTuple

from share.format.presence import RANDOM_BYTES, TOKEN_BYTES

# The token, the count, how often it has asked; then what it lacks.
SAID_HEAD, LACK = struct.Struct(">16sII"), struct.Struct(">B32s")
MOST_LACKS = 5
# It fits when it is sealed.
BYTES = 216
HEARS_AT = SAID_HEAD.size + MOST_LACKS * LACK.size


class Way(IntEnum):
    """How an entry that is lacked is named: by its own hash, or by that of the entry before it."""

    IT = 1
    AFTER = 2


class Hears(IntEnum):
    """How a replicator hears others: by the table alone; by the channel; by the channel from now on, so that others are to
    say again what they show; or no more, since it leaves."""

    TABLE = 0
    CHANNEL = 1
    CHANNEL_FROM_NOW = 2
    NOTHING = 3


class Lack(NamedTuple):
    """An entry that is lacked."""

    way: Way
    hash: bytes


class Said(NamedTuple):
    """What a replicator has said."""

    token: bytes
    number: int
    asks: int
    lacks: Sequence[Lack]
    hears: Hears = Hears.TABLE


def new_token() -> bytes:
    """A token that nobody else has."""
    return token_of(secrets.token_bytes(RANDOM_BYTES))


def token_of(begin: bytes) -> bytes:
    """The token that begins so."""
    return begin.ljust(TOKEN_BYTES, b"\0")


def heartbeat_of(one: Said) -> bytes:
    """What a replicator says, as bytes."""
    lacks = b"".join(LACK.pack(*lack) for lack in one.lacks[:MOST_LACKS])
    # Of one length, so that a server's operator can't tell who lacks something.
    return (SAID_HEAD.pack(one.token, one.number, one.asks) + lacks.ljust(HEARS_AT - SAID_HEAD.size, b"\0") + bytes([one.hears])
            ).ljust(BYTES, b"\0")


def read_heartbeat(data: bytes) -> Said | None:
    """What a replicator has said; None where these bytes are something else."""
    if len(data) != BYTES or any(data[RANDOM_BYTES:TOKEN_BYTES]):
        return None
    ways, hears = {int(way): way for way in Way}, {int(one): one for one in Hears}
    lacks = [Lack(ways[way], of) for way, of in LACK.iter_unpack(data[SAID_HEAD.size:HEARS_AT]) if way in ways]
    token, number, asks = SAID_HEAD.unpack_from(data)
    return Said(token, number, asks, lacks, hears.get(data[HEARS_AT], Hears.TABLE))
