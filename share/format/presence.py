"""What an editor says of itself to the others that are on: who it is, its name and colour, and where its cursor is.

It goes through the log beside the entries, is kept nowhere, and is sealed where the log is on a server. Whoever has
the note's link could say it as well, so nothing hangs on it. A cursor is the character before it, by its name.

As it is sent a count that only rises stands in the second half of the engine's token, so that what was said before and is
put into the log again, under whatever name, is known to be nothing (sync/heard.py). Before the count stands the version of what is said.
What has another version there was made by a later version of vialshoal, and is passed over.
"""
import re
import struct
from typing import NamedTuple

from share.format.operation import TEXT

TOKEN_BYTES = 16
# Of a token the first bytes are random, and the others zeros.
RANDOM_BYTES = 8
# The engine's token and the editor's, the site, the colour, which places there are, the cursor and the other end of
# a selection; then the name. A place before all characters is (0, 0).
FORM = struct.Struct(">16s16sH3sBHIHI")
# All that is said has this many bytes at most.
MOST_PRESENCE = 256
MOST_NAME, MOST_NAME_BYTES = 40, 160
LEAVING_BYTES = FORM.size + MOST_NAME_BYTES + 1
# What a name doesn't have: controls, and what turns the direction of writing for all that follows.
_NO_NAME = re.compile("[\0-\x1f\x7f-\x9f\u061c\u200e\u200f\u2028-\u202e\u2066-\u2069\ud800-\udfff]")
# The upper four bits say the text, less 1.
HAS_CURSOR, HAS_ANCHOR, TEXT_BIT = 1, 2, 4
# The version of what is said, and the count.
COUNT = struct.Struct(">II")
PRESENCE_VERSION = 0
# The site and the offset of a character.
NamedPlace = tuple[int, int]
AT_FRONT: NamedPlace = (0, 0)


class Present(NamedTuple):
    """What an editor says."""

    engine: bytes
    editor: bytes
    site: int
    colour: str
    cursor: NamedPlace | None
    anchor: NamedPlace | None
    name: str
    # The text that the cursor is in: in a note of the first form there is one.
    text: int = TEXT


def presence_of(one: Present) -> bytes:
    """What an editor says, as bytes."""
    flags = (one.cursor is not None) * HAS_CURSOR | (one.anchor is not None) * HAS_ANCHOR | one.text - 1 << TEXT_BIT
    head = FORM.pack(one.engine, one.editor, one.site, bytes.fromhex(one.colour[1:]), flags, *(one.cursor or AT_FRONT),
                     *(one.anchor or AT_FRONT))
    # Of one length, so that a server's operator can't tell people by the lengths of their names.
    return head + one.name.encode("utf-8", "ignore")[:MOST_NAME_BYTES].ljust(MOST_NAME_BYTES, b"\0")


def read_presence(data: bytes) -> Present | None:
    """What an editor has said; None where these bytes are something else."""
    if not FORM.size <= len(data) <= FORM.size + MOST_NAME_BYTES:
        return None
    engine, editor, site, colour, flags, *places = FORM.unpack_from(data)
    cursor, anchor = (places[0], places[1]), (places[2], places[3])
    return Present(engine, editor, site, f"#{colour.hex()}", cursor if flags & HAS_CURSOR and _is_place(cursor) else None,
                   anchor if flags & HAS_ANCHOR and _is_place(anchor) else None,
                   clean_name(data[FORM.size:].decode("utf-8", "ignore")), (flags >> TEXT_BIT) + 1)


def clean_name(name: str) -> str:
    """A person's name as it may be shown anywhere."""
    return _NO_NAME.sub("", name).strip()[:MOST_NAME]


def _is_place(place: NamedPlace) -> bool:
    return place == AT_FRONT or place[0] > 0 and place[1] < 2**24


def with_count(data: bytes, count: int) -> bytes:
    """What an editor says, with a count."""
    return data[:RANDOM_BYTES] + COUNT.pack(PRESENCE_VERSION, count) + data[TOKEN_BYTES:]


def leaving(data: bytes) -> bytes:
    """Return what says that an editor has left which said this last: a byte more than presence has."""
    return data.ljust(LEAVING_BYTES, b"\0")


def is_leaving(data: bytes) -> bool:
    """Whether this says that an editor has left."""
    return len(data) == LEAVING_BYTES
