"""How far a text is, as bytes that sites send one another.

    tag       4  the letters OTV1
    text      2
    site      2  of each site that has operations, rising
    front     4  how many
    hash      8  of all these: BLAKE2b of the hash before (nothing at first) and the message of the last one

Numbers are big-endian. So two texts see whether the operations that both have of a site are the same.
"""
from __future__ import annotations

import struct
from collections.abc import Iterable, Mapping
from ctypes import c_uint64
from hashlib import blake2b
from typing import NamedTuple, Union

from . import _library as c
from ._answers import Refused
from ._given import Buffer, data

_TAG, _SIZE = b"OTV1", 8
_HEAD, _SITE = struct.Struct(">4sH"), struct.Struct(f">HI{_SIZE}s")
# What a text is asked to go on from: how many operations of each site, or a state.
Fronts = Union[Mapping[int, int], Buffer]


class SiteState(NamedTuple):
    """A site's front, and the hash of its operations up to that."""

    site: int
    front: int
    digest: bytes


def spelled(text: int, sites: Iterable[SiteState]) -> bytes:
    return _HEAD.pack(_TAG, text) + b"".join(_SITE.pack(*it) for it in sites)


def states_in(state: Buffer, text: int) -> list[SiteState]:
    """What the state of a text says."""
    spelling = data(state)
    rest = spelling[_HEAD.size:]
    if not spelling.startswith(_TAG) or len(spelling) < _HEAD.size or len(rest) % _SITE.size:
        raise ValueError("the bytes are no state of a text")
    if _HEAD.unpack_from(spelling)[1] != text:
        raise Refused(c.WRONG_TEXT)
    found = [SiteState(*it) for it in _SITE.iter_unpack(rest)]
    if not all(it.site and it.front for it in found) or any(a.site >= b.site for a, b in zip(found, found[1:])):
        raise ValueError("the bytes are no state of a text")
    return found


class Digests:
    """The hashes of each site's operations, up to each of them."""

    def __init__(self) -> None:
        self._of: dict[int, bytearray] = {}
        # Up to where the text's messages are in them.
        self.index = c_uint64()

    def add(self, message: bytes) -> None:
        digests = self._of.setdefault(int.from_bytes(message[6:8], "big"), bytearray())
        digests += blake2b(digests[-_SIZE:] + message, digest_size=_SIZE).digest()

    def at(self, site: int, front: int) -> bytes:
        return bytes(self._of[site][_SIZE * (front - 1):_SIZE * front])
