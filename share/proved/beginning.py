"""What a note begins with, as the library takes it: who founded it, and the chunks that were copied into it, in their order."""
from collections.abc import Sequence
from typing import Any, NamedTuple

from share.format.chunk import inserted_before, packed_in_parts
from share.format.entry import NO_HASH
from share.format.second.keys import Founding, derived
from share.format.second.record import Record


class FirstOf(NamedTuple):
    """The first messages of a record of the base."""

    record: Record
    many: int

    def chunk(self) -> bytes:
        """Their chunk."""
        record, many = self
        if many == record.size:
            return record.chunk
        [first] = packed_in_parts(record.messages[:many], inserted_before(record.chunk))
        return first.chunk


class Beginning:
    """The opening, and records that may be of the base: anybody who has the link can make others, or cut these otherwise."""

    def __init__(self) -> None:
        self._founding: Founding | None = None
        # Those that came, and those whose messages are named, by what names the last one.
        self._came: list[Record] = []
        self._by_last: dict[bytes, Record] = {}

    def add(self, record: Record) -> None:
        """Adds one that came."""
        if record.founding:
            self._founding = self._founding or record.founding
        else:
            self._came.append(record)

    def words(self, looks_within: bool = False) -> dict[str, Any] | None:
        """What the library is told; None as long as something isn't here, and where the base isn't in its order. To look whether a message
        that is wanted stands within a record takes long."""
        if not (founding := self._founding):
            return None
        self._by_last |= {[*founding.links(one.before, one.operations)][-1]: one for one in self._came}
        self._came.clear()
        base = self._base(founding, looks_within)
        # (that it is in its order the library leaves to its callers)
        if base is None or not are_in_order(base):
            return None
        return {"founder": founding.founder, "number": founding.number, "root": founding.root,
                "base_key": derived(founding.secret, b"base"), "base": [one.chunk() for one in base]}

    def _base(self, founding: Founding, looks_within: bool) -> list[FirstOf] | None:
        """From the last one back, as far as they are here."""
        found, wanted = list[FirstOf](), founding.root
        while wanted != NO_HASH:
            one = FirstOf(record, record.size) if (record := self._by_last.get(wanted)) else (
                self._within(founding, wanted) if looks_within else None)
            if one is None:
                return None
            found.append(one)
            wanted = one.record.before
        return found[::-1]

    def _within(self, founding: Founding, wanted: bytes) -> FirstOf | None:
        """Which record has a message, and how many it has up to that."""
        for record in self._by_last.values():
            for many, link in enumerate(founding.links(record.before, record.operations), 1):
                if link == wanted:
                    return FirstOf(record, many)
        return None


def are_in_order(base: Sequence[FirstOf]) -> bool:
    """Whether texts rise, the sites of each, and the seqs of each of these from 1 on."""
    place, last = (0, 0), 0
    for record, many in base:
        now = record.text, record.site
        if now < place or record.first != (last + 1 if now == place else 1):
            return False
        place, last = now, record.first + many - 1
    return True
