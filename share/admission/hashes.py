"""Hashes of 32 bytes, each by a number of its own, in some 50 bytes each."""
from array import array
from collections.abc import Iterable

HASH_BYTES = 32
# How many seats the index begins with; at least every third one stays free. A seat has the upper half of a hash of Python's, and
# a number.
LEAST_SEATS, NUMBER_BITS = 1 << 8, 32
MARK_MASK, NUMBER_MASK = 0xFFFF_FFFF << NUMBER_BITS, (1 << NUMBER_BITS) - 1


class Hashes:
    """Hashes by their numbers, and numbers by their hashes; they are added and never change."""

    def __init__(self) -> None:
        self._hashes = bytearray()
        # The numbers by their hashes, one more than each, so that 0 is a free place.
        self._index, self._mask = array("Q", bytes(8 * LEAST_SEATS)), LEAST_SEATS - 1

    def __len__(self) -> int:
        return len(self._hashes) // HASH_BYTES

    def number(self, of: bytes) -> int | None:
        """The number of a hash; None where it isn't here."""
        found = self._index[self._seat(of, hash(of) & MARK_MASK)]
        return (found & NUMBER_MASK) - 1 if found else None

    def has_any(self, hashes: Iterable[bytes]) -> bool:
        """Whether one of some hashes is here."""
        index, mask = self._index, self._mask
        for of in hashes:
            mark = hash(of) & MARK_MASK
            seat = mark >> NUMBER_BITS & mask
            # As in `_seat`: to call that for each takes longer than all the rest.
            while found := index[seat]:
                if found & MARK_MASK == mark and self.hash((found & NUMBER_MASK) - 1) == of:
                    return True
                seat = seat + 1 & mask
        return False

    def hash(self, number: int) -> bytes:
        """The hash that has a number."""
        return bytes(self._hashes[HASH_BYTES * number:HASH_BYTES * (number + 1)])

    def _seat(self, of: bytes, mark: int) -> int:
        """The place of a hash in the index, or the free one that it would have. Nobody else can tell where hashes meet:
        Python's own hash of bytes has a secret of the process."""
        seat = mark >> NUMBER_BITS & self._mask
        while (found := self._index[seat]) and (found & MARK_MASK != mark or self.hash((found & NUMBER_MASK) - 1) != of):
            seat = seat + 1 & self._mask
        return seat

    def _enter(self, hashes: Iterable[bytes], first: int) -> None:
        """Enters hashes into the index, the first of which has a number. One that was added before has its new one from now on."""
        while 3 * len(self) > 2 * len(self._index):
            self._grow()
        index, mask = self._index, self._mask
        for number, of in enumerate(hashes, first + 1):
            mark = hash(of) & MARK_MASK
            seat = mark >> NUMBER_BITS & mask
            # As in `_seat`: to call that takes longer than all the rest.
            while (found := index[seat]) and (found & MARK_MASK != mark or self.hash((found & NUMBER_MASK) - 1) != of):
                seat = seat + 1 & mask
            index[seat] = mark | number

    def _grow(self) -> None:
        """Makes the index twice as long."""
        before, self._mask = self._index, 2 * len(self._index) - 1
        self._index = index = array("Q", bytes(16 * len(before)))
        for found in filter(None, before):
            seat = found >> NUMBER_BITS & self._mask
            while index[seat]:
                seat = seat + 1 & self._mask
            index[seat] = found
