"""Claims of the second form: a number costs a search for a counter whose hash has it, and zeros behind it."""
import hashlib
from collections.abc import Container, Iterable, Iterator
from typing import NamedTuple

from share.format.entry import GREATEST_SITE

COUNTER_BYTES, RANK_BYTES, CLAIMED_BYTES = 8, 32, 2
# The bits of a rank behind its number that are zero; tests ask for fewer.
ZERO_BITS = 20
NOBODYS: frozenset[int] = frozenset()


class Found(NamedTuple):
    """A counter that claims a number."""

    counter: int
    site: int


def rank_of(note: bytes, author: bytes, counter: int) -> bytes:
    """The rank of an author's claim: of two claims of a number the one of less rank holds."""
    return hashlib.sha512(_begin(note, author) + counter.to_bytes(COUNTER_BYTES, "big")).digest()[:RANK_BYTES]


def number_of_rank(rank: bytes, zero_bits: int = ZERO_BITS) -> int | None:
    """The number that a rank claims; None where it claims none."""
    number = int.from_bytes(rank[:CLAIMED_BYTES], "big")
    behind = int.from_bytes(rank[CLAIMED_BYTES:], "big") >> 8 * (len(rank) - CLAIMED_BYTES) - zero_bits
    return number if not behind and 1 <= number <= GREATEST_SITE else None


def found_among(counters: Iterable[int], note: bytes, author: bytes, taken: Container[int] = NOBODYS,
                zero_bits: int = ZERO_BITS) -> Iterator[Found]:
    """Those of some counters by which an author has a number that isn't taken."""
    begin, zeros = hashlib.sha512(_begin(note, author)), bytes(zero_bits // 8)
    for counter in counters:
        trial = begin.copy()
        trial.update(counter.to_bytes(COUNTER_BYTES, "big"))
        rank = trial.digest()
        # Nearly all fail here, so that little is done for each.
        if rank.startswith(zeros, CLAIMED_BYTES):
            number = number_of_rank(rank[:RANK_BYTES], zero_bits)
            if number is not None and number not in taken:
                yield Found(counter, number)


def _begin(note: bytes, author: bytes) -> bytes:
    return b"vialshoal 2 claim" + note + author
