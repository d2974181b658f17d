"""Whether the characters of an anchor are here, as its author saw them. What a note has is asked by functions."""
import hashlib
from collections.abc import Callable, Iterable, Sequence
from typing import NamedTuple

from share.review.record import SUM_BYTES, Anchor
from share.text.names import Name, Names, united

# The most characters that something is said of; they are read to see whether an anchor holds.
MOST_ANCHORED = 100_000


class Knows(NamedTuple):
    """What a note has of its text, of all that counts, shown or not: the hash of the message that inserted a character, the bytes of some,
    each None where they aren't there; and whether a site is of the base."""

    inserter: Callable[[Name], bytes | None]
    data: Callable[[Names], bytes | None]
    is_of_base: Callable[[int], bool]


class Sums:
    """The sums of the bytes of characters, of the same ones found once."""

    def __init__(self, knows: Knows):
        self._knows, self._found = knows, dict[tuple[Names, ...], str | None]()

    def of(self, names: tuple[Names, ...]) -> str | None:
        """The sum; None where one isn't there."""
        if names not in self._found:
            self._found[names] = _sum(names, self._knows)
        return self._found[names]


def holds(anchor: Anchor, new: Sequence[Names], author: int, knows: Knows, sums: Sums | None = None) -> bool:
    """Whether an anchor's characters, and a replacement's, which are its author's, are those that he saw."""
    if any(one.site != author for one in new) or not is_small([*anchor.at, *new]):
        return False
    for site, last in _lasts(anchor, new):
        if knows.is_of_base(site):
            continue
        found = knows.inserter((site, last))
        if found is None or _hash_begin(found) != anchor.saw.get(site):
            return False
    if anchor.behind and anchor.behind[0] and knows.inserter(anchor.behind) is None:
        return False
    return (sums or Sums(knows)).of((*anchor.at, *new)) == anchor.sum


def lacking(anchor: Anchor, new: Sequence[Names], knows: Knows) -> Name | None:
    """A character without which an anchor can't hold, and which isn't there yet."""
    lasts = _lasts(anchor, new) if is_small([*anchor.at, *new]) else []
    return next((name for name in lasts if knows.data(Names(*name, 1)) is None), None)


def is_small(names: Sequence[Names]) -> bool:
    """Whether names are no more than something is said of, and none is there twice."""
    many = sum(one.length for one in names)
    return many <= MOST_ANCHORED and many == sum(one.length for one in united(names))


def anchored(at: Sequence[Names], behind: Name | None, new: Sequence[Names], text: str, knows: Knows) -> Anchor:
    """The anchor of what is said of these characters, as they are now. All are there."""
    one = Anchor(tuple(at), behind, {}, text, "")
    saw = {site: _hash_begin(found) for site, last in _lasts(one, new)
           if not knows.is_of_base(site) and (found := knows.inserter((site, last)))}
    return one._replace(saw=saw, sum=_sum([*at, *new], knows) or "")


def _lasts(anchor: Anchor, new: Iterable[Names]) -> list[tuple[int, int]]:
    """The last character of each site."""
    lasts = {anchor.behind[0]: anchor.behind[1]} if anchor.behind and anchor.behind[0] else {}
    for one in (*anchor.at, *new):
        lasts[one.site] = max(lasts.get(one.site, 0), one.at + one.length - 1)
    return sorted(lasts.items())


def _hash_begin(found: bytes) -> str:
    return found[:SUM_BYTES].hex()


def _sum(names: Iterable[Names], knows: Knows) -> str | None:
    """The sum of the bytes of names; None where one isn't there."""
    summed = hashlib.sha256()
    for one in names:
        data = knows.data(one)
        if data is None:
            return None
        summed.update(data)
    return summed.digest()[:SUM_BYTES].hex()
