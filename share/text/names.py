"""Sets of characters' names, as ranges that rise and don't meet."""
from collections.abc import Iterable, Sequence
from typing import NamedTuple

# The site and the offset of a character.
Name = tuple[int, int]


class Names(NamedTuple):
    """The names of a stretch of a site's file."""

    site: int
    at: int
    length: int


def united(names: Iterable[Names]) -> list[Names]:
    """All these names as a set."""
    out: list[Names] = []
    for one in sorted(names):
        last = out[-1] if out else None
        if last and last.site == one.site and one.at <= last.at + last.length:
            end = max(last.at + last.length, one.at + one.length)
            out[-1] = last._replace(length=end - last.at)
        else:
            out.append(one)
    return out


def without(names: Sequence[Names], others: Sequence[Names]) -> list[Names]:
    """The names of a set that aren't in another one."""
    out: list[Names] = []
    for one in names:
        at, end = one.at, one.at + one.length
        for other in others:
            if other.site == one.site and other.at < end and at < other.at + other.length:
                if other.at > at:
                    out.append(Names(one.site, at, other.at - at))
                at = min(end, other.at + other.length)
        if at < end:
            out.append(Names(one.site, at, end - at))
    return out


def halves(names: Sequence[Names]) -> tuple[Sequence[Names], Sequence[Names]]:
    """A set of several names in two parts."""
    if len(names) > 1:
        middle = len(names) // 2
        return names[:middle], names[middle:]
    (one,) = names
    middle = one.length // 2
    return [one._replace(length=middle)], [Names(one.site, one.at + middle, one.length - middle)]
