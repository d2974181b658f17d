"""How often sites cut runs that others typed letter by letter, each letter directly after the one before."""
from __future__ import annotations

from collections import Counter
from collections.abc import Iterable, Iterator, Sequence

from tools.converging.shown import key_of
from tools.converging.writing import Burst, are_apart
from tools.packed.messages import Cause, Insert, Name, Operation, Ranges

# An operation with the burst that it is of.
Made = tuple[Operation, Burst]
Letters = dict[Cause, Made]
# Where an Insert goes that another site makes directly after a letter of a run; and what else is counted.
FIRST, MIDST, LAST, PAST = "after the first letter", "in the midst", "before the last letter", "past the rest of the run"
UNKNOWN, NAMED = "before the next letter was known", "by what names characters"


def made(bursts: Iterable[Burst]) -> Iterator[Made]:
    return ((operation, burst) for burst in bursts for operation in burst.operations)


def letter(operation: Operation) -> Name | None:
    """The character that it inserts, where that is one."""
    kind = operation.kind
    return Name(operation.site, kind.at) if isinstance(kind, Insert) and len(kind.data) == 1 else None


def goes_on(before: Operation, operation: Operation) -> bool:
    """Whether a site's operation is the next letter of the run that it typed in before."""
    one, other = before.kind, operation.kind
    if not (isinstance(one, Insert) and isinstance(other, Insert) and letter(before) and letter(operation)):
        return False
    return other.cause == letter(before) and other.looks == one.looks and operation.stamp == before.stamp + 1


def next_letters(bursts: Iterable[Burst]) -> Letters:
    """Of each letter of a run but the last one, what typed the next."""
    found: Letters = {}
    last: dict[int, Operation] = {}
    for operation, burst in made(bursts):
        before = last.get(operation.site)
        if before and goes_on(before, operation):
            found[letter(before)] = operation, burst
        last[operation.site] = operation
    return found


def place(operation: Operation, following: Operation, nexts: Letters, later: set[Cause]) -> str:
    """Where an Insert goes between a letter of a run and the one that follows it."""
    assert isinstance(operation.kind, Insert)
    if key_of(operation) < key_of(following):
        return PAST
    if operation.kind.cause not in later:
        return FIRST
    return MIDST if letter(following) in nexts else LAST


def is_within(site: int, ranges: Ranges, nexts: Letters) -> bool:
    """Whether a range of another site's characters begins or ends between two letters of a run."""
    return any(Name(each.site, at - 1) in nexts for each in ranges if each.site != site for at in (each.at, each.end))


def cuts(bursts: Sequence[Burst]) -> Counter[str]:
    """How often they were cut, by Inserts and by others."""
    nexts, found = next_letters(bursts), Counter(dict.fromkeys((FIRST, MIDST, LAST, PAST, UNKNOWN, NAMED), 0))
    later = {letter(operation) for operation, _ in nexts.values()}
    for operation, burst in made(bursts):
        kind = operation.kind
        if not isinstance(kind, Insert):
            found[NAMED] += is_within(operation.site, kind.ranges, nexts)
        elif kind.cause in nexts and operation.site != nexts[kind.cause][0].site:
            following = nexts[kind.cause]
            found[place(operation, following[0], nexts, later)] += 1
            found[UNKNOWN] += are_apart((operation, burst), following)
    return found
