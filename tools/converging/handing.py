"""Orders in which a site is handed operations as chunks, drawn at random, and what that may be answered."""
from __future__ import annotations

import itertools
import random
import re
from collections import Counter, deque
from collections.abc import Iterable, Iterator, Sequence
from typing import NamedTuple

from tools.converging.writing import TEXT, Burst
from tools.packed.chunks import Placed, chunks, placed
from tools.packed.messages import Operation

# How many operations are handed in together, and how often.
TOGETHER = {1: 8, 10: 8, 50: 8, 200: 4, 1000: 2, 4000: 1}
# One in this many of these also comes too early, by up to this many; or again, later by up to this many.
EARLY, BY = 12, 5
AGAIN, LATER = 25, 30
# After how many turns another site is liked, as a mean.
LIKED = 40
IN_ORDER, TOO_EARLY, REPEATED = "in order", "too early", "again"
ANSWERS = {
    IN_ORDER: re.compile(r"unpacked \d+ \d+ 0"),
    TOO_EARLY: re.compile(r"unpacked \d+ \d+ (?P<waiting>\d+)|(?P<refused>refused|partial \d+) 6"),
    REPEATED: re.compile(r"unpacked 0 \d+ 0"),
}


class Handed(NamedTuple):
    """A chunk that is handed to a site, and whether its operations' causes are there, or all of them are."""

    chunk: bytes
    when: str


def turns(bursts: Iterable[Burst], rng: random.Random) -> Iterator[Sequence[Operation]]:
    """All operations in an order that keeps causes: for a while those of one site come as soon as they may, then those of another."""
    left: dict[int, deque[Burst]] = {}
    for burst in bursts:
        left.setdefault(burst.site, deque()).append(burst)
    liked, fronts = [*left], Counter[int]()
    while left:
        if rng.randrange(LIKED) == 0:
            rng.shuffle(liked)
        site = next(site for site in liked if site in left and all(fronts[of] >= seq for of, seq in left[site][0].fronts.items()))
        burst = left[site].popleft()
        some = rng.randint(1, max(1, len(burst.operations)))
        yield burst.operations[:some]
        fronts[site] += len(burst.operations[:some])
        if some < len(burst.operations):
            left[site].appendleft(Burst(site, {}, burst.operations[some:]))
        elif not left[site]:
            del left[site]


def together(operations: Sequence[Placed], rng: random.Random) -> Iterator[Sequence[Placed]]:
    begin = 0
    while begin < len(operations):
        count = rng.choices([*TOGETHER], [*TOGETHER.values()])[0]
        yield operations[begin : begin + count]
        begin += count


def handed(bursts: Sequence[Burst], rng: random.Random) -> list[Handed]:
    """What a site is handed one after the other, all operations in an order that keeps causes among it."""
    order = [*placed(operation for some in turns(bursts, rng) for operation in some)]
    # By its place: what comes too early, what comes in order, and what comes again.
    places: list[tuple[float, Handed]] = []
    for at, some in enumerate(together(order, rng)):
        for chunk in chunks(TEXT, some):
            places.append((at, Handed(chunk, IN_ORDER)))
            if rng.randrange(EARLY) == 0:
                places.append((at - rng.randint(1, BY) - 0.5, Handed(chunk, TOO_EARLY)))
            if rng.randrange(AGAIN) == 0:
                places.append((at + rng.randint(0, LATER) + 0.5, Handed(chunk, REPEATED)))
    return [each for _, each in sorted(places, key=lambda each: each[0])]


def mistakes(given: Sequence[Handed], answers: Sequence[str]) -> Iterator[str]:
    """What isn't answered as it has to be."""
    for each, answer in itertools.zip_longest(given, answers):
        if not (each and answer and ANSWERS[each.when].fullmatch(answer)):
            yield f"a chunk {each.when if each else 'that was not there'} is answered {answer}"


def tally(given: Sequence[Handed], answers: Sequence[str]) -> Counter[str]:
    """How many chunks came when, how many operations waited, and how many chunks found no place to wait."""
    found = Counter(f"{each.when}" for each in given)
    for each, answer in zip(given, answers):
        match = ANSWERS[TOO_EARLY].fullmatch(answer)
        if match and each.when == TOO_EARLY:
            found["operations that waited"] += int(match["waiting"] or 0)
            found["with no place to wait"] += bool(match["refused"])
    return found
