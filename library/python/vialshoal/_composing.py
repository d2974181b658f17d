"""What changes do, one after the other."""
from __future__ import annotations

import enum
from collections.abc import Iterable

INSERT = 1
DELETE = 2
REPLACE = 3


class Step(enum.Enum):
    """What is done to bytes: they stay, or stay in other looks, or are cut out, or are put in."""

    KEEP = 0
    DRESS = 1
    CUT = 2
    PUT = 3


# What is done to how many bytes, from a text's begin on; those that it doesn't reach stay.
Steps = list[tuple[Step, int]]
# A change: its kind, and its range, in the text after an insertion, else in the text before.
Triple = tuple[int, int, int]


def growth(changes: list[Triple]) -> int:
    signs = {INSERT: 1, DELETE: -1, REPLACE: 0}
    return sum(signs[kind] * (end - beg) for kind, beg, end in changes)


def _steps(kind: int, beg: int, end: int) -> Steps:
    step = {INSERT: Step.PUT, DELETE: Step.CUT, REPLACE: Step.DRESS}[kind]
    return [*[(Step.KEEP, beg)] * (beg > 0), (step, end - beg)]


def add(steps: Steps, step: Step, length: int) -> None:
    if steps and steps[-1][0] is step:
        length += steps.pop()[1]
    steps.append((step, length))


def _after(first: Steps, then: Steps) -> Steps:
    """What both do, the one after the other."""
    here, there = first[::-1], then[::-1]
    made: Steps = []
    while here and there:
        if here[-1][0] is Step.CUT:
            add(made, *here.pop())
            continue
        if there[-1][0] is Step.PUT:
            add(made, *there.pop())
            continue
        (did, long), (does, wide) = here.pop(), there.pop()
        common = min(long, wide)
        if common < long:
            here.append((did, long - common))
        if common < wide:
            there.append((does, wide - common))
        if does is Step.KEEP or did is Step.PUT and does is Step.DRESS:
            add(made, did, common)
        elif did is not Step.PUT:
            add(made, does, common)
    for step, length in here[::-1] + there[::-1]:
        add(made, step, length)
    return made


def changes_of(steps: Steps) -> list[Triple]:
    """The changes that are done by steps."""
    kinds = {Step.DRESS: REPLACE, Step.CUT: DELETE, Step.PUT: INSERT}
    found, beg = [], 0
    for step, length in steps:
        if step in kinds and length:
            found.append((kinds[step], beg, beg + length))
        if step is not Step.CUT:
            beg += length
    return found


def composed(changes: Iterable[Triple]) -> Steps:
    """What changes do one after the other: each is walked as often as their number can be halved."""
    done = [_steps(*change) for change in changes]
    while len(done) > 1:
        pairs = [_after(*done[at:at + 2]) for at in range(0, len(done) - 1, 2)]
        done = pairs + done[len(pairs) * 2:]
    return done[0] if done else []
