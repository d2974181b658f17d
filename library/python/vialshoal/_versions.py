"""What makes one version of a text another one."""
from __future__ import annotations

from collections.abc import Callable, Iterable
from itertools import chain
from typing import AnyStr, NamedTuple

from ._answers import Looks, NameRange
from ._code_points import CodePoints
from ._composing import INSERT, Step, Steps, add, changes_of, composed
from ._deltas import DeltaStep, steps_of
from ._names import parts, united
from ._shown import Shown


class _Part(NamedTuple):
    """So many bytes of a version, and whether the other one has them, too."""

    length: int
    is_common: bool


def _parts(ranges: Iterable[NameRange], other: list[NameRange]) -> list[_Part]:
    return [_Part(part.length, is_in) for it in ranges for part, is_in in parts(it, other)]


def _steps_of(was: list[NameRange], now: list[NameRange]) -> Steps:
    """The steps by which bytes of these names become those of others. What both have is in one order."""
    olds, news = (_parts(one, united(other))[::-1] for one, other in ((was, now), (now, was)))
    steps: Steps = []
    while olds or news:
        if olds and not olds[-1].is_common:
            add(steps, Step.CUT, olds.pop().length)
        elif news and not news[-1].is_common:
            add(steps, Step.PUT, news.pop().length)
        else:
            old, new = olds.pop(), news.pop()
            common = min(old.length, new.length)
            add(steps, Step.KEEP, common)
            olds += [_Part(old.length - common, True)] * (old.length > common)
            news += [_Part(new.length - common, True)] * (new.length > common)
    return steps


def _in_code_points(steps: Steps, was: bytes, now: bytes) -> Steps:
    """Steps that count bytes as steps that count code points."""
    points = CodePoints()
    points.follow([(INSERT, 0, len(was))], lambda beg, end: was[beg:end])
    points.tell()
    points.follow(changes_of(steps), lambda beg, end: now[beg:end])
    return composed(points.tell())


def _looks_from(shown: Shown[AnyStr]) -> Callable[[int], tuple[int, Looks]]:
    """Up to where a version looks alike from a position on, which only rises, and how."""
    runs = iter(shown.runs())
    run = next(runs, None)

    def looks_at(at: int) -> tuple[int, Looks]:
        nonlocal run
        while run is not None and run.end <= at:
            run = next(runs, None)
        assert run is not None
        return run.end, run.looks
    return looks_at


def _dressed(steps: Steps, was: Shown[AnyStr], now: Shown[AnyStr]) -> Steps:
    """Steps by which what stays in other looks is dressed."""
    old, new = _looks_from(was), _looks_from(now)
    found: Steps = []
    before = after = 0
    # (what the steps don't reach stays)
    for step, length in chain(steps, [(Step.KEEP, len(was))]):
        if step is not Step.KEEP:
            add(found, step, length)
            before, after = before + length * (step is Step.CUT), after + length * (step is Step.PUT)
            continue
        end = min(before + length, len(was))
        while before < end:
            (old_end, old_looks), (new_end, new_looks) = old(before), new(after)
            common = min(end - before, old_end - before, new_end - after)
            add(found, Step.KEEP if old_looks == new_looks else Step.DRESS, common)
            before, after = before + common, after + common
    return found


def between(was: Shown[AnyStr], now: Shown[AnyStr]) -> tuple[DeltaStep[AnyStr], ...]:
    """What makes one version of a text another one."""
    steps = _steps_of(*(one.name_ranges(0, len(one)) for one in (was, now)))
    if was.units != "bytes":
        steps = _in_code_points(steps, bytes(was), bytes(now))
    return steps_of(_dressed(steps, was, now), lambda beg, end: now[beg:end])
