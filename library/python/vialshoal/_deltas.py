"""Changes of what is shown as deltas, with what was put in, and those who listen for them."""
from __future__ import annotations

import logging
import threading
from collections import deque
from collections.abc import Callable, Iterable
from dataclasses import dataclass, field
from typing import Any, AnyStr, Generic, Optional, Union

from ._composing import Step, Steps, Triple, composed
from ._names import Effect


@dataclass(frozen=True)
class Retain:
    """So many bytes, or characters, stay, perhaps in other looks."""

    length: int
    is_dressed: bool = False


@dataclass(frozen=True)
class Insert(Generic[AnyStr]):
    """This is put in."""

    data: AnyStr


@dataclass(frozen=True)
class Delete:
    """So many bytes, or characters, are taken out."""

    length: int


DeltaStep = Union[Retain, Insert[AnyStr], Delete]


@dataclass(frozen=True)
class Delta(Generic[AnyStr]):
    """What was done to a text from its begin on, by its own site or by others, with the origin that `batch` was given; what comes
    behind the last step stays."""

    is_own: bool
    steps: tuple[DeltaStep[AnyStr], ...]
    origin: object = field(default=None, repr=False, compare=False)
    # Which names it showed and hid, where an undo manager asks for that.
    effect: Optional[Effect] = field(default=None, repr=False, compare=False)

    def applied(self, shown: AnyStr) -> AnyStr:
        """What it makes of what was shown."""
        parts: list[AnyStr] = []
        at = 0
        for step in self.steps:
            if isinstance(step, Insert):
                parts.append(step.data)
                continue
            if isinstance(step, Retain):
                parts.append(shown[at:at + step.length])
            at += step.length
        parts.append(shown[at:])
        return shown[:0].join(parts)


Listener = Callable[[Delta[Any]], object]


def steps_of(done: Steps, read: Callable[[int, int], AnyStr]) -> tuple[DeltaStep[AnyStr], ...]:
    """What steps do, where `read` reads a range of the text as it is after them."""
    steps: list[DeltaStep[AnyStr]] = []
    at = cut = put = 0
    for step, length in [*done, (Step.KEEP, 0)]:
        if step is Step.CUT:
            cut += length
        elif step is Step.PUT:
            put += length
        else:
            steps += [Insert(read(at, at + put))] * (put > 0) + [Delete(cut)] * (cut > 0)
            steps += [Retain(length, step is Step.DRESS)] * (length > 0)
            at, cut, put = at + put + length, 0, 0
    if steps and isinstance(steps[-1], Retain) and not steps[-1].is_dressed:
        steps.pop()
    return tuple(steps)


class Deltas(Generic[AnyStr]):
    """Those of a text that weren't told yet. They are put in while that is locked, and told while it isn't: so a listener may call any
    text, and waits for nobody who waits for it."""

    def __init__(self) -> None:
        # Whether anybody asked for deltas, and whose the changes are that aren't in one yet, of which origin.
        self.are_wanted = self.is_own = False
        self.origin: object = None
        # How many undo managers there are, and how many operations the site had made as the last delta ended.
        self.managers = self.made = 0
        self.listeners: list[Listener] = []
        # What is given each delta while the text is locked, before anybody is told: for bindings, whose texts are shown elsewhere, and
        # for undo managers.
        self.feeds: list[Callable[[list[Delta[AnyStr]]], object]] = []
        self._untold: list[Delta[AnyStr]] = []
        self.queue: deque[tuple[Delta[AnyStr], list[Listener]]] = deque()
        self._turn = threading.Lock()

    def add(self, changes: Iterable[Triple], read: Callable[[int, int], AnyStr], effect: Optional[Effect]) -> None:
        steps = steps_of(composed(changes), read)
        if steps:
            self._untold.append(Delta(self.is_own, steps, self.origin, effect))

    def take(self) -> list[Delta[AnyStr]]:
        untold, self._untold = self._untold, []
        return untold

    def publish(self) -> None:
        """Has the listeners be told, if there are any."""
        if self.listeners:
            deltas = self.take()
            self.queue.extend((delta, [*self.listeners]) for delta in deltas)
            for feed in self.feeds:
                feed(deltas)

    def tell(self) -> None:
        """Tells the listeners, one delta after the other; another thread, or a call of this one, may be about it."""
        while self.queue and self._turn.acquire(blocking=False):
            try:
                while self.queue:
                    delta, listeners = self.queue.popleft()
                    for listener in listeners:
                        self._tell(listener, delta)
            finally:
                self._turn.release()

    def _tell(self, listener: Listener, delta: Delta[AnyStr]) -> None:
        # (what it raises isn't the caller's, who would lose the messages of an edit)
        try:
            if listener in self.listeners:
                listener(delta)
        except Exception:
            logging.getLogger(__name__).exception("a listener of a text failed")
