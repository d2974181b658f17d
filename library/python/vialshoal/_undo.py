"""What is edited here can be taken back, and done again, by the characters' names: nobody else's text is touched."""
from __future__ import annotations

import time
from collections.abc import Callable, Iterable, Iterator
from contextlib import suppress
from dataclasses import dataclass
from typing import Any, NamedTuple, Optional

from ._answers import NameRange
from ._deltas import Delete, Delta, Insert, Retain
from ._names import Effect, both
from ._text import Text

# No message speaks of more ranges.
_MOST_RANGES = 1024
_CAPTURE_TIME = 0.5
_NOTHING = Effect([], [])


@dataclass(frozen=True)
class Undone:
    """What `undo` and `redo` did: what is to be sent; the selection of before the edit that was taken back, or done again; and where the
    text changed, if it did."""

    chunks: list[bytes]
    selection: Any = None
    beg: Optional[int] = None
    end: Optional[int] = None


class _Edit(NamedTuple):
    effect: Effect
    selection: Any


def _cut_up(ranges: list[NameRange]) -> Iterator[list[NameRange]]:
    return (ranges[beg:beg + _MOST_RANGES] for beg in range(0, len(ranges), _MOST_RANGES))


def _stretch(delta: Delta[Any]) -> tuple[int, int]:
    """Where a delta changes a text, in the text after it."""
    at, places = 0, list[int]()
    for step in delta.steps:
        size = 0 if isinstance(step, Delete) else len(step.data) if isinstance(step, Insert) else step.length
        if not isinstance(step, Retain) or step.is_dressed:
            places += [at, at + size]
        at += size
    return places[0], places[-1]


class UndoManager:
    """Takes edits of insertions and deletions back, and does them again, by the characters' names: what others wrote stays, and what they
    deleted. Looks aren't taken back. Edits are one that come within `capture_time` seconds. Those of the `origins` are meant; where
    none are said all but those of other managers. `selection` answers the selection of before an edit that was made just now.

    One thread calls it, which edits; any may take in what others send. Names of edits before it was made aren't known."""

    def __init__(self, text: Text[Any], *, origins: Optional[Iterable[object]] = None, capture_time: float = _CAPTURE_TIME,
                 selection: Callable[[], Any] = lambda: None, now: Callable[[], float] = time.monotonic) -> None:
        self._text, self._capture_time, self._selection, self._now = text, capture_time, selection, now
        self._origins = None if origins is None else [*origins]
        self._done: list[_Edit] = []
        self._undone: list[_Edit] = []
        # When the last edit was made that the next one may join.
        self._joins = float("-inf")
        # What the edit did by which one is taken back.
        self._made: Optional[Delta[Any]] = None
        self._listeners: list[Callable[[UndoManager], object]] = []
        self._end = text._feed(self._edited, self._heard, is_manager=True)

    # -- what is edited

    def _is_tracked(self, origin: object) -> bool:
        return not isinstance(origin, UndoManager) if self._origins is None else origin in self._origins

    def _edited(self, deltas: list[Delta[Any]]) -> None:
        """(The text is locked.)"""
        for delta in deltas:
            if delta.origin is self:
                self._made = delta
            elif delta.is_own and delta.effect not in (None, _NOTHING) and self._is_tracked(delta.origin):
                assert delta.effect is not None
                self._add(delta.effect)

    def _add(self, effect: Effect) -> None:
        now = self._now()
        if not self._done or now - self._joins >= self._capture_time:
            self._done.append(_Edit(effect, self._selection()))
        else:
            last = self._done.pop()
            effect = both(last.effect, effect)
            if effect != _NOTHING:
                self._done.append(_Edit(effect, last.selection))
        self._undone.clear()
        self._joins = now

    def _heard(self, delta: Delta[Any]) -> None:
        if delta.is_own and delta.origin is not self and self._is_tracked(delta.origin):
            self._tell()

    def _tell(self) -> None:
        for listener in [*self._listeners]:
            listener(self)

    # -- what is taken back

    def _reversed(self, effect: Effect) -> list[bytes]:
        self._made = None
        with self._text.batch(self) as chunks:
            for ranges in _cut_up(effect.came):
                self._text.delete_names(ranges)
            for ranges in _cut_up(effect.went):
                self._text.restore_names(ranges)
        return chunks

    def _move(self, source: list[_Edit], target: list[_Edit]) -> Optional[Undone]:
        """Takes back the last edit that still does something, and has it done again by the other list."""
        if self._text.is_in_batch:
            raise TypeError("a batch is open, which is one change")
        self.stop_capturing()
        # (what does nothing may hand out what couldn't be kept before)
        chunks: list[bytes] = []
        while source:
            selection, edit = self._selection(), source[-1]
            chunks += self._reversed(edit.effect)
            source.pop()
            if self._made is not None and self._made.effect is not None:
                target.append(_Edit(self._made.effect, selection))
                self._tell()
                return Undone(chunks, edit.selection, *_stretch(self._made))
        return Undone(chunks) if chunks else None

    def undo(self) -> Optional[Undone]:
        """Takes the last edit back that still does something, if there is one."""
        return self._move(self._done, self._undone)

    def redo(self) -> Optional[Undone]:
        """Does again what was taken back last."""
        return self._move(self._undone, self._done)

    @property
    def can_undo(self) -> bool:
        """Whether edits are there to be taken back."""
        return bool(self._done)

    @property
    def can_redo(self) -> bool:
        """Whether edits are there to be done again."""
        return bool(self._undone)

    def stop_capturing(self) -> None:
        """Has the next edit not be one with the last."""
        self._joins = float("-inf")

    def clear(self) -> None:
        """Forgets all edits."""
        self._done.clear()
        self._undone.clear()
        self._tell()

    def subscribe(self, listener: Callable[[UndoManager], object]) -> Callable[[], None]:
        """Calls a listener when what can be taken back changes. Answers what ends it."""
        self._listeners.append(listener)

        def end() -> None:
            with suppress(ValueError):
                self._listeners.remove(listener)
        return end

    def close(self) -> None:
        """Leaves the text."""
        self._end()
        self._listeners.clear()
