"""Which edits of an editor are one edit of undo: keys that follow one another where the last one left the cursor."""
import os
import time
from collections.abc import Callable, Sequence

from share.text.change import LINE_END, Change

PAUSE_VARIABLE = "VIALSHOAL_PAUSE"
# The silence that ends an edit, in seconds, and how many keys an edit has at most.
PAUSE_SECONDS, MOST_KEYS = 1.0, 20


def pause_seconds(otherwise: float = PAUSE_SECONDS) -> float:
    """The silence that ends an edit, or something else that is typed, as this person has set it."""
    try:
        return float(os.environ.get(PAUSE_VARIABLE, ""))
    except ValueError:
        return otherwise


class Coalescing:
    """The keys that an editor's next one may go on from. The engine's thread alone calls it."""

    def __init__(self, clock: Callable[[], float] = time.monotonic):
        self._clock, self._pause = clock, pause_seconds()
        # Where the last key left the cursor, whether it deleted, how many keys are one edit by now, and when the last one came.
        self._end: int | None = None
        self._deleted = False
        self._keys, self._last = 0, 0.0

    def joins(self, changes: Sequence[Change], old: bytes, told: object) -> bool:
        """Whether an edit is one with the one before it, which its editor may tell; `old` is what the last change takes away."""
        now, keys = self._clock(), _keys(changes, old)
        replaces, deletes = bool(old and changes[0].new), not changes[0].new
        goes_on = (not replaces and 0 < keys <= MOST_KEYS - self._keys and deletes is self._deleted and now - self._last <= self._pause
                   and self._end in (changes[0].begin, changes[0].end))
        joins = told if isinstance(told, bool) else goes_on
        # An edit that is more than a key is one that no key goes on from.
        self._keys = (self._keys if joins else 0) + (keys or MOST_KEYS)
        self._deleted, self._last = deletes, now
        return joins

    def ended_at(self, end: int, changes: Sequence[Change]) -> None:
        """Says where the edit left the cursor; a line's end ends what goes on."""
        self._end = None if _ends_line(changes) else end

    def keys_after(self, changes: Sequence[Change]) -> tuple[int, bool] | None:
        """Return the number of keys that are one edit by now and whether they delete; None if no key goes on from these changes."""
        return None if _ends_line(changes) else (self._keys, self._deleted)

    def goes_on_at(self, place: int, keys: int, deleted: bool, silence: float) -> None:
        """Go on from keys that another engine made into one edit, given the place and the seconds since the last one."""
        self._end, self._keys, self._deleted, self._last = place, keys, deleted, self._clock() - silence

    def cursor_is(self, place: int) -> None:
        """Says where the cursor is; elsewhere another edit begins."""
        if place != self._end:
            self.stop()

    def moved(self, change: Change) -> None:
        """Moves the place along with a change."""
        self._end = None if self._end is None else change.moved(self._end)

    def stop(self) -> None:
        """Says that nothing goes on."""
        self._end = None


def _ends_line(changes: Sequence[Change]) -> bool:
    return any(LINE_END in one.new for one in changes)


def _keys(changes: Sequence[Change], old: bytes) -> int:
    """How many keys have made an edit, where it is what keys do: characters that came in, or one that was deleted or took the place
    of what was selected."""
    many = len((changes[0].new or old).decode("utf-8", "replace")) if len(changes) == 1 else 0
    return many if not old or many == 1 else 0
