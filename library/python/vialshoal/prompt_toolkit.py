"""A text in a buffer of prompt_toolkit: what is typed there goes into the text, what others do is shown, and undo takes back what was
typed there alone.

The buffer is used by the thread of its application; the text may be changed by any."""
from __future__ import annotations

import math
import re
import threading
from asyncio import AbstractEventLoop
from collections import deque
from collections.abc import Callable, Sequence
from typing import Any, Optional

from prompt_toolkit.application.current import get_app_or_none
from prompt_toolkit.buffer import Buffer
from prompt_toolkit.document import Document

from ._answers import Refused
from ._deltas import Delete, Delta, Insert
from ._text import Text
from ._undo import Undone, UndoManager

# What no UTF-8 has, but for what stands for a byte that is of no character.
_HALF = re.compile("[\ud800-\udc7f\udd00-\udfff]")
_BYTE = re.compile("[\udc80-\udcff]")


def _difference(was: str, now: str, cursor: int) -> tuple[int, int, str]:
    """What makes a text another one: a range, and what comes in its place. Of equal characters those at the cursor were typed."""
    same = min(len(now) - cursor, len(was))
    if same < 0 or was[len(was) - same:] != now[len(now) - same:]:
        same = 0
        most = min(len(was), len(now))
        while same < most and was[-1 - same] == now[-1 - same]:
            same += 1
    most = min(len(was), len(now)) - same
    begin = next((at for at in range(most) if was[at] != now[at]), most)
    return begin, len(was) - same, now[begin:len(now) - same]


def _moved(place: int, delta: Delta[str]) -> int:
    """Where a place is after a delta. What comes in just there comes after it."""
    at = now = 0
    for step in delta.steps:
        if at >= place:
            break
        if isinstance(step, Insert):
            now += len(step.data)
            continue
        passed = min(step.length, place - at)
        at += passed
        if not isinstance(step, Delete):
            now += passed
    return now + place - at


def _left_of(beg: int, end: int, deltas: Sequence[Delta[str]]) -> list[tuple[int, int]]:
    """Where the characters of a range are after deltas, as far as they are there."""
    ranges = [(beg, end)]
    for delta in deltas:
        ranges = [found for one in ranges for found in _parts(*one, delta)]
    return ranges


def _parts(beg: int, end: int, delta: Delta[str]) -> list[tuple[int, int]]:
    found, at, now = [], 0, 0
    for step in delta.steps:
        if isinstance(step, Insert):
            now += len(step.data)
            continue
        if not isinstance(step, Delete):
            found.append((max(beg, at) - at + now, min(end, at + step.length) - at + now))
            now += step.length
        at += step.length
    found.append((max(beg, at) - at + now, end - at + now))
    return [(first, last) for first, last in found if first < last]


def _sent(undone: Optional[Undone]) -> Optional[list[bytes]]:
    return None if undone is None else undone.chunks


class BufferBinding:
    """A text and a buffer, until it is closed. `send` is called with the chunks of what was typed, taken back or done again, and
    `on_error` with what refuses that, or can't keep it, which is raised otherwise; the buffer shows what the text has then. `loop` is the
    application's, which is found where it runs as the buffer is used."""

    def __init__(self, text: Text[str], buffer: Buffer, *, send: Optional[Callable[[list[bytes]], object]] = None,
                 on_error: Optional[Callable[[Exception], object]] = None, loop: Optional[AbstractEventLoop] = None) -> None:
        if text.units != "code points":
            raise TypeError('a buffer counts code points: the text is to have units="code points"')
        self._text, self._buffer, self._send, self._on_error = text, buffer, send, on_error
        self._thread, self._loop = threading.get_ident(), loop
        self._is_showing = False
        self._shown = ""
        # What the buffer doesn't show yet.
        self._feed: deque[Delta[str]] = deque()
        with text._lock:
            self._end = text._feed(self._feed.extend, self._heard, is_manager=False)
            self._shown = text[:]
        # (keys part what is taken back, and time doesn't)
        self._undo = UndoManager(text, origins=[self], capture_time=math.inf)
        self._show(self._shown, 0)
        buffer.on_text_changed += self._typed
        # (what keys call, each before it edits, or to take edits back; and sessions, before they ask and after that)
        self._instead: dict[str, Callable[..., object]] = {
            "undo": self.undo, "redo": self.redo, "save_to_undo_stack": self._part, "reset": self._reset}
        for name, method in self._instead.items():
            setattr(buffer, name, method)

    def close(self) -> None:
        """Leaves the buffer as it is, and the text."""
        self._end()
        self._undo.close()
        self._buffer.on_text_changed -= self._typed
        for name in self._instead:
            delattr(self._buffer, name)
        self._instead.clear()

    # -- what is typed

    def _part(self, clear_redo_stack: bool = True) -> None:
        self._undo.stop_capturing()

    def _reset(self, *words: Any, **named: Any) -> None:
        type(self._buffer).reset(self._buffer, *words, **named)
        self.refresh(anew=True, cursor=len(self._text))

    def _typed(self, _: Buffer) -> None:
        if self._is_showing:
            return
        self._find_loop()
        was, self._shown = self._shown, self._buffer.text
        beg, end, put = _difference(was, self._shown, self._buffer.cursor_position)
        put = _HALF.sub("\N{REPLACEMENT CHARACTER}", put)
        self._does(lambda: self._edit(beg, end, put))

    def _does(self, does: Callable[[], Optional[list[bytes]]]) -> None:
        """Does something with the text, shows that, and sends it."""
        chunks: Optional[list[bytes]] = None
        try:
            chunks = does()
        except (Refused, OSError) as why:
            self.refresh(anew=True)
            if self._on_error is None:
                raise
            self._on_error(why)
        # (another thread may be about telling)
        self.refresh()
        if chunks and self._send is not None:
            self._send(chunks)

    def _edit(self, beg: int, end: int, put: str) -> list[bytes]:
        cursor = self._buffer.cursor_position - beg
        with self._text.batch(self) as chunks:
            # (others may have changed the text since it was shown)
            deltas = [*self._feed]
            self._feed.clear()
            ranges = _left_of(beg, end, deltas)
            for delta in deltas:
                beg = _moved(beg, delta)
            for first, last in reversed(ranges):
                self._text.delete(first, last)
            if put:
                self._text.insert(beg, put)
        is_same = not deltas and not _BYTE.search(put) and put == self._shown[beg:beg + len(put)]
        self.refresh(anew=not is_same, cursor=None if is_same else beg + cursor)
        return chunks

    # -- what is shown

    def _find_loop(self) -> None:
        app = get_app_or_none()
        if self._loop is None and app is not None:
            self._loop = app.loop

    def _heard(self, delta: Delta[Any]) -> None:
        if delta.origin is self:
            return
        if threading.get_ident() == self._thread:
            self.refresh()
        elif self._loop is not None:
            self._loop.call_soon_threadsafe(self.refresh)

    def refresh(self, *, anew: bool = False, cursor: Optional[int] = None) -> None:
        """Shows what others did since the buffer was changed last; `anew` all that the text has."""
        with self._text._lock:
            deltas = [*self._feed]
            self._feed.clear()
            # (what was typed here is there already)
            if self._feed_is_own(deltas) and not anew:
                return
            shown = self._text[:]
        place = self._buffer.cursor_position if cursor is None else cursor
        for delta in deltas:
            if delta.origin is not self:
                place = _moved(place, delta)
        self._show(shown, place, [it for it in deltas if it.origin is not self])

    def _feed_is_own(self, deltas: list[Delta[str]]) -> bool:
        return all(delta.origin is self for delta in deltas)

    def _show(self, shown: str, place: int, deltas: Sequence[Delta[str]] = ()) -> None:
        selection = self._buffer.selection_state
        self._shown, self._is_showing = shown, True
        try:
            self._buffer.set_document(Document(shown, min(place, len(shown))), bypass_readonly=True)
        finally:
            self._is_showing = False
        if selection is not None:
            for delta in deltas:
                selection.original_cursor_position = _moved(selection.original_cursor_position, delta)
            self._buffer.selection_state = selection

    # -- undo

    def undo(self) -> None:
        """Takes back what was typed last that still does something."""
        self._does(lambda: _sent(self._undo.undo()))

    def redo(self) -> None:
        """Does again what was taken back last."""
        self._does(lambda: _sent(self._undo.redo()))
