"""The terminal's screen: what is drawn on it, and what comes from its keys."""
import curses
import os
import sys
import time
from collections import deque
from collections.abc import Iterator, Sequence
from contextlib import contextmanager, suppress
from enum import Enum
from typing import NamedTuple

from share.editors.terminal.keys import MOUSE_OFF, MOUSE_ON, PASTES_OFF, PASTES_ON, Event, Keyboard, safe_for_terminal
from share.editors.terminal.layout import AsideRow, ScreenRow, rows_of
from share.log.bell import Bell
from share.log.polling import can_read, ready

# What is read of a paste at a time, and in one read.
MOST_TYPED_AT_ONCE, READ_BYTES = 1 << 18, 1 << 16


class Mark(Enum):
    """Why a stretch is marked: what stands at the end of the row in which it begins, and how it looks."""

    CAME = "+", curses.A_UNDERLINE | curses.A_BOLD
    WENT = "-", 0
    REMARKED = "*", curses.A_UNDERLINE


class Marked(NamedTuple):
    """A stretch that is marked."""

    begin: int
    end: int
    why: Mark


class Screen:
    """A terminal: a window with the last line kept for what the editor says, and the keys."""

    def __init__(self, window: "curses.window"):
        self.window, self.gone = window, False
        self.keys: deque[Event] = deque()
        self.progress: tuple[int, int] | None = None
        self.keyboard = Keyboard()
        self._bell = Bell()
        curses.raw()
        window.keypad(False)

    @contextmanager
    def tells(self) -> Iterator[None]:
        """The terminal marks what is pasted, and tells of the mouse, while this is open."""
        self.window.refresh()
        _send(PASTES_ON + MOUSE_ON)
        try:
            yield
        finally:
            _send(MOUSE_OFF + PASTES_OFF)

    @property
    def height(self) -> int:
        """How many rows a text has."""
        return max(1, self.window.getmaxyx()[0] - 1)

    @property
    def width(self) -> int:
        """How many columns a text has. One more is for a cursor after the last."""
        return max(2, self.window.getmaxyx()[1] - 1)

    def wake(self) -> None:
        """Ends the waiting, from any thread."""
        self._bell.ring()

    def progressed(self, done: int, total: int) -> None:
        """Takes over how much is done of all, from any thread."""
        self.progress = done, total
        self.wake()

    def wait(self, seconds: float) -> None:
        """Waits for a key, to be woken, or for the time's end."""
        due = self.keyboard.due()
        seconds = seconds if due is None else min(seconds, due - time.monotonic())
        try:
            found, _ = ready(seconds, [sys.stdin, self._bell])
            if self._bell.fileno() in found:
                self._bell.silence()
            typed = self._typed() if sys.stdin.fileno() in found else b""
        except (OSError, ValueError):
            self.gone, typed = True, b""
        now = time.monotonic()
        self.keys.extend(self.keyboard.feed(typed, now) if typed else self.keyboard.expire(now))
        self._fit()

    def _typed(self) -> bytes:
        """What the terminal has sent; of a long paste, a good part."""
        out = bytearray()
        while len(out) < MOST_TYPED_AT_ONCE and can_read(sys.stdin, 0):
            if not (more := os.read(sys.stdin.fileno(), READ_BYTES)):
                self.gone = True
                break
            out += more
        return bytes(out)

    def _fit(self) -> None:
        """Follows the terminal's size."""
        try:
            columns, lines = os.get_terminal_size(sys.stdout.fileno())
        except OSError:
            return
        if columns and lines and (lines, columns) != self.window.getmaxyx():
            curses.resizeterm(lines, columns)
            self.window.clear()

    def put(self, line: int, words: str, look: int = 0) -> None:
        """Draws a line."""
        # A window that has become smaller meanwhile is drawn again at the next turn.
        with suppress(curses.error):
            self.window.move(line, 0)
            self.window.clrtoeol()
            self.window.addstr(line, 0, words, look)

    def _mark(self, line: int, row: ScreenRow, begin: int, end: int, look: int = curses.A_REVERSE) -> None:
        """Shows a stretch with a look, as far as it is in a row; of its end at least a cell."""
        if begin <= row.end and end > row.begin:
            first, last = row.column(max(begin, row.begin)), row.column(min(end, row.end))
            with suppress(curses.error):
                self.window.chgat(line, min(first, self.width), max(1, last - first), look)

    def _show_marked(self, line: int, row: ScreenRow, marked: Sequence[Marked], goes_on: bool) -> None:
        """Shows stretches as what they are, and says so at the end of a row where one begins; the last one counts."""
        for begin, end, why in marked:
            sign, look = why.value
            if begin < end:
                self._mark(line, row, begin, end, look)
            if row.begin <= begin < row.end + (not goes_on):
                with suppress(curses.error):
                    self.window.addstr(line, self.width, sign, curses.A_BOLD)

    def _name(self, rows: list[ScreenRow], place: int, name: str) -> None:
        """Writes the name of who has a cursor at a place after the text of its row, or of a row beside it that has room."""
        at = next((line for line, row in enumerate(rows) if row.begin <= place < row.end), len(rows) - 1)
        at = next((line for line, row in enumerate(rows) if place == row.begin), at)
        for line, sign in (at, ""), (at + 1, "\u2191"), (at - 1, "\u2193"):
            if 0 <= line < self.height and (line < len(rows) or line == at + 1):
                used = sum(width for _, _, width in rows[line].cells) + 2 if line < len(rows) else 0
                if self._flag(line, used, sign + safe_for_terminal(name)):
                    return

    def _flag(self, line: int, column: int, words: str) -> bool:
        """Writes words where the line has room for them, and nothing else was written; whether it has."""
        cells = rows_of(words.encode("utf-8", "ignore"), self.width)[0][2]
        size = sum(width for _, _, width in cells)
        with suppress(curses.error):
            if column + size <= self.width and not self.window.instr(line, column).strip():
                self.window.addstr(line, column, "".join(seen for _, seen, _ in cells), curses.A_REVERSE | curses.A_DIM)
                return True
        return False

    def say(self, left: str, right: str = "") -> tuple[int, int]:
        """Draws the status line, with more to the right where there is room, and gives the place after what is
        said. Long words take lines of the text, too."""
        rows = [cells for _, _, cells in rows_of(safe_for_terminal(left).encode(), self.width - 1)][-self.height:]
        size = 0
        for line, cells in enumerate(rows, self.height + 1 - len(rows)):
            words, size = "".join(seen for _, seen, _ in cells), sum(width for _, _, width in cells)
            room = self.width - 1 - size
            end = right if line == self.height and len(right) + 3 <= room else ""
            self.put(line, f" {words}{end.rjust(room)}", curses.A_REVERSE)
        return self.height, 1 + size

    def draw(self, rows: list[ScreenRow], cursor: int, words: tuple[str, str], asks: bool = False,
             others: Sequence[tuple[int, str]] = (), selected: tuple[int, int] | None = None, marked: Sequence[Marked] = ()) -> None:
        """Draws rows of a text with others' cursors, what is marked and what is selected, the status line, and the cursor at its place;
        after a question, where one is asked."""
        at = 0, 0
        for line in range(self.height):
            row = rows[line] if line < len(rows) else None
            self.put(line, "".join(cell for _, cell, _ in row.cells) if row else "", curses.A_DIM if isinstance(row, AsideRow) else 0)
            if row and row.begin <= cursor <= row.end:
                at = line, row.column(cursor)
            if row:
                self._show_marked(line, row, marked, any(one.begin == row.end for one in rows[line + 1:]))
                for begin, end in [*((place, place + 1) for place, _ in others), *([selected] if selected else [])]:
                    self._mark(line, row, begin, end)
        for place, name in others:
            if name and rows and rows[0].begin <= place <= rows[-1].end:
                self._name(rows, place, name)
        said = self.say(*words)
        line, column = said if asks else at
        with suppress(curses.error):
            self.window.move(line, min(column, self.width))
        self.window.refresh()


def _send(sequence: bytes) -> None:
    """Sends a sequence to the terminal, if that is still there."""
    with suppress(OSError):
        os.write(sys.stdout.fileno(), sequence)
