"""Moving the cursor."""
from collections.abc import Callable

from share.editors.terminal.keys import Button, Mouse
from share.editors.terminal.layout import cluster_before
from share.editors.terminal.screen import Screen
from share.editors.terminal.view import View
from share.text.change import LINE_END

# By how many rows the wheel scrolls.
WHEEL = {Button.WHEEL_UP: -3, Button.WHEEL_DOWN: 3}


class Moves:
    """Moves of the cursor. Those by rows keep the column in which they began."""

    def __init__(self, view: View, screen: Screen):
        self._view, self._screen = view, screen
        self._column: int | None = None

    def forget_column(self) -> None:
        """The next move by rows begins where the cursor is then."""
        self._column = None

    def by(self, where: Callable[[bytes, int], int]) -> None:
        """Moves to where a function of the text and the cursor says."""
        self._view.go_to(where(self._view.text, self._view.cursor))

    def home(self) -> None:
        """Moves to the row's begin."""
        self._view.go_to(self._view.row().begin)

    def end(self) -> None:
        """Moves to the row's end."""
        row, text = self._view.row(), self._view.text
        # Where a long line goes on in the row below, the place after its last character is there.
        self._view.go_to(cluster_before(text, row.end) if self._view.layout.goes_on(row) else row.end)

    def rows(self, count: int) -> None:
        """Moves by rows."""
        row = self._view.row()
        self._column = row.column(self._view.cursor) if self._column is None else self._column
        self._view.go_to(self._view.layout.moved(row, count).position(self._column))

    def pages(self, count: int) -> None:
        """Moves by pages, and the screen with the cursor. A row of the page before stays."""
        rows = count * max(1, self._screen.height - 1)
        self.rows(rows)
        self._view.scroll(rows)

    def wheel(self, rows: int) -> None:
        """Scrolls, and has the cursor stay on the screen."""
        view = self._view
        view.scroll(rows)
        shown = view.layout.below(view.layout.row_at(view.top), self._screen.height)
        row = view.row()
        if row.begin < shown[0].begin or row.begin > shown[-1].begin:
            self._column = row.column(view.cursor) if self._column is None else self._column
            self._view.go_to((shown[0] if row.begin < shown[0].begin else shown[-1]).position(self._column))

    def mouse(self, mouse: Mouse) -> None:
        """Goes where the mouse is pressed, selects what it is drawn over, and scrolls by its wheel."""
        if mouse.does in WHEEL:
            self.wheel(WHEEL[mouse.does])
        elif (place := self._view.at(mouse.line, mouse.column)) is not None:
            self._view.go_to(place)
            if mouse.does is Button.DOWN:
                self._view.select_from(place)
        if mouse.does is Button.UP and not self._view.selected():
            self._view.unmark()

    def to_line(self, number: str) -> None:
        """Moves to the begin of a line, which are counted from 1."""
        if not number.isdecimal():
            return
        place, text = 0, self._view.text
        for _ in range(min(int(number), text.count(LINE_END) + 1) - 1):
            place = text.index(LINE_END, place) + 1
        self._view.go_to(place)
