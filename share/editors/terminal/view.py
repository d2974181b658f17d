"""What is seen of a note."""
from collections.abc import Sequence

from share.editors.note import EngineNote
from share.editors.terminal.layout import AsideRow, Layout, ScreenRow, asides, cluster_before
from share.editors.terminal.screen import Mark, Marked, Screen
from share.text.change import boundary

# The most stretches that are marked on a screen.
MOST_MARKED = 500


class View:
    """A note as it was when its thread had nothing to do, laid out in rows, of which some are on the screen."""

    def __init__(self, note: EngineNote, screen: Screen):
        self._note, self._screen = note, screen
        # The rows that were drawn last.
        self._shown: list[ScreenRow] = []
        # What is shown below a position, in lines; and how many rows of the text the status line takes meanwhile.
        self.below: tuple[int, Sequence[str]] | None = None
        self.covered = 0
        self.look()

    def look(self) -> None:
        """Takes over what the note is now."""
        note = self._note
        self.text, self.cursor, self.top = bytes(note.text), note.cursor, note.top
        # Where others' cursors are, and whose; and the other end of what is selected.
        self.others, self._anchor = note.others(), note.anchor
        self.threads, self.many_open = note.threads.found, note.threads.many_open
        self.gathered, self.changes = note.gathering.now, note.changes.found
        self.layout = Layout(self.text, self._screen.width)

    def go_to(self, position: int) -> None:
        """Puts the cursor at a position."""
        self._note.moved_to(position)
        self.look()

    def scroll(self, rows: int) -> None:
        """Scrolls by some rows, down or up."""
        self._note.top = self.layout.moved(self.layout.row_at(self.top), rows).begin
        self.look()

    def selected(self) -> tuple[int, int] | None:
        """The stretch that is selected."""
        if self._anchor is None or self._anchor == self.cursor:
            return None
        return min(self._anchor, self.cursor), max(self._anchor, self.cursor)

    def at(self, line: int, column: int) -> int | None:
        """The position at a cell of the screen as it was drawn last; None below the text's lines."""
        if not self._shown or line >= self._screen.height:
            return None
        row = self._shown[min(line, len(self._shown) - 1)]
        if isinstance(row, AsideRow):
            return None
        place = row.position(column) if line < len(self._shown) else row.end
        # Where a long line goes on in the row below, the place after its last character is there.
        place = cluster_before(self.text, place) if place == row.end and self.layout.goes_on(row) else place
        # The text may be another one since it was drawn.
        return boundary(self.text, min(place, len(self.text)))

    def marked(self) -> list[Marked]:
        """The stretches on the screen that changed, and those that something open is said of, or is to be."""
        shown = [row for row in self._shown if not isinstance(row, AsideRow)]
        if not shown:
            return []
        begin, end = shown[0].begin, shown[-1].end
        changed = [Marked(one.begin, one.end, Mark.WENT if one.gone else Mark.CAME) for one in self.changes or ()]
        own = [Marked(*self.gathered[:2], Mark.REMARKED)] if self.gathered else []
        said = [Marked(one.begin, one.end, Mark.REMARKED) for one in self.threads
                if one.begin is not None and one.end is not None and one.is_open]
        return [one for some in (changed, own + said) for one in some if one.begin <= end and one.end >= begin][:MOST_MARKED]

    def select_from(self, position: int) -> None:
        """Begins to select at a position."""
        self._note.anchor = position
        self.look()

    def mark(self) -> None:
        """Begins to select at the cursor, or ends that."""
        self._note.anchor = self._note.cursor if self._note.anchor is None else None
        self.look()

    def unmark(self) -> None:
        """Selects nothing."""
        self._note.anchor = None
        self.look()

    def row(self) -> ScreenRow:
        """The row of the cursor."""
        return self.layout.row_at(self.cursor)

    def visible(self, note_is_idle: bool) -> list[ScreenRow]:
        """The rows on the screen, which follow the cursor; an idle note is told where they begin."""
        if self.layout.width != self._screen.width:
            self.layout = Layout(self.text, self._screen.width)
        layout, height, row = self.layout, self._screen.height, self.row()
        first = layout.row_at(min(self.top, len(self.text)))
        rows = layout.below(first, height)
        if row.begin not in [one.begin for one in rows]:
            above, last = layout.before(first), layout.before(row)
            # One step past an edge scrolls by a row; a jump puts the cursor's row in the middle.
            up = 0 if above == row else height - 1 if last == rows[-1] else height // 2
            first = layout.moved(row, -up)
            rows = layout.below(first, height)
        self.top = first.begin
        if note_is_idle:
            self._note.top = first.begin
        self._shown = self._with_what_is_below(rows)
        return self._shown

    def _with_what_is_below(self, rows: list[ScreenRow]) -> list[ScreenRow]:
        """The rows, with what is shown below one of them, for which others give way."""
        if self.below is None:
            return rows
        place, lines = self.below
        height = max(2, self._screen.height - self.covered)
        number = next((number for number, row in reversed([*enumerate(rows)]) if row.begin <= place <= row.end), len(rows) - 1)
        said = asides(lines, self._screen.width)[:height - 1]
        first = max(0, min(number, number + 1 + len(said) - height))
        return [*rows[first:number + 1], *said, *rows[number + 1:]][:self._screen.height]
