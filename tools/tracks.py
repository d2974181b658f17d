"""A screen's tracks as plain lists: the viewer that holds each row, from the section "The screen" of docs/FORMATS.md alone."""
from __future__ import annotations

import random

from tools.talking import Run, running

NO_ROW, NO_ROOM, NO_VIEWER = "refused 11", "refused 14", "refused 15"
TRACKS = ("user", "system")
HEIGHTS = (8, 9, 12, 24, 50, 100)
STEPS = 300
# No viewer is lower.
LEAST = 2


class Tracks:
    """What site 1's screen is to have, which is empty at first."""

    def __init__(self, run: Run, height: int) -> None:
        self.run, self.height = run, height
        self.rows: dict[str, list[int]] = {track: [] for track in TRACKS}
        self.opened = 0

    def viewers(self, track: str) -> list[int]:
        """A track's viewers, from the top."""
        return list(dict.fromkeys(self.rows[track]))

    def spans(self, track: str) -> dict[int, range]:
        rows = self.rows[track]
        return {viewer: range(rows.index(viewer), rows.index(viewer) + rows.count(viewer)) for viewer in self.viewers(track)}

    def track_of(self, viewer: int) -> str | None:
        return next((track for track in TRACKS if viewer in self.rows[track]), None)

    def open(self, track: str, row: int | None) -> bool:
        """Opens a viewer of text 1, if there is room."""
        refusal = self.divide(track, row)
        self.run.wants(f"1 open {track} 1{'' if row is None else f' {row}'}", refusal or f"viewer {self.opened}")
        return not refusal

    def divide(self, track: str, row: int | None) -> str:
        """Gives a new viewer its rows; why not, if it can't be."""
        if row is not None and row >= self.height:
            return NO_ROW
        spans = self.spans(track)
        if spans:
            tallest = max(spans.values(), key=lambda span: (len(span), -span.start))
            row = tallest.start + len(tallest) // 2 if row is None else row
            held = next(span for span in spans.values() if row in span)
            if len(held) < 2 * LEAST:
                return NO_ROOM
            begin, end = min(max(row, held.start + LEAST), held.stop - LEAST), held.stop
        else:
            begin, end = 0, self.height
            self.rows[track] = [0] * self.height
        self.opened += 1
        self.rows[track][begin:end] = [self.opened] * (end - begin)
        return ""

    def close(self, viewer: int) -> None:
        """The rows go to the viewer above, or of the topmost to the one below."""
        track = self.track_of(viewer)
        self.run.wants(f"1 close {viewer}", "ok" if track else NO_VIEWER)
        if track:
            viewers = self.viewers(track)
            at = viewers.index(viewer)
            heir = viewers[at - 1 if at else 1] if len(viewers) > 1 else None
            self.rows[track] = [] if heir is None else [heir if held == viewer else held for held in self.rows[track]]

    def move(self, viewer: int, row: int) -> None:
        """Moves the border to the viewer above, where both keep their least."""
        track = self.track_of(viewer)
        refusal = NO_VIEWER if track is None else NO_ROW if row >= self.height else ""
        if track and not refusal:
            spans, viewers = self.spans(track), self.viewers(track)
            at = viewers.index(viewer)
            above = spans[viewers[at - 1]] if at else range(0)
            if not at or not above.start + LEAST <= row <= spans[viewer].stop - LEAST:
                refusal = NO_ROOM
            else:
                border = range(above.start, spans[viewer].stop)
                self.rows[track][border.start : border.stop] = [viewers[at - 1] if it < row else viewer for it in border]
        self.run.wants(f"1 move {viewer} {row}", refusal or "ok")

    def check(self) -> None:
        lines = [
            f"viewer {viewer} {track} {span.start} {len(span)} 1" for track in TRACKS for viewer, span in self.spans(track).items()
        ]
        self.run.wants("1 views", *lines, "ok")


def play(command: str, draw: random.Random) -> None:
    """Opens, closes and moves viewers at random, some that aren't there and some to rows below the screen; and fills both tracks."""
    height = draw.choice(HEIGHTS)
    with running(command, 1, ["--height", str(height)]) as run:
        tracks = Tracks(run, height)
        for _ in range(STEPS):
            row, viewer, act = draw.randrange(height + 2), draw.randint(1, tracks.opened + 2), draw.randrange(8)
            if act < 3:
                tracks.open(draw.choice(TRACKS), draw.choice((None, row)))
            elif act < 5:
                tracks.close(viewer)
            else:
                tracks.move(viewer, row)
            tracks.check()
        for track in TRACKS:
            while tracks.open(track, None):
                tracks.check()
