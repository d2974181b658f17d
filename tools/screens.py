"""A site's viewers follow what three sites write at random: after each event its screen is what a plain program draws of the text."""
from __future__ import annotations

import random
import re
from dataclasses import dataclass
from typing import NamedTuple

from tools.packed.events import spelled
from tools.talking import Run, edit, running

SITES = (1, 2, 3)
STEPS = 300
WIDTHS, HEIGHTS = (20, 24, 57, 80, 200), (8, 9, 12, 24, 100)
MENU = "V{} T1 | System.Close Edit.Recall Share.Forget"
# What is typed: ends of lines, a tab, and bytes that show as no sign.
TYPED = (b"ab\rc", b"\td\r", b"\x01e\rf", b"\xe9\rg", b"\r", b"h", b"i\\", b"j" * 30)
ESCAPE = re.compile(r"\\(..)")


class Viewer(NamedTuple):
    """A viewer of text 1, by its line of `views`."""

    number: int
    track: str
    top: int
    height: int


@dataclass
class Screen:
    """The screen of site 1, and which character each viewer shows its first line by: its name, or none for the root."""

    run: Run
    width: int
    height: int
    draw: random.Random
    anchors: dict[int, str | None]

    def text(self) -> bytes:
        _, _, *rest = self.run.text(1).split(" ", 2)
        return ESCAPE.sub(lambda found: chr(int(found[1], 16)), "".join(rest)).encode("latin-1")

    def viewers(self) -> list[Viewer]:
        words = [line.split() for line in self.run.ask("1 views")[:-1]]
        return [Viewer(int(number), track, int(top), int(height)) for _, number, track, top, height, _ in words]

    def columns(self, track: str) -> range:
        """Those of a track."""
        border = self.width // 8 * 5
        return range(border) if track == "user" else range(border, self.width)

    def place(self, column: int, row: int) -> int:
        """The position of a cell."""
        self.run.wants(f"1 point {column} {row}", "ok")
        return int(self.run.ask("1 marks")[0].split()[3])

    def check(self) -> None:
        """All cells are what the text's lines are drawn as."""
        data, viewers = self.text(), self.viewers()
        cells = [[" "] * self.width for _ in range(self.height)]
        for viewer in viewers:
            columns, rows = self.columns(viewer.track), self.rows(viewer, data)
            for row, line in enumerate([MENU.format(viewer.number), *rows], viewer.top):
                cells[row][columns.start : columns.stop] = line.ljust(len(columns))[: len(columns)]
        self.run.wants("1 show", *(f"|{''.join(row)}|" for row in cells))

    def rows(self, viewer: Viewer, data: bytes) -> list[str]:
        """The lines that a viewer is to show, from the one of its character on, of which cells have their positions."""
        lines, first = data.split(b"\r"), self.first_line(viewer, data)
        begins = [0]
        for line in lines:
            begins.append(begins[-1] + len(line) + 1)
        columns, row = self.columns(viewer.track), self.draw.randrange(1, viewer.height)
        column, number = self.draw.choice((0, len(columns) - 1, self.draw.randrange(len(columns)))), first + row - 1
        place = begins[number] + min(column, len(lines[number])) if number < len(lines) else len(data)
        if (told := self.place(columns.start + column, viewer.top + row)) != place:
            raise self.run.fault(f"the cell {column} {row} of viewer {viewer.number} is at {told}, and not {place}")
        return [sign_of(line) for line in lines[first : first + viewer.height - 1]]

    def first_line(self, viewer: Viewer, data: bytes) -> int:
        """The number of the line of a viewer's character; where that is hidden, the line at whose begin the first cell is."""
        name = self.anchors[viewer.number]
        if name is None:
            return 0
        found = self.run.ask(f"1 where 1 {name}")[:-1]
        if found:
            return data[: int(found[0].split(" ")[2]) + 1].count(b"\r")
        begin = self.place(self.columns(viewer.track).start, viewer.top + 1)
        if begin and data[begin - 1 : begin] != b"\r":
            raise self.run.fault(f"viewer {viewer.number} begins in a line, at {begin}")
        return data[:begin].count(b"\r")

    def scroll(self, viewer: Viewer) -> None:
        data = self.text()
        lines = data.split(b"\r")
        number = self.draw.choice((0, self.draw.randrange(len(lines)), self.draw.randrange(60)))
        self.run.wants(f"1 scroll {viewer.number} {number}", "ok")
        begin = sum(len(line) + 1 for line in lines[:min(number, len(lines) - 1)])
        self.anchors[viewer.number] = self.run.names(1, begin - 1, begin)[0] if begin else None

    def open(self) -> None:
        """Opens a viewer somewhere, unless there is no room."""
        track, row = self.draw.choice(("user", "system")), self.draw.choice(("", f" {self.draw.randrange(self.height)}"))
        [answer] = self.run.ask(f"1 open {track} 1{row}", 1)
        if answer.startswith("viewer "):
            self.anchors[int(answer.split()[1])] = None
        elif answer != "refused 14":
            raise self.run.fault(f"an opening is answered {answer!r}")

    def arrange(self) -> None:
        """Scrolls, moves, closes or opens a viewer, now and then."""
        viewers, chance = self.viewers(), self.draw.randrange(12)
        if not viewers or chance == 0:
            self.open()
            return
        viewer = self.draw.choice(viewers)
        if chance in (1, 2):
            self.scroll(viewer)
        elif chance == 3:
            self.run.ask(f"1 move {viewer.number} {self.draw.randrange(self.height)}")
        elif chance == 4 and len(viewers) > 2:
            self.run.wants(f"1 close {viewer.number}", "ok")


def sign_of(line: bytes) -> str:
    """What a line is drawn as."""
    return "".join(" " if byte == 9 else chr(byte) if 0x20 <= byte <= 0x7E else "?" for byte in line)


def write(run: Run, heard: dict[int, int], draw: random.Random) -> None:
    """A site types, edits, hears messages in their turn, or any, or takes over all that another has."""
    site, act = draw.choice(SITES), draw.randrange(16)
    if act < 6:
        run.ask(f"{site} type 1 {draw.randint(0, run.length(site))} {spelled(draw.choice(TYPED))}")
    elif act < 10:
        edit(run, site, draw)
    elif act == 10:
        run.ask(f"{site} merge 1 {draw.choice(SITES)}")
    elif act < 15:
        for _ in range(min(5, len(run.sent) - heard[site])):
            heard[site] += 1
            run.ask(f"{site} take 1 m{heard[site]}")
    elif run.sent:
        run.ask(f"{site} take 1 m{draw.randint(1, len(run.sent))}")


def play(command: str, draw: random.Random) -> None:
    width, height = draw.choice(WIDTHS), draw.choice(HEIGHTS)
    with running(command, len(SITES), ["--width", str(width), "--height", str(height)]) as run:
        screen, heard = Screen(run, width, height, draw, {}), dict.fromkeys(SITES, 0)
        for _ in range(STEPS):
            write(run, heard, draw)
            screen.check()
            screen.arrange()
            screen.check()
