"""What texts answer, and how they refuse."""
from __future__ import annotations

import enum
from dataclasses import dataclass
from typing import Literal, Optional

from . import _library as c


class Refused(Exception):
    """A text refused what it was asked. `number` says why (docs/FORMATS.md, "Refusals"). `messages` are those of the part
    of an edit that stands, and `done` is how many operations of a chunk were handed in, which stand; mostly nothing does."""

    def __init__(self, number: int, messages: Optional[list[bytes]] = None, done: int = 0) -> None:
        super().__init__(c.REASONS.get(number, f"number {number}"))
        self.number = number
        self.messages = messages or []
        self.done = done


class Misused(Refused, ValueError):
    """The call was given what no text can have: `number` is above 100, and nothing was done."""


class FrontsDiffer(Refused):
    """A site has made operations elsewhere that aren't those here: up to the number `seq` others (number 3), or `seq`, which isn't
    here (8). Its file was copied, or an older one put back, and both went on: one of them has to go on as another site."""

    def __init__(self, number: int, site: int, seq: int) -> None:
        super().__init__(number)
        self.site, self.seq = site, seq

    def __str__(self) -> str:
        what = "up to {} are others there than here" if self.number == c.CONFLICT else "from {} on were made elsewhere"
        return f"operations of site {self.site} {what.format(self.seq)}: two copies of its file went on"


class Damaged(ValueError):
    """The file of a text was changed by something else, or cut off. Nothing is done with it."""


def done(number: int) -> None:
    """Raises what the number of a call says."""
    if number:
        raise (Misused if number > 100 else Refused)(number)


class TakingKind(enum.Enum):
    """What became of a message."""

    TAKEN = 1
    REPEAT = 2
    WAITS = 3


@dataclass(frozen=True)
class Taking:
    """What became of a message, and of those that waited for it."""

    kind: TakingKind
    drained: int
    dropped: int
    stopped: bool


@dataclass(frozen=True)
class Settling:
    """How many messages that waited were taken in, and how many thrown away."""

    drained: int
    dropped: int
    stopped: bool


@dataclass(frozen=True)
class Unpacking:
    """What became of a chunk's operations: how many were taken in, those that had waited among them; how many are held
    already, or wait already; how many were put among those that wait. And whether taking in what waited ended early."""

    taken: int
    known: int
    waiting: int
    stopped: bool


@dataclass(frozen=True, order=True)
class Name:
    """The lasting name of a character."""

    site: int
    offset: int


@dataclass(frozen=True, order=True)
class NameRange:
    """The names of neighbouring characters: a site, an offset, and how many from there on."""

    site: int
    offset: int
    length: int


@dataclass(frozen=True)
class Place:
    """How many bytes, or code points, are this character or stand before it, and whether it is shown itself."""

    pos: int
    is_shown: bool


# Before a place, or after it.
Side = Literal[-1, 1]


@dataclass(frozen=True)
class Anchor:
    """A place in a text that stays with the character before it (side -1) or after it (1), wherever that goes; of site 0 it is the text's
    begin or end."""

    site: int
    offset: int
    side: Side


class ChangeKind(enum.Enum):
    """What a change did: its range is that of the text after an insertion, else of the text before."""

    INSERT = 1
    DELETE = 2
    REPLACE = 3


@dataclass(frozen=True)
class Change:
    """A change of what is shown."""

    kind: ChangeKind
    beg: int
    end: int


@dataclass(frozen=True)
class Replacement:
    """How many bytes are deleted, from 0 on, and how many inserted at 0 then."""

    deleted: int
    inserted: int


@dataclass(frozen=True)
class Looks:
    """What characters look like."""

    font: str = "Oberon10.Scn.Fnt"
    colour: int = 1
    offset: int = 0


@dataclass(frozen=True)
class Run:
    """A range of characters that look alike, as far as it goes."""

    beg: int
    end: int
    font: str
    colour: int
    offset: int

    @property
    def looks(self) -> Looks:
        return Looks(self.font, self.colour, self.offset)
