"""What a text shows, to be read."""
from __future__ import annotations

import ctypes
import operator
import threading
from collections.abc import Callable, Iterator
from ctypes import byref, c_uint64
from functools import wraps
from itertools import groupby
from types import TracebackType
from typing import Any, AnyStr, Concatenate, Generic, Literal, NoReturn, Optional, ParamSpec, TypeVar, Union, cast, overload

from . import _given as given
from . import _library as c
from ._answers import Anchor, Misused, Name, NameRange, Place, Run, Side, done
from ._code_points import CodePoints, begins, decoded, encoded

# What positions and lengths count.
Units = Literal["bytes", "code points"]
# No message is longer than this.
MESSAGE = 10_297
# How much of a text its repr has.
_SEEN = 40
S = TypeVar("S", bound="Shown[Any]")
P = ParamSpec("P")
R = TypeVar("R")


def alone(method: Callable[Concatenate[S, P], R]) -> Callable[Concatenate[S, P], R]:
    """A call that waits for the one before it on the same text, whichever thread makes them."""
    @wraps(method)
    def called(self: S, /, *words: P.args, **named: P.kwargs) -> R:
        with self._lock:
            return method(self, *words, **named)
    return called


class Shown(Generic[AnyStr]):
    """What a text shows, now (a `Text`) or as it was (a `Past`), to be read. Of a `Shown[str]`, which is one of the units "code
    points", all positions and lengths count code points. Threads may share it: its calls are made one after the other."""

    _lock: threading.RLock
    _reads: c.Reads
    # The same calls, which let other threads run meanwhile.
    _long_reads: c.Reads

    def _begin(self, units: Units) -> None:
        if units not in ("bytes", "code points"):
            raise ValueError(f"no units: {units!r}")
        if hasattr(self, "_handle"):
            self.close()
        self._lock = threading.RLock()
        self._points = CodePoints() if units == "code points" else None
        self._handle = self._reads.handle()
        self._long = c_uint64()
        self._room = ctypes.create_string_buffer(MESSAGE)

    @property
    def units(self) -> Units:
        """What positions and lengths count."""
        return "bytes" if self._points is None else "code points"

    @alone
    def close(self) -> None:
        """Frees it; all other calls are refused after this."""
        self._long_reads.free(self._handle)

    def __del__(self) -> None:
        if hasattr(self, "_handle"):
            self.close()

    def __enter__(self: S) -> S:
        return self

    def __exit__(self, kind: Optional[type[BaseException]], error: Optional[BaseException],
                 trace: Optional[TracebackType]) -> None:
        self.close()

    def __reduce__(self) -> NoReturn:
        # (two that have one handle would free it twice)
        raise TypeError("a text isn't copied or pickled so: its method copy makes one for another site, and store makes bytes")

    # -- units

    def _shown(self, data: bytes) -> AnyStr:
        return cast(AnyStr, data if self._points is None else decoded(data))

    def _spelled(self, data: Union[given.Buffer, str]) -> bytes:
        if isinstance(data, str) == (self._points is None):
            raise TypeError("str goes into a text of code points, and bytes into another one")
        return encoded(data) if isinstance(data, str) else given.data(data)

    def _byte(self, pos: int) -> int:
        """How many bytes stand before a position."""
        if self._points is None:
            return given.position(pos)
        points = self._followed(self._points)
        if not 0 <= operator.index(pos) <= len(points):
            raise Misused(c.OUT_OF_TEXT)
        return points.byte(pos)

    def _pos(self, byte: int) -> int:
        """The position after this many bytes, or after the code point that these end within."""
        return byte if self._points is None else self._followed(self._points).point(byte)

    def _followed(self, points: CodePoints) -> CodePoints:
        """The code points as they are now."""
        return points

    # -- what is shown

    def _length(self) -> int:
        done(self._reads.length(self._handle, byref(self._long)))
        return self._long.value

    @alone
    def __len__(self) -> int:
        length = self._length()
        return length if self._points is None else len(self._followed(self._points))

    def _reads_for(self, length: int) -> c.Reads:
        return self._reads if length <= c.FEW else self._long_reads

    def _range(self, beg: int, end: int) -> bytes:
        room = ctypes.create_string_buffer(max(end - beg, 1))
        done(self._reads_for(end - beg).bytes(self._handle, beg, end, room, end - beg, byref(self._long)))
        return c.begin_of(room, end - beg)

    @alone
    def __bytes__(self) -> bytes:
        return self._range(0, self._length())

    def __str__(self) -> str:
        return decoded(bytes(self))

    @alone
    def __repr__(self) -> str:
        try:
            length, shown = len(self), self[:_SEEN]
        except Misused:
            return f"<{self._called()}, closed>"
        return f"<{self._called()}: {shown!r}{'...' * (length > _SEEN)}>"

    def _called(self) -> str:
        return type(self).__name__

    def __contains__(self, what: Any) -> bool:
        return what in self._shown(bytes(self))

    @overload
    def __iter__(self: Shown[bytes]) -> Iterator[int]: ...

    @overload
    def __iter__(self: Shown[str]) -> Iterator[str]: ...

    def __iter__(self) -> Iterator[Any]:
        return iter(self._shown(bytes(self)))

    @overload
    def __getitem__(self: Shown[bytes], where: int) -> int: ...

    @overload
    def __getitem__(self: Shown[str], where: int) -> str: ...

    @overload
    def __getitem__(self, where: slice) -> AnyStr: ...

    @alone
    def __getitem__(self, where: Union[int, slice]) -> Any:
        if isinstance(where, slice):
            beg, end, step = where.indices(len(self))
            if step != 1:
                return self._shown(bytes(self))[where]
            return self._shown(self._range(self._byte(beg), self._byte(max(beg, end))))
        at = operator.index(where)
        at += len(self) if at < 0 else 0
        if not 0 <= at < len(self):
            raise IndexError("a position lies outside the text")
        return self._shown(self._range(self._byte(at), self._byte(at + 1)))[0]

    @alone
    def runs(self) -> list[Run]:
        """What the characters look like, range by range. A code point looks as its first byte does."""
        found: list[Run] = []
        beg, length, run = 0, self._length(), c.CLooksRun()
        while beg < length:
            done(self._reads.looks(self._handle, beg, byref(run), self._room, MESSAGE, byref(self._long)))
            font = c.begin_of(self._room, self._long.value).decode("ascii")
            found.append(Run(self._pos(beg), self._pos(run.end), font, run.colour, run.offset))
            beg = run.end
        return [run for run in found if run.beg < run.end]

    def _names(self, beg: int, end: int) -> list[Name]:
        room = (c.CName * max(min(end, self._length()) - beg, 1))()
        done(self._reads_for(len(room)).names(self._handle, beg, end, room, len(room), byref(self._long)))
        return [Name(it.site, it.offset) for it in room[:self._long.value]]

    @alone
    def names(self, beg: int, end: int) -> list[Name]:
        """The names of the characters of a range: of each code point that of its first byte."""
        first, last = self._byte(beg), self._byte(end)
        names = self._names(first, last)
        if len(names) == end - beg:
            return names
        return [names[at] for at in begins(self._range(first, last))]

    @alone
    def name_ranges(self, beg: int, end: int) -> list[NameRange]:
        """The names of all bytes of a range, in stretches, as `Text.delete_names` takes them."""
        found = []
        names = self._names(self._byte(beg), self._byte(end))
        for (site, before), neighbours in groupby(enumerate(names), lambda it: (it[1].site, it[1].offset - it[0])):
            [(first, _), *more] = neighbours
            found.append(NameRange(site, before + first, 1 + len(more)))
        return found

    @alone
    def place(self, name: Name) -> Place:
        """Where the character of a name is."""
        given.instance(name, Name)
        place = c.CPlace()
        done(self._reads.find(self._handle, given.number(name.site, given.MOST_SITE), given.number(name.offset, given.MOST),
                              byref(place)))
        return Place(self._pos(place.pos), place.is_shown)

    @alone
    def anchor(self, pos: int, side: Side = -1) -> Anchor:
        """A place that stays, and where it is now (`position`)."""
        given.side(side)
        byte, length = self._byte(pos), self._length()
        if byte > length:
            raise Misused(c.OUT_OF_TEXT)
        at = byte - (side < 0)
        if at in (-1, length):
            return Anchor(0, 0, side)
        [name] = self._names(at, at + 1)
        return Anchor(name.site, name.offset, side)

    @alone
    def position(self, anchor: Anchor) -> int:
        """Where an anchor is now."""
        side = given.side(given.instance(anchor, Anchor).side)
        if anchor.site == 0:
            return 0 if side < 0 else len(self)
        place = self.place(Name(anchor.site, anchor.offset))
        return place.pos - (side > 0 and place.is_shown)
