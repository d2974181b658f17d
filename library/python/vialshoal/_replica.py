"""A replica behind its handle: what its calls put into rooms."""
from __future__ import annotations

import ctypes
from collections.abc import Callable, Iterator, Mapping
from ctypes import byref, c_uint32, c_uint64
from typing import AnyStr, Optional

from . import _given as given
from . import _library as c
from ._answers import done
from ._code_points import CodePoints
from ._composing import Triple
from ._shown import MESSAGE, Shown, Units


class Replica(Shown[AnyStr]):
    """A site's replica of a text, whose calls here are made while it is locked."""

    _reads, _long_reads = (c.reads(calls, c.Handle, "") for calls in (c.calls, c.long_calls))
    _number: int
    _site: int

    def _begin(self, units: Units) -> None:
        super()._begin(units)
        self._sent = c_uint32()
        self._filed = 0

    def _called(self) -> str:
        return f"{super()._called()} {self._number} of site {self._site}"

    # -- rooms

    def _put(self, call: Callable[..., int], length: int = MESSAGE) -> bytes:
        """What a call puts into a room, of this length or as long as it asks for."""
        room = self._room if length <= MESSAGE else ctypes.create_string_buffer(length)
        number = call(self._handle, room, len(room), byref(self._long))
        if number == c.TOO_SHORT:
            room = ctypes.create_string_buffer(self._long.value)
            number = call(self._handle, room, len(room), byref(self._long))
        done(number)
        return c.begin_of(room, self._long.value)

    def _file(self, call: Callable[..., int]) -> bytes:
        """A file of the text. A call makes all of it to say how long it is, so it gets a little more room than the last one needed."""
        file = self._put(call, self._filed + self._filed // 8)
        self._filed = len(file)
        return file

    def _packed(self, fronts: Mapping[int, int]) -> bytes:
        """The chunks of what was taken in past these fronts, each behind its length."""
        asked = given.fronts(fronts)
        return self._put(lambda handle, *room: c.long_calls.vialshoal_pack(handle, asked, len(asked), *room))

    # -- messages that edits made

    def _unsent(self) -> int:
        """How many are kept until they are let go."""
        done(c.calls.vialshoal_messages(self._handle, byref(self._long)))
        return self._long.value

    def _messages(self) -> list[bytes]:
        messages = []
        for index in range(self._unsent()):
            done(c.calls.vialshoal_message(self._handle, index, self._room, MESSAGE, byref(self._long)))
            messages.append(c.begin_of(self._room, self._long.value))
        return messages

    def _let_go(self) -> None:
        done(c.calls.vialshoal_let_go(self._handle))

    def _next_message(self, fronts: ctypes.Array[c.CSiteFront], index: c_uint64) -> Optional[bytes]:
        """The next message of what was taken in past some fronts."""
        number = c.calls.vialshoal_since(self._handle, fronts, len(fronts), byref(index), self._room, MESSAGE, byref(self._long))
        if number == c.NO_MESSAGE:
            return None
        done(number)
        return c.begin_of(self._room, self._long.value)

    def _messages_past(self, fronts: Mapping[int, int]) -> Iterator[bytes]:
        asked, index = given.fronts(fronts), c_uint64()
        while (message := self._next_message(asked, index)) is not None:
            yield message

    # -- how far sites are

    def _front(self, site: int) -> int:
        front = c_uint32()
        done(c.calls.vialshoal_front(self._handle, site, byref(front)))
        return front.value

    def _fronts(self) -> dict[int, int]:
        room = (ctypes.c_uint16 * 16)()
        number = c.calls.vialshoal_sites(self._handle, room, len(room), byref(self._long))
        if number == c.TOO_SHORT:
            room = (ctypes.c_uint16 * self._long.value)()
            number = c.calls.vialshoal_sites(self._handle, room, len(room), byref(self._long))
        done(number)
        return {site: self._front(site) for site in room[:self._long.value]}

    # -- what changed of what is shown

    def _changes(self) -> list[Triple]:
        found: list[Triple] = []
        room = (c.CChange * 64)()
        while True:
            number = c.calls.vialshoal_changes(self._handle, room, len(room), byref(self._long))
            if number == c.TOO_SHORT:
                room = (c.CChange * self._long.value)()
                continue
            done(number)
            if not self._long.value:
                return found
            found += [(it.kind, it.beg, it.end) for it in room[:self._long.value]]

    def _followed(self, points: CodePoints) -> CodePoints:
        """The code points as they are now."""
        changes = self._changes()
        if changes:
            points.follow(changes, self._range)
        return points
