"""What calls are given, as C takes it: a number that would wrap is refused, and what has another type is a TypeError."""
from __future__ import annotations

import ctypes
import operator
from collections.abc import Iterable, Mapping
from typing import TypeVar, Union

from . import _library as c
from ._answers import Misused, NameRange, Side

Buffer = Union[bytes, bytearray, memoryview]
T = TypeVar("T")
MOST = (1 << 32) - 1
MOST_SITE = 65535


def position(pos: int) -> int:
    if not 0 <= operator.index(pos) < 1 << 64:
        raise Misused(c.OUT_OF_TEXT)
    return pos


def number(given: int, most: int, least: int = 0) -> int:
    if not least <= operator.index(given) <= most:
        raise Misused(c.NO_NUMBER)
    return given


def offset(given: int) -> int:
    return number(given, 127, -128)


def side(given: Side) -> Side:
    if given not in (-1, 1):
        raise TypeError(f"a side is -1 or 1, not {given!r}")
    return given


def data(given: Buffer) -> bytes:
    # (bytes of a number would be so many zeros)
    return given if isinstance(given, bytes) else bytes(memoryview(given))


def instance(given: T, kind: type) -> T:
    is_right = isinstance(given, kind)
    if not is_right:
        raise TypeError(f"a {kind.__name__} is wanted, not {given!r}")
    return given


def font(name: str) -> bytes:
    return instance(name, str).encode("utf-8")


def ranges(names: Iterable[NameRange]) -> ctypes.Array[c.CNameRange]:
    asked = [c.CNameRange(number(it.site, MOST_SITE), number(it.offset, MOST), number(it.length, MOST))
             for it in (instance(one, NameRange) for one in names)]
    return (c.CNameRange * len(asked))(*asked)


def fronts(asked: Mapping[int, int]) -> ctypes.Array[c.CSiteFront]:
    found = [c.CSiteFront(number(site, MOST_SITE, 1), number(seq, MOST)) for site, seq in instance(asked, Mapping).items()]
    return (c.CSiteFront * len(found))(*found)
