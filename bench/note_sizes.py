"""What long notes take: to be opened, printed and joined, and in memory."""
from __future__ import annotations

import os
import pathlib
import statistics
import subprocess
import time
from typing import NamedTuple

from note_people import Keys, Memory, Room, gone, memory_of, types

from share.tests import editors
from share.tests.attacks import full
from share.tests.support import NOTE

MOST_SECONDS, FEW_KEYS = 1_800.0, 10


class Opened(NamedTuple):
    """Seconds until all of a note is shown, and until something can be typed; and the memory then."""

    shown: float
    types: float
    memory: Memory


class Sizes(NamedTuple):
    """What a note takes: to be opened from its file, joined, opened again by who joined; to be printed, in seconds and bytes; the
    median of a key, in seconds; and why keys are refused, where they are."""

    first: Opened
    joined: Opened
    again: Opened
    printed: float
    printed_memory: int
    key: float
    refused: str


def by_hand(folder: pathlib.Path, keys: int) -> Sizes:
    """A note in which each letter was typed by hand, and is an entry."""
    return _sizes(Room(folder, keys), keys)


def of_letters(folder: pathlib.Path, many: int) -> Sizes:
    """A note of this many letters, typed in one go."""
    room = Room(folder)
    hostile = room.hostile()
    hostile.send(full(hostile, many))
    return _sizes(room, many)


def _sizes(room: Room, letters: int) -> Sizes:
    first, keys, refused = _opened(room, "ann", letters, FEW_KEYS)
    printed, printed_memory = _printed(room)
    joined, _, _ = _opened(room, "newcomer", letters, link=room.link)
    again, _, _ = _opened(room, "newcomer", letters)
    return Sizes(first, joined, again, printed, printed_memory, statistics.median(keys), refused)


def _opened(room: Room, name: str, letters: int, keys: int = 0, **more: str) -> tuple[Opened, list[float], str]:
    """What it takes somebody to open a note of this many letters; the seconds of some keys, and why these are refused."""
    editors.PATIENCE = int(MOST_SECONDS)
    begin = time.monotonic()
    editor, when = room.editor(name, **more), dict[str, float]()
    while len(when) < 2 and time.monotonic() < begin + MOST_SECONDS:
        editor.read(0.02)
        if len(editor.text) >= letters:
            when.setdefault("shown", time.monotonic() - begin)
        if types(editor):
            when.setdefault("types", time.monotonic() - begin)
    typed, taken = Keys(editor), memory_of(room.engine(name))
    for _ in range(keys):
        typed.press(MOST_SECONDS)
    refused = typed.refused() if keys else ""
    gone(room, editor, name)
    return Opened(when.get("shown", MOST_SECONDS), when.get("types", MOST_SECONDS), taken), typed.seconds, refused


def _printed(room: Room) -> tuple[float, int]:
    begin = time.monotonic()
    with subprocess.Popen([NOTE, "cat", "note"], stdout=subprocess.DEVNULL, env={**os.environ, "VIALSHOAL_DATA": str(room.ann)}) as process:
        _, _, used = os.wait4(process.pid, 0)
        process.returncode = 0
    return time.monotonic() - begin, used.ru_maxrss * 1024
