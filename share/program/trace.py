"""A trace of what an engine and its replicator do, for a report of a fault.

VIALSHOAL_TRACE names its file. Each event is a line: the monotonic time, the process, the event, and figures. Threads and processes append
beside each other, so that the times tell the order. A figure is a number or the name of a constant: no text of a note, no
key and no link comes into it. Any thread may write an event.
"""
import os
import time
from contextlib import suppress
from enum import Enum, auto

VARIABLE = "VIALSHOAL_TRACE"


class Traced(Enum):
    """What is traced."""

    NOTE_OPENED = auto()
    NOTE_CLOSED = auto()
    EDITOR_JOINED = auto()
    EDITOR_LEFT = auto()
    TEXT_SENT = auto()
    CHANGES_SENT = auto()
    EDIT = auto()
    EDIT_NOT_KEPT = auto()
    FILE_WRITTEN_ANEW = auto()
    NUMBER_CLAIMED = auto()
    NUMBER_TAKEN = auto()
    NUMBER_GIVEN_UP = auto()
    COUNTED = auto()
    SITE_BEGUN_ANEW = auto()
    DIFFERS_AS_A_WHOLE = auto()
    REBASED = auto()
    HIDDEN = auto()
    FOLDED = auto()
    TAKEN_OUT = auto()
    CLAIMS_GIVEN = auto()
    GIVEN = auto()
    GIVEN_AGAIN = auto()
    READ_FROM_FRONT = auto()
    FETCHED = auto()
    LOST = auto()
    CHANNEL_OPENED = auto()
    CHANNEL_REFUSED = auto()
    CHANNEL_LOST = auto()
    TABLE_USED = auto()
    TABLE_LEFT = auto()
    OFFLINE = auto()
    RECONNECTED = auto()


class Trace:
    """Appends events to a file. What can't be written is left out, since a trace must not hinder editing."""

    def __init__(self, path: str | None):
        # A process that goes on in the background leaves its folder.
        self._path = os.path.abspath(path) if path else None

    def write(self, event: Traced, **figures: int | Enum) -> None:
        """Writes an event, in one piece, so that several processes can share a file."""
        if self._path is None:
            return
        said = "".join(f" {name}={one.name.lower() if isinstance(one, Enum) else int(one)}" for name, one in figures.items())
        # It isn't kept open: who goes on in the background closes all that is open, and its number may be another file's then.
        with suppress(OSError, ValueError):
            # A pipe that nobody reads isn't waited for.
            file = os.open(self._path, os.O_WRONLY | os.O_CREAT | os.O_APPEND | os.O_NONBLOCK | os.O_CLOEXEC, 0o600)
            try:
                os.write(file, f"{time.monotonic():.6f} {os.getpid()} {event.name.lower()}{said}\n".encode())
            finally:
                os.close(file)


_trace = Trace(os.environ.get(VARIABLE))


def trace(event: Traced, **figures: int | Enum) -> None:
    """Writes an event where a trace is asked for."""
    _trace.write(event, **figures)
