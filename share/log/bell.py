"""What wakes a thread that waits for a log."""
import os
import threading
from contextlib import suppress

from share.log.polling import File, ready

RUNG_AT_ONCE = 4_096
CLOSED = -1


class Bell:
    """Any thread may ring it, and so may a signal; one waits for it, and silences it before it looks what it rang for. Who made it closes
    it: from then on nobody has to wait."""

    def __init__(self) -> None:
        self._rung, self._rings = os.pipe2(os.O_NONBLOCK | os.O_CLOEXEC)
        # Held while an end is used: another file could get the number of one that is closed. A signal may come meanwhile.
        self._lock = threading.RLock()

    def fileno(self) -> int:
        """What can be read of as soon as it rings."""
        return self._rung

    def ring(self) -> None:
        """Wakes who waits for it, now or next."""
        with self._lock, suppress(BlockingIOError):
            if self._rings != CLOSED:
                os.write(self._rings, b"!")

    def silence(self) -> None:
        """Takes back that it rang."""
        with self._lock, suppress(BlockingIOError):
            while self._rung != CLOSED and len(os.read(self._rung, RUNG_AT_ONCE)) == RUNG_AT_ONCE:
                pass

    def waits(self, seconds: float, line: File | None = None) -> bool:
        """Waits until it rings, something comes on a line, or the time is over; whether it rings, and nothing has come."""
        if (rung := self._rung) == CLOSED:
            return True
        return ready(seconds, [rung] if line is None else [rung, line])[0] == {rung}

    def close(self) -> None:
        """Rings no more. Nobody waits for it any more."""
        with self._lock:
            ends, self._rung, self._rings = {self._rung, self._rings} - {CLOSED}, CLOSED, CLOSED
            for end in ends:
                os.close(end)
