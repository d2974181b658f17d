"""What was found of bytes lately: it is kept until more came, and not looked for again meanwhile."""
import threading
from typing import Generic, TypeVar

Value = TypeVar("Value")


class Latest(Generic[Value]):
    """What was found of the bytes that came last: of those since it was last full, and of those before that."""

    def __init__(self, most: int):
        """It is full with this many bytes."""
        self._before: dict[bytes, Value] = {}
        self._now: dict[bytes, Value] = {}
        # Entries are opened by several threads.
        self._most, self._bytes, self._putting = most, 0, threading.Lock()

    def get(self, data: bytes) -> Value | None:
        """What was found of these bytes, where it is kept."""
        return self._now.get(data) or self._before.get(data)

    def put(self, data: bytes, found: Value) -> None:
        """Keeps what was found of these bytes."""
        with self._putting:
            self._bytes += len(data)
            if self._bytes > self._most:
                self._before, self._now, self._bytes = self._now, {}, len(data)
            self._now[data] = found
