"""How much work something is, counted, so that no load of the machine changes it."""
import pathlib
import re
import sys
from collections.abc import Callable
from types import FrameType
from typing import Any, SupportsIndex
from unittest import mock


def instructions(work: Callable[[], object]) -> int:
    """How many of Python's instructions some work takes in this thread."""
    count = 0

    def trace(frame: FrameType, event: str, _: object) -> Any:
        nonlocal count
        frame.f_trace_opcodes, frame.f_trace_lines = True, False
        count += event == "opcode"
        return trace

    before = sys.gettrace()
    sys.settrace(trace)
    try:
        work()
    finally:
        sys.settrace(before)
    return count


def memory(work: Callable[[], object]) -> int:
    """How many bytes more this process has at most while it does some work."""
    system = pathlib.Path("/proc/self")

    def kilobytes(name: str) -> int:
        found = re.search(rf"^{name}:\s+(\d+) kB", (system / "status").read_text(encoding="utf-8"), re.MULTILINE)
        assert found
        return int(found[1])

    # The most that it had is what it has.
    (system / "clear_refs").write_text("5", encoding="ascii")
    before = kilobytes("VmRSS")
    work()
    return 1_024 * (kilobytes("VmHWM") - before)


class Counted(bytearray):
    """Bytes that count how many of them are looked at or copied, all such together."""

    looked_at = 0

    def _looks(self, begin: Any = None, end: Any = None) -> None:
        Counted.looked_at += len(range(*slice(begin, end).indices(len(self))))

    def __getitem__(self, place: Any) -> Any:
        if isinstance(place, slice):
            self._looks(place.start, place.stop)
        return super().__getitem__(place)

    def __bytes__(self) -> bytes:
        self._looks()
        return memoryview(self).tobytes()

    def __add__(self, other: Any) -> bytearray:
        self._looks()
        return Counted(memoryview(self).tobytes() + other)

    def find(self, what: Any, begin: SupportsIndex | None = None, end: SupportsIndex | None = None) -> int:
        self._looks(begin, end)
        return super().find(what, begin, end)

    def rfind(self, what: Any, begin: SupportsIndex | None = None, end: SupportsIndex | None = None) -> int:
        self._looks(begin, end)
        return super().rfind(what, begin, end)

    def replace(self, *words: Any) -> bytearray:
        self._looks()
        return super().replace(*words)


def looked_at(module: str, work: Callable[[], object]) -> int:
    """How many bytes some work looks at or copies, of those that a module holds while more comes."""
    before = Counted.looked_at
    with mock.patch(f"{module}.bytearray", Counted, create=True):
        work()
    return Counted.looked_at - before
