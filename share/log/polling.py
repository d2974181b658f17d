"""Waits until something can be read or written. Its descriptor may be any: `select.select` takes none above 1,023, of which a process
that has much open comes to have some."""
import errno
import os
import select
from collections.abc import Iterable
from typing import Protocol, Union


class HasDescriptor(Protocol):
    """A socket, a file, or what else has a descriptor."""

    def fileno(self) -> int:
        """Its descriptor."""


File = Union[int, HasDescriptor]


def ready(seconds: float, reads: Iterable[File], writes: Iterable[File] = ()) -> tuple[set[int], set[int]]:
    """The descriptors of which something can be read, and to which something can be written, as soon as there is one; none when the time
    is over. At its end, and where it is broken, each can: who reads or writes is told so. OSError where one isn't open."""
    poll, reading, writing = select.poll(), {*map(_descriptor, reads)}, {*map(_descriptor, writes)}
    for file in reading | writing:
        poll.register(file, (select.POLLIN if file in reading else 0) | (select.POLLOUT if file in writing else 0))
    found = poll.poll(max(0.0, seconds) * 1_000)
    if any(events & select.POLLNVAL for _, events in found):
        raise OSError(errno.EBADF, os.strerror(errno.EBADF))
    return ({file for file, events in found if file in reading and events & ~select.POLLOUT},
            {file for file, events in found if file in writing and events & ~select.POLLIN})


def can_read(file: File, seconds: float) -> bool:
    """Whether something can be read within some time."""
    return bool(ready(seconds, [file])[0])


def _descriptor(file: File) -> int:
    return file if isinstance(file, int) else file.fileno()
