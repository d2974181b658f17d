"""The processes that others started."""
import contextlib
import os
import pathlib
from collections.abc import Iterable, Iterator


def children(process: int) -> list[int]:
    """The processes that the threads of a process started. It, or a thread of it, may end meanwhile."""
    found = list[int]()
    with contextlib.suppress(OSError):
        for thread in os.listdir(f"/proc/{process}/task"):
            with contextlib.suppress(OSError):
                found += map(int, pathlib.Path(f"/proc/{process}/task/{thread}/children").read_text("ascii").split())
    return found


def descendants(process: int) -> Iterator[int]:
    """The processes that one started, each after those that it started itself."""
    for child in children(process):
        yield from descendants(child)
        yield child


@contextlib.contextmanager
def handles(processes: Iterable[int]) -> Iterator[list[int]]:
    """Descriptors of those of these processes that are there, by which each is reached also where another one gets its number later."""
    with contextlib.ExitStack() as stack:
        found = list[int]()
        for process in processes:
            with contextlib.suppress(OSError):
                found.append(os.pidfd_open(process))
                stack.callback(os.close, found[-1])
        yield found
