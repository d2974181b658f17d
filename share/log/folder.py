"""Folders in which several processes make files and set them aside."""
import contextlib
import fcntl
import math
import os
import pathlib
import time
from collections.abc import Iterator

Inode = tuple[int, int]
# How long is waited for who makes a file, which takes some milliseconds unless that process was stopped; and between two tries.
MOST_DISTURBED_SECONDS, TRY_LOCK_SECONDS = 5.0, 0.01
# After it was waited in vain it isn't again for this long, and since when that is in which folders. Any thread may write it.
IN_VAIN_SECONDS = 30.0
_in_vain: dict[pathlib.Path, float] = {}


def inode_of(path: pathlib.Path | str | int) -> Inode | None:
    """What tells a file from one that took its name; None where there is none."""
    try:
        found = os.stat(path)
    except OSError:
        return None
    return found.st_dev, found.st_ino


def make_folder(folder: pathlib.Path) -> None:
    """Makes a folder, and those that it is in, which nobody else may look into."""
    for one in [*reversed(folder.parents), folder]:
        if not one.exists():
            one.mkdir(mode=0o700, exist_ok=True)


@contextlib.contextmanager
def held(folder: pathlib.Path) -> Iterator[int]:
    """Lets one process at a time make a file in a folder, or set one aside."""
    file = os.open(folder, os.O_RDONLY | os.O_DIRECTORY | os.O_CLOEXEC)
    try:
        fcntl.flock(file, fcntl.LOCK_EX)
        yield file
    finally:
        os.close(file)


@contextlib.contextmanager
def undisturbed(folder: pathlib.Path) -> Iterator[None]:
    """Keeps others meanwhile from making a file in a folder, or setting one aside, where that can be. Who opens a file of SQLite needs it:
    what is beside the file is found by its name, and so would be what is beside the one that took that."""
    with contextlib.ExitStack() as stack:
        with contextlib.suppress(OSError):
            file = os.open(folder, os.O_RDONLY | os.O_DIRECTORY | os.O_CLOEXEC)
            stack.callback(os.close, file)
            _wait_for(file, folder)
        yield


def stands_still(folder: pathlib.Path) -> bool:
    """Whether it was waited in vain, just now, for another process that holds a folder."""
    return time.monotonic() < _in_vain.get(folder, -math.inf) + IN_VAIN_SECONDS


def _wait_for(file: int, folder: pathlib.Path) -> None:
    """Waits until a folder that was opened is locked for this process, unless that was just in vain."""
    end = time.monotonic() + (0.0 if stands_still(folder) else MOST_DISTURBED_SECONDS)
    while not _is_shared(file):
        if time.monotonic() >= end:
            if not stands_still(folder):
                _in_vain[folder] = end
            return
        time.sleep(TRY_LOCK_SECONDS)
    _in_vain.pop(folder, None)


def _is_shared(file: int) -> bool:
    """Locks a folder for this process and others that do so; whether it could."""
    try:
        fcntl.flock(file, fcntl.LOCK_SH | fcntl.LOCK_NB)
    except BlockingIOError:
        return False
    return True
