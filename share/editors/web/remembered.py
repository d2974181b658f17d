"""What is kept of a note's page from one run of its server to the next: the port, and a key by which pages that are still open
know the server again."""
import contextlib
import fcntl
import json
import os
import re
import socket as sockets
from collections.abc import Iterator
from typing import NamedTuple

from share.editors.web import guard
from share.editors.web.server import listening
from share.engine.server import run_folder
from share.log.folder import make_folder

KEY = re.compile("[0-9a-f]{64}")
MOST_KEPT_BYTES = 1_024


class Place(NamedTuple):
    """Where a note's page is served, and its key."""

    socket: sockets.socket
    key: str


class _Kept(NamedTuple):
    port: int = 0
    key: str = ""


@contextlib.contextmanager
def place(name: str) -> Iterator[Place]:
    """The place of a note's page, the one of last time where that is free. A second server at the same time has one of its own."""
    folder = run_folder()
    make_folder(folder)
    os.chmod(folder, 0o700)
    file = os.open(folder / f"{name}.web", os.O_RDWR | os.O_CREAT | os.O_NOFOLLOW | os.O_CLOEXEC, 0o600)
    with open(file, "r+b") as out:
        is_first = _locked(file)
        kept = _parsed(out.read(MOST_KEPT_BYTES)) if is_first else _Kept()
        key = kept.key or guard.new_page_key()
        with _listening(kept.port) as socket:
            if is_first:
                out.seek(0)
                out.truncate()
                out.write(json.dumps({"port": socket.getsockname()[1], "key": key}).encode())
                out.flush()
            yield Place(socket, key)


def _listening(port: int) -> sockets.socket:
    try:
        return listening(port)
    except OSError:
        # Another program has it.
        return listening(0)


def _locked(file: int) -> bool:
    """Takes a lock, which lasts as long as the file is open; whether nobody had it."""
    try:
        fcntl.flock(file, fcntl.LOCK_EX | fcntl.LOCK_NB)
    except OSError:
        return False
    return True


def _parsed(data: bytes) -> _Kept:
    """What was kept; nothing where that is damaged."""
    try:
        found = json.loads(data)
        port, key = found["port"], found["key"]
    except (ValueError, TypeError, KeyError, RecursionError):
        return _Kept()
    if type(port) is int and 1_024 <= port < 1 << 16 and isinstance(key, str) and KEY.fullmatch(key):
        return _Kept(port, key)
    return _Kept()
