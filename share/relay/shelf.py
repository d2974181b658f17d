"""Where a relay keeps its notes' logs: in files of a folder, which is its own, or on a Redis server."""
import contextlib
import fcntl
import os
import pathlib
from abc import ABC, abstractmethod
from collections.abc import Iterator

from share.format.link import is_network, is_relay
from share.log.base import Log
from share.log.folder import make_folder
from share.log.opening import open_log
from share.text.errors import Trouble

LOG_SUFFIX, LOCK_FILE = ".log", "relay.lock"


class Shelf(ABC):
    """Gives logs of notes by their identities."""

    @abstractmethod
    def has(self, note: bytes) -> bool:
        """Whether something of a note is kept."""

    @abstractmethod
    def open(self, note: bytes) -> Log:
        """The log of a note, which is made where it isn't there."""


class FolderShelf(Shelf):
    """A folder with a file for each note."""

    def __init__(self, folder: pathlib.Path):
        self._folder = folder

    def has(self, note: bytes) -> bool:
        return self._path(note).exists()

    def open(self, note: bytes) -> Log:
        return open_log(str(self._path(note)), note)

    def _path(self, note: bytes) -> pathlib.Path:
        return self._folder / f"{note.hex()}{LOG_SUFFIX}"


class ServerShelf(Shelf):
    """A Redis server."""

    def __init__(self, url: str, password: str | None):
        self._url, self._password = url, password

    def has(self, note: bytes) -> bool:
        with contextlib.closing(self.open(note)) as log:
            return log.size() > 0

    def open(self, note: bytes) -> Log:
        return open_log(self._url, note, self._password)


@contextlib.contextmanager
def shelf_at(url: str, password: str | None = None) -> Iterator[Shelf]:
    """The shelf at a URL, or in a folder, which no other relay has meanwhile."""
    if is_relay(url):
        raise Trouble("A relay keeps its notes in a folder or on a Redis server, and not at another relay.")
    if is_network(url):
        yield ServerShelf(url, password)
        return
    folder = pathlib.Path(url)
    try:
        make_folder(folder)
        lock = os.open(folder / LOCK_FILE, os.O_RDWR | os.O_CREAT | os.O_NOFOLLOW | os.O_CLOEXEC, 0o600)
    except OSError as why:
        raise Trouble(f"{why.filename or folder}: {why.strerror}. Name another folder by --log.") from why
    with open(lock, "rb"):
        try:
            fcntl.flock(lock, fcntl.LOCK_EX | fcntl.LOCK_NB)
        except OSError as why:
            raise Trouble(f"Another relay has the folder {folder}.") from why
        yield FolderShelf(folder)
