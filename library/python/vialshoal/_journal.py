"""The file of a text that is open (docs/FORMATS.md, "Files of open texts"). The package for Node has the same."""
from __future__ import annotations

import errno
import fcntl
import os
import stat
import struct
import zlib
from collections.abc import Iterator
from contextlib import suppress
from itertools import islice
from typing import NamedTuple, Optional

from ._answers import Damaged

_TAG = b"OTJ1"
_HEAD, _SUM, _ENTRY = struct.Struct(">4sHHII"), struct.Struct(">I"), struct.Struct(">II")
_BEGIN = _HEAD.size + _SUM.size
_SUMMED = struct.Struct(">HHI")
# What the chunks of an entry begin with, and where that is.
_CHUNK, _CHUNK_AT = b"OTC1", _ENTRY.size + 2
# At how many places a whole entry is looked for behind one that isn't.
_MOST_TRIED = 1 << 12
# A journal that is shorter isn't worth a new file.
_LEAST = 1 << 16


def _head(text: int, site: int, history: bytes) -> bytes:
    head = _HEAD.pack(_TAG, text, site, len(history), zlib.crc32(history))
    return head + _SUM.pack(zlib.crc32(head))


class Kept(NamedTuple):
    """What a file has."""

    text: int
    site: int
    history: bytes
    entries: list[bytes]


def _later_begins(data: bytes) -> Iterator[int]:
    """Where entries may begin, but for the begin."""
    at = 0
    while (at := data.find(_CHUNK, at + _CHUNK_AT + 1) - _CHUNK_AT) >= 0:
        yield at


def _locked(path: str, may_be_made: bool) -> int:
    """The file that has a name, once nobody else has it open."""
    while True:
        file = os.open(path, os.O_RDWR | os.O_CLOEXEC | os.O_CREAT * may_be_made, 0o666)
        try:
            fcntl.flock(file, fcntl.LOCK_EX | fcntl.LOCK_NB)
            # (the one who had it open may have put another file in its place)
            if _has_name(file, path):
                return file
        except BlockingIOError:
            os.close(file)
            raise BlockingIOError(errno.EAGAIN, "it is open already: a site goes on from its file once at a time", path) from None
        except BaseException:
            os.close(file)
            raise
        os.close(file)


def _has_name(file: int, path: str) -> bool:
    with suppress(FileNotFoundError):
        return os.path.samestat(os.fstat(file), os.stat(path))
    return False


def _write(file: int, at: int, data: bytes) -> None:
    """Has a file end with these bytes, and the disk have them."""
    os.ftruncate(file, at)
    rest = memoryview(data)
    while rest:
        done = os.pwrite(file, rest, at)
        at, rest = at + done, rest[done:]
    os.fdatasync(file)


def sync_folder_of(path: str) -> None:
    """Has the disk know a file by its name."""
    folder = os.open(os.path.dirname(path), os.O_RDONLY | os.O_CLOEXEC)
    try:
        os.fsync(folder)
    finally:
        os.close(folder)


class LockedFile:
    """A file that nobody else has open meanwhile."""

    def __init__(self, path: str, may_be_made: bool) -> None:
        self._path = os.path.realpath(path)
        self._file = _locked(self._path, may_be_made)
        self._process = os.getpid()
        # Whether the folder has the file on the disk.
        self._is_named = False

    def is_own(self) -> bool:
        """Whether this process opened it: one that was forked off may not write beside it."""
        return os.getpid() == self._process

    def close(self) -> None:
        # (a process that was forked off has the same lock, and would hold it on)
        if self.is_own():
            fcntl.flock(self._file, fcntl.LOCK_UN)
        os.close(self._file)

    def _data(self) -> bytes:
        """All that it has."""
        with open(self._file, "rb", closefd=False) as file:
            file.seek(0)
            return file.read()

    def _write(self, at: int, data: bytes) -> None:
        if not self.is_own():
            raise PermissionError(errno.EPERM, "it was opened by another process, from which this one was forked off", self._path)
        if not _has_name(self._file, self._path):
            raise FileNotFoundError(errno.ENOENT, "it was moved or taken away, and nothing is kept any more", self._path)
        try:
            _write(self._file, at, data)
            self._name()
        except OSError as why:
            # (what is there of it isn't whole, and the next one takes its place)
            with suppress(OSError):
                os.ftruncate(self._file, at)
            why.filename = self._path
            raise

    def _name(self) -> None:
        if not self._is_named:
            sync_folder_of(self._path)
            self._is_named = True


class Journal(LockedFile):
    """The file of a text."""

    def __init__(self, path: str, may_be_made: bool) -> None:
        super().__init__(path, may_be_made)
        self._text = self._site = 0
        # Where the history ends, and the last entry that is whole.
        self._history_end = self._end = 0
        # How long a journal is left as it is.
        self._most = _LEAST
        # What stands behind the last entry that is whole: the next one takes its place.
        self.torn = b""

    def begin(self, text: int, site: int) -> None:
        """Begins a file that has nothing yet."""
        self._has(text, site, b"")
        self._write(0, _head(text, site, b""))

    def _has(self, text: int, site: int, history: bytes) -> None:
        self._text, self._site = text, site
        self._history_end = self._end = _BEGIN + len(history)
        self._most = max(len(history), _LEAST)

    # -- reading

    def read(self) -> Optional[Kept]:
        """What the file has; nothing where none was begun."""
        data = self._data()
        if len(data) < _BEGIN and _TAG.startswith(data[:len(_TAG)]):
            return None
        if len(data) < _BEGIN or not data.startswith(_TAG):
            raise Damaged(f"{self._path} isn't the file of a text")
        _, text, site, length, _ = _HEAD.unpack_from(data)
        history = data[_BEGIN:_BEGIN + length]
        if data[:_BEGIN] != _head(text, site, history):
            raise Damaged(f"{self._path} was changed, or cut off, before byte {_BEGIN + length}")
        self._has(text, site, history)
        return Kept(text, site, history, self._entries(data))

    def _entries(self, data: bytes) -> list[bytes]:
        found = []
        while (entry := self._entry(data, self._end)) is not None:
            found.append(entry)
            self._end += _ENTRY.size + len(entry)
        self.torn = data[self._end:]
        if self._has_more(self.torn):
            raise Damaged(f"{self._path} was changed at byte {self._end} or behind it, and has more after that")
        return found

    def _has_more(self, torn: bytes) -> bool:
        """Whether this isn't what is left of one entry: it is longer than that says, or a whole one comes later."""
        length: int = _ENTRY.unpack_from(torn.ljust(_ENTRY.size, b"\0"))[0]
        if 0 < length < len(torn) - _ENTRY.size:
            return True
        return any(self._entry(torn, at) is not None for at in islice(_later_begins(torn), _MOST_TRIED))

    def _entry(self, data: bytes, at: int) -> Optional[bytes]:
        """The chunks of the entry that begins here, if a whole one does."""
        if len(data) < at + _ENTRY.size:
            return None
        length, check = _ENTRY.unpack_from(data, at)
        chunks = data[at + _ENTRY.size:at + _ENTRY.size + length]
        return chunks if 0 < length == len(chunks) and check == self._check(chunks) else None

    def _check(self, chunks: bytes) -> int:
        return zlib.crc32(chunks, zlib.crc32(_SUMMED.pack(self._text, self._site, len(chunks))))

    # -- writing

    def append(self, chunks: bytes) -> None:
        """Adds an entry. Where this raises an error the file has what it had before."""
        self._write(self._end, _ENTRY.pack(len(chunks), self._check(chunks)) + chunks)
        self._end += _ENTRY.size + len(chunks)
        self.torn = b""

    def has_grown(self) -> bool:
        """Whether a new file is worth it."""
        return self._end - self._history_end > self._most

    def rewrite(self, history: bytes) -> None:
        """Puts a file that has this history alone in place of this one; where that can't be done now, this one goes on."""
        try:
            file = self._put_in_place(_head(self._text, self._site, history) + history)
        except OSError:
            self._most = 2 * (self._end - self._history_end)
            return
        os.close(self._file)
        self._file, self._is_named = file, False
        self._has(self._text, self._site, history)

    def _put_in_place(self, data: bytes) -> int:
        beside, old = f"{self._path}.new", os.fstat(self._file)
        file = os.open(beside, os.O_RDWR | os.O_CREAT | os.O_CLOEXEC, 0o600)
        try:
            # (locked before it has the name, so that nobody else comes in between)
            fcntl.flock(file, fcntl.LOCK_EX | fcntl.LOCK_NB)
            _write(file, 0, data)
            os.fchmod(file, stat.S_IMODE(old.st_mode))
            if (old.st_uid, old.st_gid) != (os.geteuid(), os.getegid()):
                os.fchown(file, old.st_uid, old.st_gid)
            os.replace(beside, self._path)
        except OSError:
            os.close(file)
            with suppress(OSError):
                os.unlink(beside)
            raise
        return file
