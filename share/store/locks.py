"""Locks on the numbers of a note's file, a byte each of a file beside it, and one on its name. A lock is the open file's and not the
process's. In the bytes of that file is noted how many entries the note's file had at least."""
import errno
import fcntl
import os
import pathlib
import struct
import zlib
from contextlib import suppress

from share.log.folder import Inode, inode_of

# How the file of locks is called.
LOCK_SUFFIX = ".lock"
LOCK = struct.Struct("hhqqi4x")
# Of which file it is noted, up to which place it has entries, and a sum of both.
NOTED, SUM = struct.Struct("<32sQ"), struct.Struct("<I")
# The byte of the name: no site has this number. Who has the note open shares it.
NAME_BYTE = 0


def noted_beside(path: pathlib.Path) -> bytes:
    """What is noted beside a note's file."""
    with suppress(OSError):
        return path.with_suffix(LOCK_SUFFIX).read_bytes()[:NOTED.size + SUM.size]
    return b""


def place_noted(noted: bytes, of: bytes) -> int:
    """Up to which place a file had entries at least, by what was noted; 0 where that isn't known."""
    if len(noted) < NOTED.size + SUM.size or SUM.unpack_from(noted, NOTED.size) != (zlib.crc32(noted[:NOTED.size]),):
        return 0
    file, place = NOTED.unpack_from(noted)
    return int(place) if file == of else 0


class Locks:
    """The numbers under which nobody else writes as long as this is open."""

    def __init__(self, path: pathlib.Path):
        self._path = str(path.with_suffix(LOCK_SUFFIX))
        # It is opened as soon as something is locked or noted, and not after that was closed.
        self._file: int | None = None
        self._is_closed = False
        self._inode: Inode | None = None

    def lock(self, site: int) -> bool:
        """Keeps others from writing under a number; whether nobody did."""
        try:
            self._asked(fcntl.F_OFD_SETLK, site)
            return True
        except OSError:
            return False

    def unlock(self, site: int) -> None:
        """Lets others write under a number again."""
        with suppress(OSError):
            self._asked(fcntl.F_OFD_SETLK, site, fcntl.F_UNLCK)

    def share_name(self) -> bool:
        """Keeps others from taking away the name; whether nobody is about to."""
        return self._has(fcntl.F_RDLCK)

    def take_name(self) -> bool:
        """Keeps others from opening the note; whether nobody has it open."""
        return self._has(fcntl.F_WRLCK)

    def is_locked(self, site: int) -> bool:
        """Whether another one has locked a number."""
        return self._asked(fcntl.F_OFD_GETLK, site) != fcntl.F_UNLCK

    def is_in_place(self) -> bool:
        """Whether the locks are where others look for them."""
        return self._file is None or inode_of(self._path) == self._inode

    def take(self, other: "Locks") -> None:
        """Goes on with the locks of the file that was open before, so that nobody has them meanwhile."""
        self._file, self._inode, other._file = other._file, other._inode, None

    def leave(self) -> None:
        """Lets go of the locks of a file that isn't in its place any more, so that the next is one of the file that is there."""
        if self._file is not None:
            os.close(self._file)
            self._file = None

    def close(self) -> None:
        """Lets go of the locks for good."""
        self._is_closed = True
        self.leave()

    def note(self, of: bytes, place: int) -> None:
        """Notes up to which place a file has entries, unless more is noted. Where that can't be now the next time does it."""
        try:
            file = self._opened()
            fcntl.flock(file, fcntl.LOCK_EX | fcntl.LOCK_NB)
            try:
                if place_noted(os.pread(file, NOTED.size + SUM.size, 0), of) < place:
                    data = NOTED.pack(of, place)
                    os.pwrite(file, data + SUM.pack(zlib.crc32(data)), 0)
            finally:
                fcntl.flock(file, fcntl.LOCK_UN)
        except OSError:
            pass

    def noted(self, of: bytes) -> int:
        """Up to which place a file has entries at least, as far as is known."""
        with suppress(OSError):
            return place_noted(os.pread(self._opened(), NOTED.size + SUM.size, 0), of)
        return 0

    def _has(self, kind: int) -> bool:
        try:
            self._asked(fcntl.F_OFD_SETLK, NAME_BYTE, kind)
            return True
        except BlockingIOError:
            return False

    def _opened(self) -> int:
        if self._is_closed:
            raise OSError(errno.EBADF, os.strerror(errno.EBADF), str(self._path))
        if self._file is None:
            self._file = os.open(self._path, os.O_RDWR | os.O_CREAT | os.O_CLOEXEC, 0o600)
            self._inode = inode_of(self._file)
        return self._file

    def _asked(self, call: int, site: int, wanted: int = fcntl.F_WRLCK) -> int:
        answer = fcntl.fcntl(self._opened(), call, LOCK.pack(wanted, os.SEEK_SET, site, 1, 0))
        kind: int = LOCK.unpack(answer)[0]
        return kind
