"""A file that outlives an engine. By its lines the next engine lets each editor open the note again.

Each line has a checksum and is appended by one write. The file isn't synced: it outlives the engine's process, but not a crash of the
machine. If the file is damaged, or of another version, the reader gets the reason. A file of another note is read as an empty one.
"""
import json
import os
import pathlib
import zlib
from collections.abc import Iterable
from contextlib import suppress

from share.engine.protocol import ENCODER
from share.text.line import Line

JOURNAL_VERSION = 1
# A journal of more bytes is written again, without the lines that nobody needs.
LONG_BYTES = 8 << 20
CHECKSUM_DIGITS = 8


class Unreadable(Exception):
    """The reason why a journal can't be read, in words."""


class Journal:
    """The journal of a note's editors. Only the engine's thread calls it."""

    def __init__(self, path: pathlib.Path, note: bytes):
        self._path, self._note = path, note
        self._file: int | None = None
        self._size = 0
        # The size above which it is written again.
        self._long = LONG_BYTES

    @property
    def is_open(self) -> bool:
        """Return whether lines can be appended."""
        return self._file is not None

    @property
    def is_long(self) -> bool:
        """Return whether it must be written again."""
        return self._size > self._long

    def read(self) -> list[Line]:
        """Return the lines except the first one; raise Unreadable if they can't be read. A last line without an end is left out: a kill cut
        its write, so nothing that it says was kept or sent."""
        try:
            data = self._path.read_bytes()
        except FileNotFoundError:
            return []
        except OSError as why:
            raise Unreadable(f"it can't be read ({why.strerror})") from why
        whole = data[:data.rfind(b"\n") + 1]
        if not whole:
            return []
        first, *lines = map(_line_of, whole[:-1].split(b"\n"))
        if first.get("journal") != JOURNAL_VERSION:
            raise Unreadable("another version of the engine wrote it")
        return lines if first.get("note") == self._note.hex() else []

    def begin(self, lines: Iterable[Line]) -> bool:
        """Begin the journal again with these lines, and return whether that could be done. If not, the old one stays as it is."""
        data = b"".join(map(_serialized, [{"journal": JOURNAL_VERSION, "note": self._note.hex()}, *lines]))
        # One engine at a time has the note open. So a file that a killed one left under this name is written over.
        fresh, file = self._path.with_name(f".{self._path.name}.new"), -1
        self._long = max(LONG_BYTES, 2 * max(len(data), self._size))
        is_written = False
        try:
            file = os.open(fresh, os.O_WRONLY | os.O_CREAT | os.O_TRUNC | os.O_APPEND | os.O_CLOEXEC, 0o600)
            self._append(file, data)
            os.replace(fresh, self._path)
            is_written = True
        except OSError:
            with suppress(OSError):
                fresh.unlink()
            return False
        finally:
            if file >= 0 and not is_written:
                os.close(file)
        self.stop()
        self._file, self._size = file, len(data)
        return True

    def add(self, lines: Iterable[Line]) -> bool:
        """Append all of some lines, and return whether that could be done. If not, the journal is deleted."""
        if self._file is None:
            return False
        data = b"".join(map(_serialized, lines))
        try:
            self._append(self._file, data)
        except OSError:
            self.delete()
            return False
        self._size += len(data)
        return True

    def _append(self, file: int, data: bytes) -> None:
        if os.write(file, data) != len(data):
            raise OSError("The disk is full.")

    def stop(self) -> None:
        """Close the file, which stays."""
        if self._file is not None:
            os.close(self._file)
            self._file = None

    def delete(self) -> None:
        """Delete the file: nobody needs it, or it lacks a line and so would say something wrong."""
        self.stop()
        try:
            self._path.unlink(missing_ok=True)
        except OSError:
            # An empty file says nothing.
            with suppress(OSError):
                os.truncate(self._path, 0)


def _serialized(line: Line) -> bytes:
    data = ENCODER.encode(line).encode("utf-8", "replace")
    return b"%08x %s\n" % (zlib.crc32(data), data)


def _line_of(line: bytes) -> Line:
    checksum, data = line[:CHECKSUM_DIGITS], line[CHECKSUM_DIGITS + 1:]
    if checksum != b"%08x" % zlib.crc32(data):
        raise Unreadable("it is damaged")
    found: Line = json.loads(data)
    return found
