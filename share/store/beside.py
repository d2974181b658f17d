"""What is kept beside a note's file and on which nothing hangs: where it can't be read it isn't there, and where it can't be written what
was there stays."""
import os
import secrets
from contextlib import suppress

from share.store import atomic, notes


def kept_bytes(name: str, suffix: str, most: int) -> bytes:
    """What is kept of a note in the file with this suffix, where that isn't longer; else nothing."""
    path = notes.path_of(name).with_suffix(suffix)
    with suppress(OSError):
        if path.stat().st_size <= most:
            return path.read_bytes()
    return b""


def write(name: str, suffix: str, data: bytes) -> None:
    """Keeps this there."""
    path = notes.path_of(name)
    # What a kill leaves under this name goes with the note.
    new = path.with_name(f".{path.name}.{secrets.token_hex(4)}")
    with suppress(OSError):
        try:
            with open(os.open(new, os.O_WRONLY | os.O_CREAT | os.O_EXCL | os.O_CLOEXEC, atomic.PRIVATE), "wb") as file:
                file.write(data)
                file.flush()
                os.fsync(file.fileno())
            os.rename(new, path.with_suffix(suffix))
        finally:
            new.unlink(missing_ok=True)
