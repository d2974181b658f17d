"""Saves bytes as a file so that a full disk, or an end at any moment, leaves the old file as it was."""
import errno
import os
import pathlib
import secrets
import stat
from collections.abc import Iterator
from contextlib import contextmanager, suppress

from share.text.errors import Trouble

# What the file is named while it is written, before some digits: short, since a name of the user's may be as
# long as names can be.
NAME_BEGIN = ".note-"
READABLE, PRIVATE = 0o666, 0o600
ALL_BITS, RIGHTS = 0o7777, 0o777


class NotSaved(Trouble):
    """Why a file wasn't saved, in a sentence. The old one is as it was."""


def exists(path_as_typed: str) -> bool:
    """Whether there is something of this name that a save would replace."""
    path = _expanded(path_as_typed)
    with _sentences(path):
        return _state(path) is not None


def save(path_as_typed: str, data: bytes, is_private: bool = False) -> pathlib.Path:
    """Saves bytes under a name, in which ~ is a home folder, and gives its path. Where that is a link, the file
    that it leads to is replaced; the mode of an old file stays. A new one that is private its owner alone reads."""
    path = _expanded(path_as_typed)
    with _sentences(path):
        target = pathlib.Path(os.path.realpath(path))
        old = _state(path)
        if old:
            _refuse_odd_files(path, target, old)
        _replace(target, old, data, is_private)
    return path


def _expanded(path_as_typed: str) -> pathlib.Path:
    if not path_as_typed or "\0" in path_as_typed:
        raise NotSaved(f"Not saved: {path_as_typed!r} is no name of a file.")
    try:
        return pathlib.Path(path_as_typed).expanduser()
    except RuntimeError:
        home = pathlib.PurePath(path_as_typed).parts[0]
        raise NotSaved(f"Not saved: {path_as_typed}: there is no home folder {home}.") from None


@contextmanager
def _sentences(path: pathlib.Path) -> Iterator[None]:
    """Makes sentences of the system's errors."""
    try:
        yield
    except OSError as why:
        reason = "its folder isn't there" if why.errno == errno.ENOENT else why.strerror
        raise NotSaved(f"Not saved: {path}: {reason}.") from why


def _state(path: pathlib.Path) -> os.stat_result | None:
    """What a file is; None where there is none."""
    try:
        return path.stat()
    except FileNotFoundError:
        return None


def _refuse_odd_files(path: pathlib.Path, target: pathlib.Path, old: os.stat_result) -> None:
    """Refuses what a file mustn't take the place of."""
    if stat.S_ISDIR(old.st_mode):
        raise NotSaved(f"Not saved: {path} is a folder.")
    if not stat.S_ISREG(old.st_mode):
        raise NotSaved(f"Not saved: {path} is a device or a pipe, and no file.")
    if not os.access(target, os.W_OK, effective_ids=True):
        raise NotSaved(f"Not saved: {path} is a file that you may not write.")


def _replace(target: pathlib.Path, old: os.stat_result | None, data: bytes, is_private: bool) -> None:
    """Writes a file beside, brings it to the disk, and then gives it the name."""
    beside = target.with_name(NAME_BEGIN + secrets.token_hex(8))
    # Nobody may read what is written who may not read the old file.
    file = os.open(beside, os.O_WRONLY | os.O_CREAT | os.O_EXCL | os.O_CLOEXEC, PRIVATE if old or is_private else READABLE)
    try:
        try:
            _write_all(file, data)
            if old:
                _keep_rights(file, old)
            os.fsync(file)
        finally:
            os.close(file)
        os.replace(beside, target)
    except BaseException:
        with suppress(OSError):
            beside.unlink()
        raise
    _sync_folder(target.parent)


def _write_all(file: int, data: bytes) -> None:
    left = memoryview(data)
    while left:
        left = left[os.write(file, left):]


def _keep_rights(file: int, old: os.stat_result) -> None:
    """Gives a file the owner, as far as that may be, and the mode of the old one. What runs as the owner of the
    old one never runs as another."""
    for owner, group in (old.st_uid, -1), (-1, old.st_gid):
        with suppress(PermissionError):
            os.fchown(file, owner, group)
    new = os.fstat(file)
    kept = (new.st_uid, new.st_gid) == (old.st_uid, old.st_gid)
    os.fchmod(file, stat.S_IMODE(old.st_mode) & (ALL_BITS if kept else RIGHTS))


def _sync_folder(folder: pathlib.Path) -> None:
    """Brings a folder's names to the disk, where its file system and its rights let us."""
    try:
        handle = os.open(folder, os.O_RDONLY | os.O_DIRECTORY | os.O_CLOEXEC)
    except PermissionError:
        return
    try:
        os.fsync(handle)
    except OSError as why:
        if why.errno not in (errno.EINVAL, errno.ENOTSUP):
            raise
    finally:
        os.close(handle)
