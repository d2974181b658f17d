"""What is folded is taken out of a note's file, which has the folds, while nobody has the note open."""
import contextlib
import pathlib
import zlib
from collections.abc import Mapping, Sequence

from share.format.entry import digest
from share.log.folder import inode_of
from share.log.sqlite_file import Busy, Malformed, SqliteFile
from share.store.locks import Locks

# The most entries that are taken out in one go, which takes below a second or so: who opens the note meanwhile waits for it.
MOST_TAKEN_AWAY = 100_000
RIGHT_FOLD = "SELECT raw, body, sum FROM entry WHERE hash = ? AND hash NOT IN (SELECT hash FROM withdrawn)"
TAKE_AWAY = "DELETE FROM entry WHERE hash = ? AND hash NOT IN (SELECT hash FROM withdrawn)"


def take_away(path: pathlib.Path, folds: Mapping[bytes, Sequence[bytes]]) -> int:
    """Takes entries out of a file, by the folds that have their messages: all of a fold's or none, and none where the file hasn't the fold
    as it was written. How many there were. Where somebody has the note open, or the disk is full, the file stays as it is."""
    if not folds:
        return 0
    with contextlib.ExitStack() as leaving, contextlib.suppress(Busy, Malformed, OSError):
        locks = Locks(path)
        leaving.callback(locks.close)
        before = inode_of(path)
        if before is None or not locks.take_name():
            return 0
        file = SqliteFile(path)
        leaving.callback(file.close)
        with file.used():
            return _taken_away(file, folds) if inode_of(path) == before else 0
    return 0


def _taken_away(file: SqliteFile, folds: Mapping[bytes, Sequence[bytes]]) -> int:
    file.safe()
    many = 0
    for fold, folded in folds.items():
        if many >= MOST_TAKEN_AWAY:
            break
        with file.transaction():
            if _is_kept(file, fold):
                many += file.executemany(TAKE_AWAY, ((of,) for of in folded))
    # What is left is few, beside what was there.
    if many and 2 * file.one("PRAGMA freelist_count") > file.one("PRAGMA page_count"):
        file.execute("VACUUM")
    return many


def _is_kept(file: SqliteFile, fold: bytes) -> bool:
    """Whether a file has an entry as it was written."""
    found = file.execute(RIGHT_FOLD, (fold,)).fetchone()
    if not found:
        return False
    raw, body, check = found
    return (isinstance(raw, bytes) and digest(raw) == fold and isinstance(body, bytes | None)
            and zlib.crc32(body or b"") == check)
