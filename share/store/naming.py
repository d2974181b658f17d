"""A note on this disk gets another name, or goes from the disk.

Who does that has the note alone meanwhile, by a lock that all share who have it open. What belongs to the note's file goes first, and the
note could do without it; the file itself goes in one step. So after a kill the note is whole under one name, and the same again ends what
was begun.
"""
import contextlib
import os
import pathlib
import shutil
from collections.abc import Iterator

from share.log.folder import held
from share.log.sqlite_file import SIDE_FILES, beside
from share.store import nicknames, notes, seen
from share.store.guarded import Damaged
from share.store.locks import LOCK_SUFFIX, Locks
from share.store.note_file import Disk
from share.text.errors import Trouble

# What a note's file has beside it that is no part of it: packed files, what people were called, and when this one looked.
BESIDE = (".packed", nicknames.NICKNAMES_SUFFIX, seen.SEEN_SUFFIX)


def rename_note(name: str, new: str) -> None:
    """Gives a note another name on this disk."""
    path, to = notes.existing(name), notes.path_of(new)
    if notes.is_here(new):
        raise Trouble(f"There is a note {new} here.")
    with _by_itself(name), _by_itself(new):
        try:
            _settle(name)
        except Damaged as why:
            raise Trouble(f"{why}. bin/note recover {path.parent} brings back what can be read of it.") from why
        for suffix in BESIDE:
            _move(path.with_suffix(suffix), to.with_suffix(suffix))
        with held(path.parent) as folder:
            if to.exists():
                raise Trouble(f"There is a note {new} here.")
            os.rename(path, to)
            # What is noted in it is of the note's file.
            os.rename(path.with_suffix(LOCK_SUFFIX), to.with_suffix(LOCK_SUFFIX))
            os.fsync(folder)


def delete_note(name: str) -> None:
    """Takes a note from this disk: its text, its key, and the keys of this person's numbers."""
    path = notes.existing(name)
    with _by_itself(name):
        # Where it is damaged there is nothing to be settled.
        with contextlib.suppress(Damaged):
            _settle(name)
        for one in [*map(path.with_suffix, BESIDE), *left_beside(name), *path.parent.glob(f".{path.name}.*")]:
            _remove(one)
        with held(path.parent) as folder:
            path.unlink()
            for end in SIDE_FILES:
                beside(path, end).unlink(missing_ok=True)
            os.fsync(folder)


def left_beside(name: str) -> list[pathlib.Path]:
    """The damaged copies of a note's file that were set aside."""
    path = notes.path_of(name)
    return sorted(path.parent.glob(f"{path.name}.damaged-*"))


def before(name: str) -> list[str]:
    """The notes that are left of renewals of a note, which have names of their own."""
    found = sorted(notes.path_of(name).parent.glob(f"{name}.old-*{notes.NOTE_SUFFIX}"))
    return [one.name[:-len(notes.NOTE_SUFFIX)] for one in found]


@contextlib.contextmanager
def _by_itself(name: str) -> Iterator[None]:
    """Keeps others from opening a note of this name."""
    path = notes.path_of(name)
    locks = Locks(path)
    try:
        if not (locks.take_name() and locks.is_in_place()):
            raise _is_open(name)
        try:
            yield
        finally:
            # Who waits for it sees that it is gone.
            if not path.exists():
                path.with_suffix(LOCK_SUFFIX).unlink(missing_ok=True)
    finally:
        locks.close()


def _settle(name: str) -> None:
    """Has all of a note in its file alone."""
    path = notes.path_of(name)
    with contextlib.closing(Disk(path)) as disk:
        is_open = disk.locked()
    if is_open or beside(path, SIDE_FILES[0]).exists():
        raise _is_open(name)


def _is_open(name: str) -> Trouble:
    return Trouble(f"The note {name} is open, or is being renamed or deleted. Quit its editors first.")


def _move(one: pathlib.Path, other: pathlib.Path) -> None:
    if one.exists():
        # What a note of this name left that isn't here any more.
        _remove(other)
        os.rename(one, other)


def _remove(path: pathlib.Path) -> None:
    if path.is_dir() and not path.is_symlink():
        shutil.rmtree(path)
    else:
        path.unlink(missing_ok=True)
