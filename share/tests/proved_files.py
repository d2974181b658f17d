"""Has each test also be one of the library's note, which is proved: the notes' files that a test leaves are shown by both as its folder is
given up, and it fails where they differ."""
import fcntl
import os
import pathlib
import shlex
import shutil
import subprocess
from collections.abc import Iterator
from contextlib import suppress
from functools import cache
from typing import NamedTuple

from share.proved.comparing import compared, read_by_both
from share.proved.library import LIBRARY_VARIABLE, library
from share.store import read_only
from share.store.note_file import NOTE_APPLICATIONS, SECOND
from share.tests.waiting import wait_for
from share.text.errors import Trouble, counted
from tools.library import ordinary
from tools.packages.calling import Failed

# Where SQLite has what tells a note's file from others.
APPLICATION_AT, APPLICATION_BYTES = 68, 4
# How long is waited for an engine to end: one that a test has stopped doesn't.
ENGINE_SECONDS = 5


class Tally(NamedTuple):
    """How many files were compared, with how many messages, and how many can't be read, since a test damaged them."""

    files: int = 0
    messages: int = 0
    unreadable: int = 0

    def and_more(self, other: "Tally") -> "Tally":
        """Both together."""
        return Tally(self.files + other.files, self.messages + other.messages, self.unreadable + other.unreadable)

    def words(self) -> str:
        """What is told of them."""
        damaged = f"; {self.unreadable:,} that tests damaged can't be read" if self.unreadable else ""
        return f"compared with the proved note: {counted(self.files, 'file')}, {counted(self.messages, 'message')}{damaged}"


class Tallied:
    """What was compared in this process."""

    tally = Tally()


def make_library(room: pathlib.Path) -> None:
    """Has the library be the one that is named, else as cargo makes it of these sources, where that is here."""
    if not os.environ.get(LIBRARY_VARIABLE) and shutil.which("cargo"):
        with suppress(Failed, OSError, subprocess.CalledProcessError):
            os.environ[LIBRARY_VARIABLE] = str(ordinary(room, shlex.split(os.environ.get("CC", "cc"))).shared(room))


@cache
def missing_library() -> str:
    """Why nothing is compared, in words; nothing where the library is here."""
    try:
        library()
    except Trouble as why:
        return f"nothing was compared with the proved note: {why}"
    return ""


def give_up(folder: pathlib.Path) -> None:
    """Takes a test's folder away, once it was seen that the notes in it are shown alike."""
    try:
        if not missing_library():
            see_alike(folder)
    finally:
        shutil.rmtree(folder, ignore_errors=True)


def see_alike(folder: pathlib.Path) -> None:
    """Fails where a note's file in a folder is shown otherwise by the library's note."""
    _see_engines_end(folder)
    for path in files_of_second_form(folder):
        try:
            both = read_by_both(path)
        except Trouble:
            if is_readable(path):
                raise
            Tallied.tally = Tallied.tally.and_more(Tally(unreadable=1))
            continue
        found = compared(both)
        Tallied.tally = Tallied.tally.and_more(Tally(1, found.messages))
        if found.differences:
            raise AssertionError(f"{path.relative_to(folder)}: {' '.join(found.differences)}")


def is_readable(path: pathlib.Path) -> bool:
    """Whether the judge has anything of a file."""
    try:
        read_only.judged(path)
    except Trouble:
        return False
    return True


def files_of_second_form(folder: pathlib.Path) -> Iterator[pathlib.Path]:
    """The notes' files of this form, also those that were set aside."""
    application = NOTE_APPLICATIONS[SECOND].to_bytes(APPLICATION_BYTES, "big")
    # (not by `rglob`, which fails where a folder goes meanwhile)
    for path in sorted(pathlib.Path(of, name) for of, _, names in os.walk(folder) for name in names if ".note" in name):
        with suppress(OSError):
            if path.is_file() and not path.is_symlink() and _begin(path).endswith(application):
                yield path


def _begin(path: pathlib.Path) -> bytes:
    with open(path, "rb") as file:
        return file.read(APPLICATION_AT + APPLICATION_BYTES)


def _see_engines_end(folder: pathlib.Path) -> None:
    """Waits until no engine has a note open."""
    locks = [pathlib.Path(of, name) for of, _, names in os.walk(folder) for name in names if name.endswith(".lock")]
    with suppress(AssertionError):
        wait_for(lambda: not any(map(_is_locked, locks)), "engines to end", ENGINE_SECONDS)


def _is_locked(path: pathlib.Path) -> bool:
    with suppress(FileNotFoundError), open(path, "rb") as file:
        try:
            fcntl.flock(file, fcntl.LOCK_SH | fcntl.LOCK_NB)
        except BlockingIOError:
            return True
    return False
