"""A file of SQLite that several processes have open at once, and that other programs may have written to: how it is opened, written in
transactions, and set aside where it is damaged."""
import contextlib
import itertools
import os
import pathlib
import re
import shutil
import sqlite3
import tempfile
import time
from collections.abc import Collection, Iterable, Iterator, Sequence
from urllib.parse import quote

from share.text.errors import Trouble

# What belongs to a file that is read and written by several at once: what was written last, and where that is found.
WRITTEN_AHEAD, INDEX = "-wal", "-shm"
SIDE_FILES = WRITTEN_AHEAD, INDEX
# How long SQLite waits for another writer, and how often is tried again what it doesn't wait for by itself.
LOCK_SECONDS, RETRY_SECONDS = 10, 0.03
# The steps of SQLite's that are counted at once, and how often that is done before a reading is stopped. The entries of the longest
# note take half of that at most.
STEPS_A_TICK, MOST_TICKS = 1_000_000, 100
# How often a file that is written to meanwhile is copied again, and after how many seconds.
COPY_TRIES, COPY_AGAIN_SECONDS = 20, 0.1
# How a file begins, and where its header has the number that tells programs' files apart.
SQLITE_BEGIN, HEADER_SIZE = b"SQLite format 3\0", 100
APPLICATION_ID = slice(68, 72)
# The greatest number by which a file can say of which form a note is; and what else a file says that this version makes. Greater ones
# are of later versions.
GREATEST_FORM, FILE_VERSION = 0x56534E39, 0
# What SQLite says where a table isn't as it was made. Python 3.10 has no numbers for that.
OTHER_TABLES = re.compile(r"no such (table|column)|has no column|cannot modify|malformed|may not be modified")


class Busy(Exception):
    """SQLite can't do it now, and may later: another process writes, the disk is full, or it takes too long."""


class Malformed(Exception):
    """The file isn't as it was made: it is damaged, or another program's."""


class SqliteFile:
    """A file of SQLite that is there, as one thread has it open. `bounded` stops a reading that takes more steps than any of a note does:
    in a file that somebody else may have made there can be a view without end."""

    def __init__(self, path: pathlib.Path, writes: bool = True, bounded: bool = False):
        self.path = path
        self._ticks = 0
        with FAULTS:
            self._file = sqlite3.connect(_uri(path, f"mode={'rw' if writes else 'ro'}"), uri=True, timeout=LOCK_SECONDS,
                                         isolation_level=None)
        self._file.text_factory = as_text
        if bounded:
            self._file.set_progress_handler(self._ticked, STEPS_A_TICK)

    @contextlib.contextmanager
    def used(self) -> Iterator[None]:
        """What is done meanwhile is one reading; where it fails Busy or Malformed says so."""
        self._ticks = 0
        with FAULTS:
            yield

    def execute(self, question: str, values: Sequence[object] = ()) -> sqlite3.Cursor:
        """What SQLite answers."""
        return self._file.execute(question, values)

    def executemany(self, question: str, rows: Iterable[Sequence[object]]) -> int:
        """The same for each of some rows; how many rows of the table that changed."""
        return max(0, self._file.executemany(question, rows).rowcount)

    def one(self, question: str, *values: object) -> int:
        """The number that SQLite answers."""
        found: int = self._file.execute(question, values).fetchone()[0]
        return found

    def transaction(self) -> contextlib.AbstractContextManager[None]:
        """What is written meanwhile is written as a whole or not at all."""
        return _Transaction(self._file)

    def create(self, schema: str, application: int) -> None:
        """Makes the tables of an empty file, and says whose file it is."""
        for statement in schema.split(";"):
            self._file.execute(statement)
        self._file.execute(f"PRAGMA application_id = {application}")

    def application(self) -> int:
        """Which program's file it says that it is."""
        return self.one("PRAGMA application_id")

    def is_later(self, known: Collection[int]) -> bool:
        """Return whether a later version of vialshoal made the file.

        `known` are the numbers that this version knows of files of this kind.
        """
        application = self.application()
        return max(known) < application <= GREATEST_FORM or application in known and self.one("PRAGMA user_version") > FILE_VERSION

    def has_tables(self, names: Collection[str]) -> bool:
        """Whether it has all of these tables."""
        return self.one(f"SELECT count(*) FROM sqlite_master WHERE type = 'table' AND name IN ({', '.join('?' * len(names))})",
                        *names) == len(names)

    def write_ahead(self) -> bool:
        """Lets readers and a writer be at the file at once; whether SQLite can do so in this folder. Where others open it, too, SQLite
        doesn't wait by itself."""
        end = time.monotonic() + LOCK_SECONDS
        while True:
            try:
                if self._file.execute("PRAGMA journal_mode = WAL").fetchone()[0] == "wal":
                    return True
            except sqlite3.OperationalError as why:
                if "locked" not in str(why) or time.monotonic() >= end:
                    raise
            if time.monotonic() >= end:
                return False
            time.sleep(RETRY_SECONDS)

    def safe(self) -> None:
        """What is committed lasts even where the machine loses power."""
        self._file.execute("PRAGMA synchronous = FULL")

    def quick(self) -> None:
        """What is committed lasts over kills, and not over the loss of power."""
        self._file.execute("PRAGMA synchronous = NORMAL")

    def keep_log_short(self, pages: int) -> None:
        """Has what is written ahead go into the file as soon as it has this many pages."""
        self._file.execute(f"PRAGMA wal_autocheckpoint = {pages}")

    def shorten_log(self) -> None:
        """Has what is written ahead go into the file now, as far as nobody reads what was there before."""
        self._file.execute("PRAGMA wal_checkpoint(PASSIVE)").fetchall()

    def close(self) -> None:
        """Lets go of the file."""
        self._file.close()

    def _ticked(self) -> bool:
        self._ticks += 1
        return self._ticks > MOST_TICKS


class _Transaction(contextlib.AbstractContextManager[None]):
    """A transaction. Each key has one, which made by a generator would take four times as many calls."""

    def __init__(self, file: sqlite3.Connection):
        self._file = file

    def __enter__(self) -> None:
        self._file.execute("BEGIN IMMEDIATE")

    def __exit__(self, _: object, why: BaseException | None, where: object) -> None:
        try:
            if why is None:
                self._file.execute("COMMIT")
        finally:
            # Where the disk is full SQLite may have rolled back by itself.
            if self._file.in_transaction:
                self._file.execute("ROLLBACK")


class _Faults(contextlib.AbstractContextManager[None]):
    """Says of what SQLite raises whether the file is to blame."""

    def __enter__(self) -> None:
        pass

    def __exit__(self, _: object, why: BaseException | None, where: object) -> None:
        if why is not None and (fault := fault_in(why)) is not why:
            raise fault from why


def fault_in(why: BaseException) -> BaseException:
    """What SQLite raised, as Busy or Malformed, which say whether the file is to blame; anything else as it is."""
    if isinstance(why, sqlite3.DatabaseError) and not isinstance(why, sqlite3.ProgrammingError):
        is_busy = isinstance(why, sqlite3.OperationalError) and not OTHER_TABLES.search(str(why))
        return (Busy if is_busy else Malformed)(str(why))
    if isinstance(why, UnicodeDecodeError):
        # Python reads the names of columns by itself, as UTF-8 only.
        return Malformed(f"a name in it is no text: {why}")
    return why


# It has nothing of its own, so there is one for all.
FAULTS = _Faults()


def as_text(data: bytes) -> str:
    """What has the type of a text in a file, also where another program wrote bytes there that are none."""
    return data.decode("utf-8", "surrogateescape")


def beside(path: pathlib.Path, end: str) -> pathlib.Path:
    """What belongs to a file."""
    return path.with_name(path.name + end)


def set_aside(path: pathlib.Path) -> pathlib.Path:
    """Gives a file that can't be used a name of its own, with what belongs to it; that name. Who may make files in the folder has to
    hold it meanwhile."""
    aside = next(one for number in itertools.count(1) if not os.path.lexists(one := beside(path, f".damaged-{number}")))
    for end in "", *SIDE_FILES:
        with contextlib.suppress(FileNotFoundError):
            os.rename(beside(path, end), beside(aside, end))
    return aside


@contextlib.contextmanager
def copied(path: pathlib.Path) -> Iterator[pathlib.Path]:
    """Copy a file as it stands. SQLite would write beside the file if it opened the file itself, and can't in a folder that can't be
    written."""
    with tempfile.TemporaryDirectory(prefix="vialshoal-") as folder:
        copy = pathlib.Path(folder) / "log.db"
        for _ in range(COPY_TRIES):
            before = _sizes_and_times(path)
            for end in (WRITTEN_AHEAD, ""):
                with contextlib.suppress(FileNotFoundError):
                    os.unlink(f"{copy}{end}")
                if os.path.exists(f"{path}{end}"):
                    shutil.copyfile(f"{path}{end}", f"{copy}{end}")
            if _sizes_and_times(path) == before:
                break
            time.sleep(COPY_AGAIN_SECONDS)
        else:
            raise Trouble(f"{path} is being written to. Quit the editors that have it open, and try again.")
        yield copy


def _sizes_and_times(path: pathlib.Path) -> list[tuple[int, int] | None]:
    found: list[tuple[int, int] | None] = []
    for end in ("", WRITTEN_AHEAD):
        try:
            stat = os.stat(f"{path}{end}")
            found.append((stat.st_mtime_ns, stat.st_size))
        except FileNotFoundError:
            found.append(None)
    return found


def begins_as(path: pathlib.Path, application: int) -> bool:
    """Whether a file that SQLite doesn't open begins as one of a program, or as one that a crash left in zeros."""
    with contextlib.suppress(OSError), open(path, "rb") as file:
        head = file.read(HEADER_SIZE)
        return not any(head) or head.startswith(SQLITE_BEGIN) and head[APPLICATION_ID] in (b"", application.to_bytes(4, "big"))
    return False


def says_application(path: pathlib.Path, application: int) -> bool:
    """Return whether a file's header says that it is of a program, without opening it by SQLite."""
    with contextlib.suppress(OSError), open(path, "rb") as file:
        return file.read(HEADER_SIZE)[APPLICATION_ID] == application.to_bytes(4, "big")
    return False


def application_without_log(path: pathlib.Path) -> int:
    """Which program's file the first bytes say that it is, without what was written last."""
    # SQLite itself opens it, which doesn't close what others in this process have open.
    with contextlib.closing(sqlite3.connect(_uri(path, "mode=ro&immutable=1"), uri=True)) as file:
        found: int = file.execute("PRAGMA application_id").fetchone()[0]
    return found


def _uri(path: pathlib.Path, how: str) -> str:
    """What SQLite opens a file by. The host, which is before an absolute path, is empty: the path may itself begin with two slashes."""
    return f"file:{'//' if path.is_absolute() else ''}{quote(os.fsencode(path))}?{how}"
