"""A log in a file of SQLite, for all processes of one machine, and for all accounts that may write its folder."""
import contextlib
import os
import pathlib
import re
import stat
import time
from collections.abc import Iterator, Sequence

from share.format.entry import HEAD, MOST_BYTES, NOTE_BYTES, digest
from share.format.presence import MOST_PRESENCE
from share.log.base import MOST_ON, ON_SECONDS, READ_AT_ONCE, START, InLog, Log, LogLost, Unreachable
from share.log.bell import Bell
from share.log.folder import Inode, held, inode_of, make_folder
from share.log.sqlite_file import RETRY_SECONDS, SIDE_FILES, Busy, Malformed, SqliteFile, begins_as, beside, says_application, set_aside
from share.text.errors import Gone, Trouble, later

# Tells a log from other files of SQLite, notes' files among them, in its header.
LOG_APPLICATION = 0x56534E4C
# Unreleased versions kept a note in such a file.
GONE_APPLICATION = 0x56534E31
# Above a greater place SQLite would look for a free one below it.
GREATEST_LOG_PLACE = 2**62
# A mark tells an entry from another one that took its place in a log that was put back.
LOG_SCHEMA = """
    CREATE TABLE header (note BLOB NOT NULL);
    CREATE TABLE entry (place INTEGER PRIMARY KEY, hash BLOB UNIQUE, raw BLOB NOT NULL,
                        mark INTEGER NOT NULL DEFAULT (random()));
    CREATE TABLE presence (token BLOB PRIMARY KEY, seen REAL NOT NULL, said BLOB NOT NULL);
    CREATE TABLE taken_out (one INTEGER PRIMARY KEY CHECK (one = 1), many INTEGER NOT NULL);
"""
LOG_TABLES = "header", "entry", "presence", "taken_out"
# All that is read may have been written by another program, so its type and its length are looked at first.
NOTES = "SELECT note FROM header WHERE typeof(note) = 'blob' AND length(note) = ?"
OF_OTHERS = ("SELECT EXISTS (SELECT 1 FROM entry WHERE typeof(raw) = 'blob' AND length(raw) BETWEEN ? AND ? AND "
             "substr(raw, 3, ?) <> ?)")
HELD = "SELECT place, raw = ? FROM entry WHERE hash = ?"
# How many entries were taken out of it.
MANY_TAKEN_OUT = "SELECT coalesce(max(CAST(many AS INTEGER)), 0) FROM taken_out"
# The last one stays, since somebody may have read up to it, and another one would get its place.
TAKE_OUT = "DELETE FROM entry WHERE hash = ? AND place < (SELECT max(place) FROM entry)"
TOOK_OUT = ("INSERT INTO taken_out VALUES (1, ?) "
            "ON CONFLICT (one) DO UPDATE SET many = many + excluded.many")
ADD = "INSERT INTO entry (hash, raw) VALUES (?, ?)"
STANDS = "SELECT EXISTS (SELECT 1 FROM entry WHERE place = ? AND coalesce(CAST(mark AS INTEGER), 0) = ?)"
AT = "SELECT EXISTS (SELECT 1 FROM entry WHERE place = ?)"
AFTER = ("SELECT place, coalesce(CAST(mark AS INTEGER), 0), CASE WHEN typeof(raw) = 'blob' AND length(raw) <= ? "
         "THEN raw END FROM entry WHERE place > ? ORDER BY place LIMIT ?")
LAST = ("SELECT place, coalesce(CAST(mark AS INTEGER), 0), (SELECT count(*) FROM entry) FROM entry ORDER BY place DESC LIMIT 1")
ON = "SELECT said FROM presence WHERE typeof(said) = 'blob' AND length(said) <= ? ORDER BY seen DESC LIMIT ?"
FILE_PLACE = re.compile(r"([0-9]{1,19})\.(-?[0-9]{1,19})")


class SqliteLog(Log):
    """A log in a file. Writers of the file go one after the other, so places rise as entries are committed."""

    can_take_out = True

    def __init__(self, path: pathlib.Path, note: bytes):
        self.path, self._note = path, note
        self._beside = [str(beside(path, end)) for end in SIDE_FILES]
        # Whether the file was seen to be a log, so that it may be set aside where it is damaged.
        self._is_log = False
        # How many entries had been taken out as it was read last.
        self._size = self._taken_out = 0
        try:
            _make_log(path)
        except OSError as why:
            raise Unreachable(f"{why.filename or path}: {why.strerror}") from why
        self._inode = inode_of(path)
        with self._told():
            self._file = SqliteFile(path, bounded=True)
        try:
            with self._told(), self._file.used():
                self._open()
            self._check()
        except BaseException:
            self._file.close()
            raise

    def append(self, raws: Sequence[bytes]) -> None:
        with self._at_file(), self._file.transaction():
            for raw in raws:
                self._append(raw, digest(raw))

    def take_out(self, fold: bytes, folded: Sequence[bytes]) -> None:
        with self._at_file(), self._file.transaction():
            held = self._file.execute(HELD, (fold, digest(fold))).fetchone()
            if not (held and held[1]):
                return
            if many := self._file.executemany(TAKE_OUT, ((digest(raw),) for raw in folded)):
                self._file.execute(TOOK_OUT, (many,))

    def read(self, after: str) -> list[InLog]:
        with self._at_file():
            place, room, rows = self._stands(after), self.most_read, list[tuple[int, int, bytes | None]]()
            for row in self._file.execute(AFTER, (MOST_BYTES, place, READ_AT_ONCE)):
                rows.append(row)
                room -= len(row[2] or b"")
                if room <= 0:
                    break
        self.at_end = room > 0 and len(rows) < READ_AT_ONCE
        if rows and rows[-1][0] > GREATEST_LOG_PLACE:
            raise self._set_aside("has a place that can't be")
        return [InLog(f"{place}.{mark}", raw) for place, mark, raw in rows]

    def watch(self, after: str, seconds: float, bell: Bell | None = None) -> None:
        with contextlib.nullcontext(bell) if bell else contextlib.closing(Bell()) as waking:
            self._watch(_place_and_mark(after)[0], time.monotonic() + seconds, waking)

    def _watch(self, place: int, end: float, bell: Bell) -> None:
        while True:
            with self._at_file():
                # Where there are fewer, a reading says what happened.
                if self._file.one("SELECT coalesce(max(place), 0) FROM entry") != place:
                    return
            if time.monotonic() >= end or bell.waits(RETRY_SECONDS):
                return

    def size(self) -> int:
        with self._at_file():
            return self._file.one("SELECT count(*) FROM entry") + self._many_taken_out()

    def size_to(self, after: str) -> int:
        with self._at_file():
            return self._file.one("SELECT count(*) FROM entry WHERE place <= ?", _place_and_mark(after)[0]) + self._many_taken_out()

    def end(self) -> tuple[str, int]:
        with self._at_file():
            # (first, so that what is taken out meanwhile is seen later)
            self._many_taken_out()
            found = self._file.execute(LAST).fetchone()
        return (f"{found[0]}.{found[1]}", found[2]) if found else (START, 0)

    def bytes_kept(self) -> int:
        with self._at_file():
            return self._file.one("PRAGMA page_count") * self._file.one("PRAGMA page_size")

    def meet(self, token: bytes, presence: bytes) -> list[bytes]:
        now = time.time()
        with self._at_file(), self._file.transaction():
            self._file.execute("DELETE FROM presence WHERE NOT seen BETWEEN ? AND ?", (now - ON_SECONDS, now))
            self._file.execute("INSERT OR REPLACE INTO presence VALUES (?, ?, ?)", (token, now, presence))
            return [said for said, in self._file.execute(ON, (MOST_PRESENCE, MOST_ON))]

    def quick(self) -> None:
        with self._at_file():
            self._file.quick()

    def leave(self, token: bytes) -> None:
        with self._at_file():
            self._file.execute("DELETE FROM presence WHERE token = ?", (token,))

    def close(self) -> None:
        self._file.close()

    def _open(self) -> None:
        if self._file.application() != LOG_APPLICATION:
            self._create()
        if self._file.application() != LOG_APPLICATION:
            raise self._no_log()
        if self._file.is_later([LOG_APPLICATION]):
            raise later(str(self.path))
        self._is_log = True
        if not self._file.has_tables(LOG_TABLES):
            raise self._set_aside("is damaged (it lacks some of its tables)")
        self._find_note()
        if not self._file.write_ahead():
            raise Unreachable(f"{self.path}: SQLite can't write ahead in this folder")
        self._file.safe()
        self._first = self._file.one("SELECT coalesce(min(place), 0) FROM entry")
        self._taken_out = self._many_taken_out()
        self._helpers = self._helping()
        if None in self._helpers:
            raise LogLost(f"{self.path} was changed by another program.")

    def _create(self) -> None:
        with self._file.transaction():
            # Another process may have been quicker.
            if not self._file.one("SELECT count(*) FROM sqlite_master"):
                self._file.create(LOG_SCHEMA, LOG_APPLICATION)
                self._file.execute("INSERT INTO header VALUES (?)", (self._note,))

    def _find_note(self) -> None:
        """Sees that the log is this note's, before anything is written."""
        notes = {note for note, in self._file.execute(NOTES, (NOTE_BYTES,))}
        if self._note in notes:
            return
        if notes or self._file.one(OF_OTHERS, HEAD.size, MOST_BYTES, NOTE_BYTES, self._note):
            raise Trouble(f"{self.path} is the log of another note. Name another file, or another note.")
        with self._file.transaction():
            self._file.execute("DELETE FROM header")
            self._file.execute("INSERT INTO header VALUES (?)", (self._note,))

    def _append(self, raw: bytes, hashed: bytes) -> None:
        held = self._file.execute(HELD, (raw, hashed)).fetchone()
        if held and held[1]:
            return
        if held:
            # The bytes that were under this hash were damaged; the right ones get a place of their own.
            self._file.execute("UPDATE entry SET hash = NULL WHERE place = ?", (held[0],))
        self._file.execute(ADD, (hashed, raw))

    def _stands(self, after: str) -> int:
        """The place after which is read. A log that was put back, or lost its first entries, is seen by what
        is missing of it, where nothing was taken out since it was read last."""
        place, mark = _place_and_mark(after)
        first, before, taken_out = self._file.one("SELECT coalesce(min(place), 0) FROM entry"), self._first, self._many_taken_out()
        if taken_out > self._taken_out and first > before:
            before = first
        stands = after == START or self._file.one(STANDS, place, mark) or taken_out > self._taken_out and not self._file.one(AT, place)
        if not stands or before and first != before:
            raise LogLost(f"{self.path} has lost entries.")
        self._first, self._taken_out = first, taken_out
        return place

    def _many_taken_out(self) -> int:
        self.taken_out = self._file.one(MANY_TAKEN_OUT)
        return self.taken_out

    @contextlib.contextmanager
    def _at_file(self) -> Iterator[None]:
        """What is done is done to the file that is at the path, or else it raises LogLost: SQLite goes on with a
        file that was removed, and what it commits there nobody reads."""
        self._check()
        with self._told(), self._file.used():
            yield
        self._check()

    def _check(self) -> None:
        with self._file_words():
            now = os.stat(self.path)
        if (now.st_dev, now.st_ino) != self._inode:
            raise LogLost(f"{self.path} was replaced.")
        if not now.st_size:
            raise self._set_aside("was emptied")
        if now.st_size < self._size or self._helping() != self._helpers:
            raise self._set_aside("was changed by another program")
        self._size = now.st_size

    def _helping(self) -> list[Inode | None]:
        """The files beside the log, which all who are at it have to have in common: who opens it when one was
        removed makes another one, and neither sees what the other commits."""
        return [*map(inode_of, self._beside)]

    def _set_aside(self, what: str) -> Exception:
        """Renames a damaged log, so that a new one can be made in its place, and gives what is to be raised.

        It is renamed while it is open, since SQLite writes to a file that it closes, unless it was moved."""
        try:
            with held(self.path.parent):
                if inode_of(self.path) != self._inode:
                    return LogLost(f"{self.path} was replaced.")
                aside = set_aside(self.path)
        except OSError as why:
            return Unreachable(f"{self.path} {what}, and can't be set aside: {why.strerror}")
        return LogLost(f"{self.path} {what}; it is kept as {aside.name}.")

    @contextlib.contextmanager
    def _file_words(self) -> Iterator[None]:
        try:
            yield
        except FileNotFoundError as why:
            raise LogLost(f"{why.filename} was removed.") from why
        except OSError as why:
            raise Unreachable(f"{why.filename or self.path}: {why.strerror}") from why

    @contextlib.contextmanager
    def _told(self) -> Iterator[None]:
        try:
            yield
        except Busy as why:
            raise Unreachable(f"{self.path}: {why}") from why
        except Malformed as why:
            if not (self._is_log or begins_as(self.path, LOG_APPLICATION)):
                raise self._no_log() from why
            raise self._set_aside(f"is damaged ({why})") from why

    def _no_log(self) -> Trouble:
        if says_application(self.path, GONE_APPLICATION):
            return Gone()
        return Trouble(f"{self.path} isn't a note's log. Move it away, or name another file.")


def _place_and_mark(after: str) -> tuple[int, int]:
    """The number and the mark of a place."""
    if after == START:
        return 0, 0
    if not (found := FILE_PLACE.fullmatch(after)):
        raise LogLost("The place after which was to be read is another log's.")
    return int(found[1]), int(found[2])


def _make_log(path: pathlib.Path) -> None:
    """Makes the file where it isn't there, so that nobody else reads it: only a folder whose files are a group's
    has its log shared with the group."""
    if os.path.lexists(path):
        if not path.is_file() and (path.exists() or path.is_symlink()):
            raise Trouble(f"{path} isn't a file, so it can't be a note's log. Name another one.")
        return
    make_folder(path.parent)
    shared = stat.S_ISGID | stat.S_IWGRP
    mode = 0o660 if path.parent.stat().st_mode & shared == shared else 0o600
    with held(path.parent) as folder, contextlib.suppress(FileExistsError):
        file = os.open(path, os.O_RDWR | os.O_CREAT | os.O_EXCL | os.O_CLOEXEC, 0o600)
        try:
            os.fchmod(file, mode)
        finally:
            os.close(file)
        os.fsync(folder)
