"""One person's file of a note: all entries that came, and what is this person's alone.

It is a file of SQLite. What a call wrote is on the disk when it returns. The whole note is in it, so a note is
opened, read and edited with no log at all; whoever has it open can write it anew from memory. Several editors
of one person have it open at once: each reads what the others wrote.
"""
import contextlib
import os
import pathlib
import secrets
import sqlite3
from collections.abc import Callable, Iterable, Mapping, Sequence
from dataclasses import dataclass, replace

from share.admission.ledger import Row
from share.format.entry import NOTE_BYTES, Copy, Entry, Form, Plain, digest
from share.format.second.claim import ZERO_BITS
from share.format.second.form import PlainRecords, SealedRecords
from share.log.folder import Inode, held, inode_of, make_folder
from share.log.sqlite_file import SIDE_FILES, Busy, Malformed, SqliteFile, beside, set_aside
from share.store.entries import ADD_ENTRY, ENTRIES_SCHEMA, Entries, entry_values, never_offered
from share.store.guarded import Damaged, GuardedFile, Unkept
from share.store.locks import Locks
from share.store.own import ADD_CLIENT, OWN_SCHEMA, OWN_SCHEMA_OF_TEXTS, OWN_TABLES, Anew, Client, OwnTables, add_anew, anew_values
from share.text.errors import entries as many_entries

# Tells a note's file from other files of SQLite, in its header, by the note's form.
FIRST, SECOND = 1, 2
NOTE_APPLICATIONS = {FIRST: 0x56534E32, SECOND: 0x56534E33}
NOTE_SCHEMA = f"CREATE TABLE about (name TEXT PRIMARY KEY, value BLOB NOT NULL); {ENTRIES_SCHEMA}"
NOTE_TABLES = "about", "entry", "withdrawn", *OWN_TABLES
IN_DOUBT = "in doubt"
# How long the key is of a note that is sealed, or of the second form.
SECRET_KEY_BYTES = 32
# Tests alone search for claims of fewer zeros: nobody else takes these for claims.
ZERO_BITS_OF_TESTS = "VIALSHOAL_ZERO_BITS"


@dataclass(frozen=True)
class About:
    """What note a file is of: whether it is sealed, its key or identity, where its log is, if anywhere, and its form."""

    sealed: bool
    secret: bytes
    url: str = ""
    form_number: int = FIRST

    def form(self) -> Form:
        """How its entries are spelled."""
        if self.form_number == SECOND:
            zero_bits = int(os.environ.get(ZERO_BITS_OF_TESTS, ZERO_BITS))
            return SealedRecords(self.secret, zero_bits) if self.sealed else PlainRecords(self.secret, zero_bits)
        if not self.sealed:
            return Plain(self.secret)
        # Loaded where it is needed, since it needs a module that Python doesn't bring.
        from share.format.sealed import Sealed
        return Sealed(self.secret)


class Disk:
    """A note's file, as one thread has it open: its entries, what is its person's own, and the locks on the numbers."""

    def __init__(self, path: pathlib.Path):
        self.path = path
        self._file = GuardedFile(path, NOTE_APPLICATIONS.values(), NOTE_TABLES)
        self._locks = Locks(path)
        try:
            with self._file.reading():
                self.about = about_of(self._file.sql)
            self.form = self.about.form()
            self.inode = self._file.inode
            self.entries = Entries(self._file, self.form, self.about.sealed)
            self.own = OwnTables(self._file, self.about.form_number == SECOND)
            self._noted_of = noted_of(self.form, self.inode)
        except BaseException:
            self.close()
            raise
        # Whether it was seen that it has all that is noted.
        self._is_whole = False

    def again(self) -> "Disk":
        """The same file, for another thread."""
        return Disk(self.path)

    def is_in_place(self) -> bool:
        """Whether the file is still the one under its name, and the locks are where others look for them."""
        return self._file.is_in_place() and self._locks.is_in_place()

    def look(self, has_all: Callable[["Disk"], bool], at_end: bool = False) -> bool:
        """Sees that the file is what was written, and where another program wrote to it that it has all that is to be there; whether it
        was seen without reading it again, so that all of this is so now."""
        if not self.is_in_place():
            raise Damaged(f"{self.path} was taken away")
        return self._file.look(lambda: self._has_still(has_all), at_end)

    def look_at_unseen(self) -> bool:
        """Looks whether all can be read that SQLite wrote to the file itself, where nobody has since; any thread may do so."""
        return self._file.look_at_unseen(lambda: self._has_still(lambda again: again.entries.are_whole()))

    def _has_still(self, has_all: Callable[["Disk"], bool]) -> None:
        with contextlib.closing(self.again()) as again:
            again.check()
            if not has_all(again):
                raise Damaged(f"{self.path} lacks what it had")

    def lacks(self) -> int:
        """How many entries it had, as was noted beside it, and hasn't."""
        # What is noted meanwhile is there.
        noted = self._locks.noted(self._noted_of)
        return max(0, noted - self.entries.greatest_place())

    def check(self) -> None:
        """Looks whether all of the file can be read."""
        self._file.check()

    def has_changed(self) -> bool:
        """Whether another connection wrote since this was last asked."""
        return self._file.has_changed()

    def restore(self, rows: Mapping[bytes, Row], withdrawn: Iterable[bytes], hidings: Iterable[Copy] = (),
                clients: Iterable[Client] = (), anew: Iterable[Copy] = ()) -> None:
        """Puts back what the file had, where it lacks it. A log may have been offered any of it."""
        with self._file.writing():
            self.own.restore(clients, anew, hidings)
            self.entries.restore(rows, withdrawn)

    def point_to(self, url: str) -> None:
        """Notes that the log is at another place."""
        with self._file.writing():
            self._file.sql.execute("UPDATE about SET value = ? WHERE name = 'url'", (url,))
        self.about = replace(self.about, url=url)

    def keep(self, entries: Sequence[Entry], made: bool, client: Client | None = None, retired: Sequence[Client] = (),
             anew: Sequence[Anew] = (), hidings: Sequence[Copy] = (), is_seen: bool = False) -> range:
        """Writes entries; with them, all or nothing, a number that was claimed, those that are given up,
        what was made anew, and which messages hide copies. Gives the places of those that it lacked. Who has just seen by `look` that the
        file is in its place says so."""
        self._be_whole(is_seen)
        with self._file.writing(is_seen):
            if client:
                self.own.add_client(client)
            if retired:
                self.own.retire(retired)
            places = self.entries.put(entries, made)
            if anew:
                self.own.add_anew(anew)
            self.own.add_hidings(hidings)
        # Where what is committed is lost with SQLite's log, the next opening tells.
        self._locks.note(self._noted_of, places.stop - 1)
        return places

    def receive(self, rows: Sequence[Row]) -> tuple[int, list[Row]]:
        """Writes entries that a log has; the last place before them, and with their places, which follow it, those that are new."""
        self._be_whole()
        with self._file.writing():
            before, new = self.entries.receive(rows)
        self._locks.note(self._noted_of, before + len(new))
        return before, new

    def _be_whole(self, is_seen: bool = False) -> None:
        """Raises Damaged where nothing may be written: what came to the places of what was lost would hide that."""
        if not (is_seen or self.is_in_place()):
            raise Damaged(f"{self.path} was taken away")
        if not self._is_whole and (many := self.lacks()):
            raise Damaged(f"{self.path} has lost {many_entries(many)} that it had")
        self._is_whole = True

    def share_name(self) -> bool:
        """Keeps the file from being renamed or deleted as long as this is open; whether nobody is about to."""
        return self._locks.share_name()

    def lock(self, site: int) -> bool:
        """Keeps others from writing under a number as long as this file is open; whether nobody did."""
        return self._locks.lock(site)

    def unlock(self, site: int) -> None:
        """Lets others write under a number again."""
        self._locks.unlock(site)

    def locked(self) -> int:
        """How many numbers others have locked."""
        return sum(self._locks.is_locked(client.site) for client in self.own.clients() if not client.copied)

    def take_locks(self, other: "Disk") -> None:
        """Goes on with the locks of the file that was open before, so that nobody has them meanwhile."""
        self._locks.take(other._locks)
        if not self.is_in_place():
            self._locks.leave()
            self._locks.share_name()

    def unsent(self) -> int:
        """How many edits of this file's person aren't known to be in the log, as far as the file says."""
        with self._file.reading():
            return unsent_of(self._file.sql, self.form)

    def note_unsent(self, unsent: int, is_new: bool) -> None:
        """Notes, for who looks without the log, how many of the edits that it lacks it was offered: it may have been gone by then.
        Where that isn't new, only if some were noted."""
        with self._file.reading():
            noted = in_doubt_of(self._file.sql)
        if is_new or noted:
            with self._file.writing():
                now = max(0, unsent - self._file.sql.one(never_offered(self.form)))
                self._file.sql.execute("INSERT OR REPLACE INTO about VALUES (?, ?)", (IN_DOUBT, now))

    def tidy(self, look: Callable[[], object]) -> None:
        """Does what writing would do now and then, while there is time, where there is something to do and nothing wrong is seen."""
        if self._file.has_long_log():
            look()
            self._file.shorten_log()

    def quick(self) -> None:
        """What is written from now on lasts over kills, and not over the loss of power."""
        self._file.sql.quick()

    def close(self) -> None:
        """Lets go of the file and of the locks."""
        self._file.close()
        self._locks.close()


def noted_of(form: Form, inode: Inode | None) -> bytes:
    """What tells of which file it is noted how many entries it had: another one that took its name has others at its places."""
    return digest(form.note + repr(inode).encode())


def about_of(file: SqliteFile) -> About:
    """What a file says of the note that it is of."""
    found = dict(file.execute("SELECT name, value FROM about"))
    if not {"sealed", "secret", "url"} <= found.keys():
        raise Damaged("it doesn't say which note it is of")
    secret, url, number = found["secret"], found["url"], found.get("form", FIRST)
    size = SECRET_KEY_BYTES if found["sealed"] or number == SECOND else NOTE_BYTES
    if not isinstance(secret, bytes) or len(secret) != size or not isinstance(url, str) or number not in NOTE_APPLICATIONS:
        raise Damaged("it doesn't say which note it is of")
    return About(bool(found["sealed"]), secret, url, number)


def unsent_of(file: SqliteFile, form: Form) -> int:
    """How many edits of a file's person aren't known to be in a log, as far as the file says."""
    return file.one(never_offered(form)) + in_doubt_of(file)


def in_doubt_of(file: SqliteFile) -> int:
    """How many of them were offered."""
    found = file.execute("SELECT value FROM about WHERE name = ?", (IN_DOUBT,)).fetchone()
    return found[0] if found and isinstance(found[0], int) else 0


def make_note(path: pathlib.Path, about: About, rows: Iterable[Row] = (), clients: Iterable[Client] = (),
              anew: Iterable[Anew] = (), withdrawn: Iterable[bytes] = (), offered: bool = False,
              damaged: Inode | None = None) -> pathlib.Path | None:
    """Writes a note's file, with these rows, which a log may have been offered. It is made under a name of its own first.
    Where one is there nothing happens, unless that is the damaged one: that is set aside, under the name that is given."""
    new = path.with_name(f".{path.name}.{secrets.token_hex(4)}")
    try:
        make_folder(path.parent)
        os.close(os.open(new, os.O_RDWR | os.O_CREAT | os.O_EXCL, 0o600))
        with contextlib.closing(SqliteFile(new)) as file:
            file.execute("PRAGMA journal_mode = MEMORY")
            with file.transaction():
                has_texts = about.form_number == SECOND
                file.create(f"{NOTE_SCHEMA} {OWN_SCHEMA_OF_TEXTS if has_texts else OWN_SCHEMA}", NOTE_APPLICATIONS[about.form_number])
                file.executemany("INSERT INTO about VALUES (?, ?)", [
                    ("sealed", int(about.sealed)), ("secret", about.secret), ("url", about.url)]
                    + ([("form", about.form_number)] if about.form_number != FIRST else []))
                file.executemany(f"INSERT {ADD_CLIENT}", (one.values() for one in clients))
                file.executemany(f"INSERT {add_anew(has_texts)}", anew_values(anew, has_texts))
                file.executemany("INSERT INTO withdrawn (hash) VALUES (?)", ((one,) for one in withdrawn))
                file.executemany(ADD_ENTRY, (entry_values(row.entry, row.made, offered, about.sealed) for row in rows))
            # Lets readers and a writer be at the file at once.
            file.execute("PRAGMA journal_mode = WAL")
        return _put_in_place(new, path, damaged)
    except (sqlite3.Error, Busy, Malformed, OSError) as why:
        raise Unkept(f"{path}: {why}") from why
    finally:
        for end in "", *SIDE_FILES:
            beside(new, end).unlink(missing_ok=True)


def _put_in_place(new: pathlib.Path, path: pathlib.Path, damaged: Inode | None) -> pathlib.Path | None:
    """Gives a new file its name, where none has it or the one that has it is damaged; the name under which that one is then."""
    aside = None
    with held(path.parent) as folder:
        if damaged and inode_of(path) == damaged:
            aside = set_aside(path)
        if not path.exists():
            # What an older file left. Where another editor was quicker its file's are in use.
            for end in SIDE_FILES:
                beside(path, end).unlink(missing_ok=True)
            os.link(new, path)
            os.fsync(folder)
    return aside
