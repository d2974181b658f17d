"""What is of a person alone in a note's file: the numbers, what was made anew, what hides copies, and which packed file is the newest."""
from collections.abc import Iterable, Sequence
from typing import NamedTuple

from share.format.entry import Author, Copy
from share.format.operation import TEXT
from share.store.guarded import GuardedFile

OWN_SCHEMA = """
    CREATE TABLE client (site INTEGER NOT NULL, author BLOB NOT NULL, secret BLOB NOT NULL,
                         retired INTEGER NOT NULL, stood INTEGER NOT NULL, PRIMARY KEY (site, author));
    CREATE TABLE anew (author BLOB NOT NULL, site INTEGER NOT NULL, seq INTEGER NOT NULL,
                       by_site INTEGER NOT NULL, by_seq INTEGER NOT NULL, PRIMARY KEY (author, site, seq));
    CREATE TABLE hiding (author BLOB NOT NULL, site INTEGER NOT NULL, seq INTEGER NOT NULL, PRIMARY KEY (author, site, seq));
"""
OWN_TABLES = "client", "anew", "hiding"
# Of a note of several texts.
OWN_SCHEMA_OF_TEXTS = OWN_SCHEMA.replace("seq INTEGER NOT NULL, PRIMARY KEY (author, site, seq)",
                                         "seq INTEGER NOT NULL, text INTEGER NOT NULL, PRIMARY KEY (author, site, seq, text)")
ADD_CLIENT, ADD_ANEW, ADD_ANEW_OF_TEXT = ("INTO client VALUES (?, ?, ?, ?, ?)", "INTO anew VALUES (?, ?, ?, ?, ?)",
                                          "INTO anew VALUES (?, ?, ?, ?, ?, ?)")
# Nothing hangs on it, so it is made as it is needed.
PACKED = "CREATE TABLE IF NOT EXISTS packed (site INTEGER PRIMARY KEY, digest BLOB NOT NULL, fronts BLOB NOT NULL)"
HIDE, HIDE_OF_TEXT = "INSERT OR IGNORE INTO hiding VALUES (?, ?, ?)", "INSERT OR IGNORE INTO hiding VALUES (?, ?, ?, ?)"
# The state of a number in its row: 0 if it is used, 1 if it was given up, 2 if the note was copied from another one with it.
RETIRED, COPIED = 1, 2


class Overtaken(Exception):
    """Another editor of this person has made some of these edits anew meanwhile. Nothing was written."""


class Client(NamedTuple):
    """A number that this person has claimed, and who writes under it; whether it was given up, and whether its
    claim was seen in the log with no other for the number, so that it can be typed under. A number that was copied with the
    note is nobody's own: its key is here so that what was written under it can be made anew."""

    site: int
    author: Author
    retired: bool = False
    stood: bool = False
    copied: bool = False

    def values(self) -> tuple[object, ...]:
        """Its row."""
        return self.site, *self.author, COPIED if self.copied else RETIRED * self.retired, self.stood


class Anew(NamedTuple):
    """A message of a number that was given up, and the message that stands for it: none where `by_seq` is 0.
    """

    author: bytes
    site: int
    seq: int
    by_site: int
    by_seq: int
    text: int = TEXT

    @property
    def of(self) -> Copy:
        """The message that was made anew."""
        return Copy(self.author, self.site, self.seq, self.text)


class OwnTables:
    """The tables of a person's own. What writes is called within a transaction, but for what says that it writes by itself."""

    def __init__(self, file: GuardedFile, has_texts: bool):
        self._file, self._sql, self._has_texts = file, file.sql, has_texts
        # What a message is named by, beside what is said of it.
        self._columns = names_of_messages(has_texts)

    def clients(self) -> list[Client]:
        """The numbers of this person, in the order in which they were claimed."""
        with self._file.reading():
            found = self._sql.execute("SELECT * FROM client ORDER BY rowid").fetchall()
        return [Client(site, Author(author, secret), bool(retired), bool(stood), retired == COPIED)
                for site, author, secret, retired, stood in found]

    def add_client(self, client: Client) -> None:
        """Adds a number that was claimed."""
        self._sql.execute(f"INSERT {ADD_CLIENT}", client.values())

    def retire(self, clients: Iterable[Client]) -> None:
        """Gives numbers up."""
        self._sql.executemany("UPDATE client SET retired = max(retired, ?) WHERE site = ? AND author = ?",
                              ((RETIRED, one.site, one.author.name) for one in clients))

    def stands(self, client: Client) -> None:
        """Writes that a claim stands."""
        with self._file.writing():
            self._sql.execute("UPDATE client SET stood = 1 WHERE site = ? AND author = ?", (client.site, client.author.name))

    def anew(self) -> set[Copy]:
        """The messages that others stand for."""
        with self._file.reading():
            return {Copy(*one) for one in self._sql.execute(f"SELECT {self._columns} FROM anew")}

    def add_anew(self, anew: Sequence[Anew]) -> None:
        """Adds what was made anew; Overtaken where some of it was before."""
        known = self.anew()
        if any(one.of in known for one in anew):
            raise Overtaken
        self._sql.executemany(f"INSERT OR IGNORE {add_anew(self._has_texts)}", anew_values(anew, self._has_texts))

    def hidings(self) -> set[Copy]:
        """The messages made here that hide copies, or show them again."""
        with self._file.reading():
            return {Copy(*one) for one in self._sql.execute(f"SELECT {self._columns} FROM hiding")}

    def add_hidings(self, hidings: Iterable[Copy]) -> None:
        """Notes which messages hide copies, or show them again."""
        if found := [*hidings]:
            self._sql.executemany(HIDE_OF_TEXT if self._has_texts else HIDE, (tuple(one)[:4 if self._has_texts else 3] for one in found))

    def restore(self, clients: Iterable[Client], anew: Iterable[Copy], hidings: Iterable[Copy]) -> None:
        """Puts back what the file lacks of these."""
        self._sql.executemany(f"INSERT OR IGNORE {ADD_CLIENT}", (one.values() for one in clients))
        self._sql.executemany(f"INSERT OR IGNORE {add_anew(self._has_texts)}",
                              anew_values((anew_of(one) for one in anew), self._has_texts))
        self.add_hidings(hidings)

    def packed(self, site: int) -> tuple[bytes, bytes] | None:
        """What was noted of a site's packed file: its digest, and how far it goes."""
        with self._file.reading():
            if not self._sql.has_tables(("packed",)):
                return None
            found = self._sql.execute("SELECT digest, fronts FROM packed WHERE site = ?", (site,)).fetchone()
        return found if found and all(isinstance(one, bytes) for one in found) else None

    def note_packed(self, site: int, of: bytes, fronts: bytes) -> None:
        """Writes of a site's packed file that it has this digest, and how far it goes."""
        with self._file.writing():
            self._sql.execute(PACKED)
            self._sql.execute("INSERT OR REPLACE INTO packed VALUES (?, ?, ?)", (site, of, fronts))


def names_of_messages(has_texts: bool) -> str:
    """The columns that say which message a row is of, in a note of several texts or of one."""
    return "author, site, seq, text" if has_texts else "author, site, seq"


def anew_of(one: Copy) -> Anew:
    """What is known of a message alone that was made anew."""
    return Anew(*one[:-1], 0, 0, one.text)


def add_anew(has_texts: bool) -> str:
    """How a row is added of what was made anew, in a note of several texts or of one."""
    return ADD_ANEW_OF_TEXT if has_texts else ADD_ANEW


def anew_values(anew: Iterable[Anew], has_texts: bool) -> list[tuple[object, ...]]:
    """The rows."""
    return [tuple(one) if has_texts else one[:-1] for one in anew]
