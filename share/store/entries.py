"""The entries of a note's file: all that came, whoever wrote it, and which of the own ones were withdrawn."""
import contextlib
import math
import struct
import zlib
from collections.abc import Container, Iterable, Iterator, Mapping, Sequence
from typing import NamedTuple

from share.admission.ledger import Row, Chained
from share.format.entry import MOST_BYTES, NO_HASH, Bad, Entry, EntryKind, FirstForm, Form, digest
from share.format.keystrokes import Keystrokes
from share.format.second.form import RecordForm
from share.store.guarded import GuardedFile
from share.store.chained import LEAST_ROWS, KeptEntry, put_together
from share.store.letters import put_letters_together
from share.text.errors import Gone

ENTRIES_SCHEMA = """
    CREATE TABLE entry (place INTEGER PRIMARY KEY AUTOINCREMENT, hash BLOB NOT NULL UNIQUE, raw BLOB NOT NULL,
                        body BLOB, sum INTEGER NOT NULL, made INTEGER NOT NULL,
                        offered INTEGER NOT NULL DEFAULT 0);
    CREATE TABLE withdrawn (number INTEGER PRIMARY KEY AUTOINCREMENT, hash BLOB NOT NULL UNIQUE);
"""
ADD_ENTRY = ("INSERT INTO entry (hash, raw, body, sum, made, offered) VALUES (?, ?, nullif(?, 0), ?, ?, ?) "
             "ON CONFLICT (hash) DO NOTHING")
AFTER_PLACE = "SELECT place, hash, raw, body, sum, made FROM entry WHERE place > ? ORDER BY place LIMIT ?"
GREATEST_PLACE = "SELECT coalesce(max(seq), 0) FROM sqlite_sequence WHERE name = 'entry'"
ENDS = "SELECT (SELECT coalesce(max(place), 0) FROM entry), (SELECT coalesce(max(number), 0) FROM withdrawn)"
AT_PLACE = "SELECT place, hash, raw, body, sum, made FROM entry WHERE place = ?"
IN_SHORT = """SELECT place, hash, substr(raw, 1, ?), made, offered FROM entry
              WHERE place > ? AND hash NOT IN (SELECT hash FROM withdrawn) ORDER BY place LIMIT ?"""
CLAIMS_MADE = """SELECT place, substr(raw, 1, ?) FROM entry WHERE made AND hex(substr(CAST(raw AS BLOB), 2, 1)) = ? AND
                 hash NOT IN (SELECT hash FROM withdrawn) AND typeof(raw) = 'blob'"""
OF_HASHES = "SELECT hash, place, made > offered FROM entry WHERE hash IN ({}) AND hash NOT IN (SELECT hash FROM withdrawn)"
AFTER_HASHES = f"""SELECT place FROM entry WHERE substr(raw, ?, {len(NO_HASH)}) IN ({{}})
                   AND hash NOT IN (SELECT hash FROM withdrawn) LIMIT ?"""
TAKEN_BACK = "SELECT number, place FROM withdrawn JOIN entry USING (hash) WHERE number > ? ORDER BY number"
# What a log has after all counts, also where it was withdrawn here.
BACK = ("DELETE FROM entry WHERE hash IN (SELECT hash FROM withdrawn WHERE hash = ?)",
        "DELETE FROM withdrawn WHERE hash = ?")
ADDED = "SELECT count(*), coalesce(sum(made), 0), max(place) FROM entry WHERE place > ?"
ADDED_ONE_BY_ONE = "SELECT place, hash, made FROM entry WHERE place > ? ORDER BY place"
NEVER_GIVEN = "FROM entry WHERE hash IN ({}) AND made AND NOT offered AND hash NOT IN (SELECT hash FROM withdrawn)"
# Of this person, by the bytes of their kinds. What the disk damaged may have another type.
NEVER_OFFERED = """SELECT count(*) FROM entry WHERE made AND NOT offered AND hash NOT IN (SELECT hash FROM withdrawn) AND
                   hex(substr(CAST(raw AS BLOB), 2, 1)) IN ({})"""
OFFERED = "UPDATE entry SET offered = 1 WHERE place = ?"
WERE_OFFERED = "SELECT hash FROM entry WHERE offered AND hash IN ({}) AND hash NOT IN (SELECT hash FROM withdrawn)"
RAW_AT = "SELECT raw, hash FROM entry WHERE place = ? AND hash NOT IN (SELECT hash FROM withdrawn)"
# Entries are read from the file in portions of this many, and asked for by no more hashes at once.
ROWS_AT_ONCE, HASHES_AT_ONCE = 5_000, 500


class Located(NamedTuple):
    """Where an entry is in the file, its kind and author, whether this person made it here, and whether a log was
    offered it."""

    place: int
    hash: bytes
    kind: EntryKind
    author: bytes
    made: bool
    offered: bool


class Entries:
    """The entries that a file has. What writes does so by itself, but for `put` and `restore`."""

    def __init__(self, file: GuardedFile, form: Form, sealed: bool):
        self._file, self._sql = file, file.sql
        self._form, self._sealed = form, sealed
        self._looks = form.one_by_one()
        # How many were found damaged, and taken out.
        self.damaged = 0

    def size(self) -> int:
        """How many there are."""
        with self._file.reading():
            return self._sql.one("SELECT count(*) FROM entry")

    def many_of(self, known: Container[bytes]) -> int:
        """How many of these entries the file has as they were written."""
        return sum(is_right and of in known for of, is_right in self._looked_at())

    def are_whole(self) -> bool:
        """Whether all that the file has is as it was written."""
        return all(is_right for _, is_right in self._looked_at())

    def _looked_at(self) -> Iterator[tuple[bytes, bool]]:
        """The hashes that the file has, each with whether its entry is as it was written."""
        with self._file.reading():
            for of, raw, body, check in self._sql.execute("SELECT hash, raw, body, sum FROM entry"):
                yield of, (isinstance(raw, bytes) and digest(raw) == of
                           and isinstance(body, bytes | None) and zlib.crc32(body or b"") == check)

    def greatest_place(self) -> int:
        """The greatest place that an entry ever had."""
        with self._file.reading():
            return self._sql.one(GREATEST_PLACE)

    def rows(self, after: int = 0, most: float = math.inf) -> list[Row]:
        """The entries after a place, also those that were withdrawn; all, or the first ones, until they have this many bytes.
        What the disk damaged is taken out: whoever has it brings it back."""
        return [row for rows in self.read(after, most)[0] for row in rows]

    def read(self, after: int = 0, most: float = math.inf) -> tuple[list[Sequence[Row]], int, bool]:
        """The same, those together that follow one another; the place up to which was read, and whether there may be more after it. What
        is there may be left out, and more of it than this."""
        found: list[Sequence[Row]] = []
        with self._file.reading():
            while most > 0:
                portion, size = self._portion(after, most)
                found += self._rows_of(portion)
                most -= size
                after = portion[-1][0] if portion else after
                if len(portion) < ROWS_AT_ONCE:
                    break
        return found, after, most <= 0

    def row_at(self, place: int) -> Row | None:
        """The entry at a place."""
        with self._file.reading():
            found = self._sql.execute(AT_PLACE, (place,)).fetchone()
            return self._row(*found) if found else None

    def places(self, after: int = 0, most: int = -1) -> list[Located]:
        """The places of the entries after one, without those that were withdrawn; all, or no more than this."""
        with self._file.reading():
            found = self._sql.execute(IN_SHORT, (self._form.head_bytes, after, most)).fetchall()
        # What the disk damaged may have another type.
        return [Located(place, of, self._form.kind(head), self._form.author(head), bool(made), bool(offered))
                for place, of, head, made, offered in found if isinstance(head, bytes) and len(head) == self._form.head_bytes]

    def claims_made(self) -> list[tuple[int, int, bytes]]:
        """The places of this person's claims that weren't withdrawn, their numbers and their authors."""
        form = self._form
        with self._file.reading():
            found = self._sql.execute(CLAIMS_MADE, (form.head_bytes, f"{form.kind_of_claims:02X}")).fetchall()
        return [(place, int.from_bytes(head[form.site_at:form.site_at + 2], "big"), form.author(head)) for place, head in found]

    def places_of(self, hashes: Iterable[bytes]) -> dict[bytes, int]:
        """The places of those of these entries that the file has and that weren't withdrawn."""
        return {of: place for of, place, _ in self._of(hashes)}

    def in_log(self, hashes: Iterable[bytes]) -> dict[bytes, int]:
        """The same, of entries that a log has: it was offered them, though perhaps by a copy of this file."""
        found = self._of(hashes)
        if new := [(place,) for _, place, is_new in found if is_new]:
            with self._file.writing():
                self._sql.executemany(OFFERED, new)
        return {of: place for of, place, _ in found}

    def were_offered(self, hashes: Iterable[bytes]) -> set[bytes]:
        """Those of these entries that a log was offered."""
        wanted = [*hashes]
        with self._file.reading():
            return {of for begin in range(0, len(wanted), HASHES_AT_ONCE) for some in [wanted[begin:begin + HASHES_AT_ONCE]]
                    for of, in self._sql.execute(WERE_OFFERED.format(_marks(some)), some)}

    def raws(self, places: Sequence[int]) -> list[bytes]:
        """The bytes of the entries at these places, but for what the disk has damaged."""
        with self._file.reading():
            return _right(self._sql.execute(RAW_AT, (one,)).fetchone() for one in places)

    def places_after(self, hashes: Sequence[bytes], most: int) -> list[int]:
        """The places of the entries that name one of these as the one before them. The whole file is looked through."""
        if not hashes:
            return []
        with self._file.reading():
            return [place for place, in self._sql.execute(AFTER_HASHES.format(_marks(hashes)), (self._form.before_at + 1, *hashes, most))]

    def many_at(self, places: Sequence[int]) -> int:
        """How many of these places have an entry."""
        with self._file.reading():
            return sum(self._sql.one("SELECT count(*) FROM entry WHERE place = ?", place) for place in places)

    def receive(self, rows: Sequence[Row]) -> tuple[int, list[Row]]:
        """Adds entries that a log has, within a transaction; the last place before them, and with their places those that are new."""
        before = self.last_place()
        self.put([row.entry for row in rows], made=False)
        many, made, last = self._sql.execute(ADDED, (before,)).fetchone()
        if many == len(rows) and not made:
            return before, [Row(place, row.entry, False, row.types_on) for place, row in enumerate(rows, last - many + 1)]
        came = {row.entry.hash: row for row in rows}
        found = self._sql.execute(ADDED_ONE_BY_ONE, (before,))
        return before, [Row(place, came[of].entry, bool(made), came[of].types_on) for place, of, made in found]

    def last_place(self) -> int:
        """The place of the last entry, within a transaction."""
        return self._sql.one("SELECT coalesce(max(place), 0) FROM entry")

    def ends(self) -> tuple[int, int]:
        """The place of the last entry, and the number of the last one that was withdrawn."""
        with self._file.reading():
            place, number = self._sql.execute(ENDS).fetchone()
        return place, number

    def taken_back(self, after: int) -> list[tuple[int, int]]:
        """The numbers and the places of the entries that were withdrawn, after a number."""
        with self._file.reading():
            return self._sql.execute(TAKEN_BACK, (after,)).fetchall()

    def withdrawn(self, after: int = 0) -> list[tuple[int, bytes]]:
        """The hashes of the entries that were withdrawn, after a number, with their own."""
        with self._file.reading():
            return self._sql.execute("SELECT number, hash FROM withdrawn WHERE number > ?", (after,)).fetchall()

    def put(self, entries: Sequence[Entry], made: bool) -> range:
        """Adds entries, within a transaction; the places of those that it lacked, which are the last ones."""
        # What a log has counts, also where it was withdrawn here, and was made here all the same.
        back = set() if made else self._taken_from_withdrawn(entries)
        rows = (entry_values(entry, made or entry.hash in back, entry.hash in back, self._sealed) for entry in entries)
        if len(entries) == 1:
            # As each key has it: SQLite itself says which place a row got, where it added that one.
            added = self._sql.execute(ADD_ENTRY, next(rows))
            if added.rowcount == 1 and added.lastrowid:
                return range(added.lastrowid, added.lastrowid + 1)
        many = self._sql.executemany(ADD_ENTRY, rows)
        last = self.last_place()
        return range(last - many + 1, last + 1)

    def restore(self, rows: Mapping[bytes, Row], withdrawn: Iterable[bytes]) -> None:
        """Puts back what the file lacks of these, by their hashes, within a transaction. A log may have been offered any of it."""
        self._sql.executemany("INSERT OR IGNORE INTO withdrawn (hash) VALUES (?)", ((one,) for one in withdrawn))
        there = {of for of, in self._sql.execute("SELECT hash FROM entry")}
        lacking = (rows[of] for of in rows if of not in there)
        self._sql.executemany(ADD_ENTRY, (entry_values(row.entry, row.made, True, self._sealed) for row in lacking))

    def withdraw(self, hashes: Iterable[bytes], in_log: Iterable[bytes] = ()) -> list[bytes]:
        """Takes back those of these entries that no log was ever offered, and gives them. Those that are in the log
        after all count as offered from now on."""
        with self._file.writing():
            self._sql.executemany("UPDATE entry SET offered = 1 WHERE hash = ?", ((one,) for one in in_log))
            wanted, gone = [*hashes], set[bytes]()
            for begin in range(0, len(wanted), HASHES_AT_ONCE):
                some = wanted[begin:begin + HASHES_AT_ONCE]
                gone.update(of for of, in self._sql.execute(f"SELECT hash {NEVER_GIVEN.format(_marks(some))}", some))
                self._sql.execute(f"INSERT OR IGNORE INTO withdrawn (hash) SELECT hash {NEVER_GIVEN.format(_marks(some))}", some)
            return [of for of in wanted if of in gone]

    def offer(self, places: Sequence[int]) -> list[bytes]:
        """The bytes of the entries at these places, which are said to have been offered to a log from now on.
        """
        with self._file.writing():
            self._sql.executemany(OFFERED, ((one,) for one in places))
            # What the disk has damaged meanwhile isn't sent.
            return _right(self._sql.execute(RAW_AT, (one,)).fetchone() for one in places)

    def _rows_of(self, portion: Sequence[KeptEntry]) -> list[Sequence[Row]]:
        """What some rows are, those together that follow one another; where one isn't as it was written each by itself."""
        found: list[Sequence[Row]] = []
        for one in self._put_together(portion):
            if isinstance(one, Chained):
                found.append(one)
            elif rows := [row for kept in one if (row := self._row(*kept))]:
                found.append(rows)
        return found

    def _put_together(self, portion: Sequence[KeptEntry]) -> Iterable[Chained | Sequence[KeptEntry]]:
        form, looks = self._form, self._looks
        if len(portion) >= LEAST_ROWS and isinstance(form, FirstForm) and isinstance(looks, Keystrokes):
            return put_together(form, looks, portion)
        return put_letters_together(form, portion) if len(portion) >= LEAST_ROWS and isinstance(form, RecordForm) else [portion]

    def _portion(self, after: int, most: float) -> tuple[list[KeptEntry], int]:
        """The first of the entries after a place, as the file has them, and their bytes."""
        found, size, at_once = list[KeptEntry](), 0, int(max(1, min(most / MOST_BYTES, ROWS_AT_ONCE)))
        with contextlib.closing(self._sql.execute(AFTER_PLACE, (after, ROWS_AT_ONCE))) as rows:
            while size < most and (some := rows.fetchmany(at_once)):
                found += some
                # What the disk damaged may have another type.
                size += sum([len(one[2]) for one in some if isinstance(one[2], bytes)])
        return found, size

    def _row(self, place: int, of: bytes, raw: bytes, body: bytes | None, check: int, made: int) -> Row | None:
        try:
            if digest(raw) == of and zlib.crc32(b"" if body is None else body) == check:
                if self._form.is_gone(raw):
                    raise Gone
                entry = self._form.reopened(raw, self._form.body(raw) if body is None else body, of)
                # A version that doesn't know a kind keeps whatever comes of it.
                types_on = (entry.kind.has_messages or entry.kind.says_copies) and self._looks.type_on(entry)
                return Row(place, entry, bool(made), types_on)
        except (TypeError, ValueError, struct.error, Bad):
            pass
        if isinstance(raw, bytes) and len(raw) >= self._form.head_bytes and digest(raw) == of and self._form.kind(raw).is_newer:
            # A later version may keep it in another way, too.
            return None
        with self._file.transaction():
            self._sql.execute("DELETE FROM entry WHERE place = ?", (place,))
        self.damaged += 1
        return None

    def _of(self, hashes: Iterable[bytes]) -> list[tuple[bytes, int, int]]:
        wanted = [*hashes]
        found: list[tuple[bytes, int, int]] = []
        with self._file.reading():
            for begin in range(0, len(wanted), HASHES_AT_ONCE):
                some = wanted[begin:begin + HASHES_AT_ONCE]
                found += self._sql.execute(OF_HASHES.format(_marks(some)), some)
        return found

    def _taken_from_withdrawn(self, entries: Sequence[Entry]) -> set[bytes]:
        """Takes those of these entries out that were withdrawn, so that they can be put in once more; their hashes."""
        if not self._sql.one("SELECT EXISTS (SELECT 1 FROM withdrawn)"):
            return set()
        back = {entry.hash for entry in entries
                if self._sql.one("SELECT count(*) FROM withdrawn WHERE hash = ?", entry.hash)}
        for statement in BACK:
            self._sql.executemany(statement, ((of,) for of in back))
        return back


def entry_values(entry: Entry, made: bool, offered: bool, sealed: bool) -> tuple[object, ...]:
    """What an entry's row is made of: a sealed one has its body unsealed beside it."""
    # Of all but numbers, words and byte arrays Python looks first how they are to be adapted, for longer than they take to be written.
    body = bytearray(entry.body) if sealed else None
    return (bytearray(entry.hash), bytearray(entry.raw), 0 if body is None else body, zlib.crc32(body or b""), int(made), int(offered))


def _right(found: Iterable[tuple[bytes, bytes] | None]) -> list[bytes]:
    """The bytes of those entries that are as they were written."""
    return [one[0] for one in found if one and isinstance(one[0], bytes) and digest(one[0]) == one[1]]


def never_offered(form: Form) -> str:
    """The question how many of this person's edits a log was never offered."""
    return NEVER_OFFERED.format(", ".join(f"'{kind:02X}'" for kind in form.kinds_of_messages))


def _marks(values: Sequence[bytes]) -> str:
    return ", ".join("?" * len(values))
