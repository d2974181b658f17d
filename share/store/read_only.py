"""Reads notes' files and changes nothing: for printing, for links, and to bring a note back from what is left of
its files."""
import contextlib
import gc
import pathlib
import sqlite3
import struct
import zlib
from collections.abc import Callable, Iterable, Iterator, Sequence
from functools import partial
from itertools import islice
from typing import Any, NamedTuple, TypeVar

from share.admission.judges import judge_of
from share.admission.judging import Judging
from share.admission.ledger import Chained, Row
from share.admission.runs import runs
from share.format.entry import Bad, Copy, Entry, FirstForm, Form, OneByOne, digest
from share.format.keystrokes import Keystrokes
from share.format.operation import TEXT
from share.format.second.form import RecordForm
from share.format.second.saved import CUT_SHORT, SAVED_SUFFIX, read_saved_note
from share.log.folder import inode_of, undisturbed
from share.log.sqlite_file import FAULTS, Busy, Malformed, SqliteFile, copied
from share.program.site import Site
from share.store.chained import KeptEntry, put_together
from share.store.entries import GREATEST_PLACE
from share.store.guarded import Damaged
from share.store.letters import put_letters_together
from share.store.locks import noted_beside, place_noted
from share.store.note_file import NOTE_APPLICATIONS, SECOND, About, about_of, noted_of, unsent_of
from share.store.own import COPIED, names_of_messages
from share.text.errors import NEWER, NOT_BEGUN, Gone, Trouble, entries, later

Read = TypeVar("Read")
# What is read of each entry: its place, and its bytes; or all that is kept of it, for who doesn't ask who made it.
RAW = "coalesce(CAST(raw AS BLOB), x'')"
KEPT_COLUMNS = f"hash, {RAW}, body, sum, 0"
ENTRY_ROWS = """SELECT place, {} FROM entry WHERE place {} ? AND hash NOT IN (SELECT hash FROM withdrawn) ORDER BY place {}"""
OWN_CLIENTS = "SELECT site, author FROM client WHERE retired != ?"
LAST_PLACE = 2**63 - 1
# The most faults of a kind that are told one by one.
MOST_FAULTS = 3
# How many entries are read before what counts of them is let through.
JUDGED_AT_ONCE = 2_000

# What says what a file of a note has lost; and what takes the rows of a file as they are read.
Lacking = Callable[[About, SqliteFile], list[str]]
TakesRows = Callable[[Sequence[KeptEntry]], None]


class FoundEntries(NamedTuple):
    """What a note's file has, and what was wrong with it, in words."""

    about: About
    entries: list[Entry]
    faults: list[str]


class Judged(NamedTuple):
    """What a note has, judged as it was read; what was wrong with it, in words; and the hashes of what the judge doesn't keep."""

    about: About
    judge: Judging
    faults: list[str]
    others: set[bytes]

    def has(self, of: bytes) -> bool:
        """Whether an entry was read."""
        return of in self.judge or of in self.others

    def add(self, rows: Iterable[Row]) -> None:
        """Adds entries, and lets through what can be."""
        for run in runs(self.judge.unknown(rows)):
            self.add_run(run)
        self.judge.let_through()

    def add_run(self, run: Sequence[Row]) -> None:
        """Adds entries that aren't known, of which each follows the one before it."""
        if len(run) > 1 and self.judge.extend(run):
            return
        for row in run:
            self.judge.add(row.entry, row.place, row.made, row.types_on)
            if not row.entry.size and row.entry.hash not in self.judge:
                self.others.add(row.entry.hash)


class Faults:
    """What is wrong with the entries of a file or a log, of which few are told one by one."""

    def __init__(self, of: str):
        self._of, self._first, self._many = of, list[str](), 0

    def add(self, why: Bad) -> None:
        """One more can't be read."""
        self._many += 1
        if self._many <= MOST_FAULTS:
            self._first.append(f"An entry of {self._of} {why}.")

    def words(self) -> list[str]:
        """What is told."""
        more = self._many - MOST_FAULTS
        return [*self._first, f"{entries(more)} more of {self._of} can't be read."] if more > 0 else self._first


class Own(NamedTuple):
    """What is of a person alone: the sites and authors of the numbers, and the messages that others stand for."""

    clients: set[tuple[int, bytes]] = set()
    anew: set[Copy] = set()


class NoteText(NamedTuple):
    """A note's text, and what is missing in it, in words."""

    text: bytes
    missing: list[str]


def about(path: pathlib.Path) -> About:
    """Which note a file is of."""
    return _with_file(path, about_of)


def about_and_unsent(path: pathlib.Path) -> tuple[About, int]:
    """Which note a file is of, and how many edits of its person aren't known to be in its log."""
    return _with_file(path, _about_and_unsent)


def own_sites(path: pathlib.Path) -> set[int]:
    """The numbers that the person of a file has claimed."""
    return {site for site, _ in own(path).clients if isinstance(site, int)}


def own(path: pathlib.Path) -> Own:
    """What a file has of its person alone, as far as that can be read."""
    with contextlib.suppress(Trouble):
        return _with_file(path, _own)
    return Own()


def _own(file: SqliteFile) -> Own:
    anew = file.execute(f"SELECT {names_of_messages(about_of(file).form_number == SECOND)} FROM anew")
    return Own(set(file.execute(OWN_CLIENTS, (COPIED,))), {Copy(*one) for one in anew})


def found_in(path: pathlib.Path) -> FoundEntries:
    """What a file has, as far as it can be read. Each entry is judged as one that came from a stranger."""
    if path.suffix == SAVED_SUFFIX:
        return _found_in_saved(path)
    noted = noted_beside(path)
    return _with_file(path, lambda file: _found(file, partial(_lost, path, noted)))


def _found_in_saved(path: pathlib.Path) -> FoundEntries:
    """The same of a file as a relay's page saves it."""
    try:
        saved = read_saved_note(path.read_bytes())
    except (OSError, Trouble) as why:
        raise Trouble(f"{path}: {why}") from why
    about = About(saved.link.form == "sealed", saved.link.key, saved.link.url, SECOND)
    opened = about.form().open_many(saved.raws)
    right = [one for one in opened if not isinstance(one, Bad)]
    damaged = len(opened) - len(right)
    return FoundEntries(about, right, [f"{entries(damaged)} left out, which aren't the note's."] * (damaged > 0)
                        + [f"{CUT_SHORT}."] * (not saved.is_whole))


def judged(path: pathlib.Path, begins: Callable[[About], TakesRows] = lambda about: lambda rows: None) -> Judged:
    """What a file of this person has, judged as it is read: so no more of it is in memory than of a note that is open. Who signed what was
    seen as it was kept, and isn't looked at again, but for what the disk damaged. As the reading begins, perhaps again, somebody may say
    what takes the same rows."""
    noted = noted_beside(path)
    return _with_file(path, lambda file: _judged(file, partial(_lost, path, noted), begins))


def text_of(found: FoundEntries) -> NoteText:
    """What a note shows that has these entries."""
    judge = judge_of(found.about.form(), found.entries)
    messages = judge.let_through_in_order(TEXT)
    with contextlib.closing(Site(1, messages)) as site:
        return NoteText(site.text(), missing(judge, found.faults))


def missing(judge: Judging, faults: Iterable[str]) -> list[str]:
    """What doesn't count of a note in whose file these faults were found, in words."""
    told = list(faults)
    if not (told or judge.begun()):
        told.append(NOT_BEGUN)
    if judge.has_newer():
        told.append(NEWER)
    if many := judge.incomplete():
        lack = "1 message lacks what it builds on, and isn't" if many == 1 else (
            f"{many:,} messages lack what they build on, and aren't")
        told.append(f"{lack} in the text.")
    wrong = judge.wrong()
    told += [f"Message {one.seq} of site {one.site} is wrong, and isn't in the text with what builds on it."
             for one in wrong[:MOST_FAULTS]]
    if len(wrong) > MOST_FAULTS:
        told.append(f"Messages of {len(wrong) - MOST_FAULTS:,} more sites are wrong.")
    return told


def entries_of(about_it: About, raws: list[bytes], of: str) -> tuple[list[Entry], list[str]]:
    """The entries that bytes are, and what is wrong with the others. `of` says where they are."""
    right, faults = list[Entry](), Faults(of)
    for one in about_it.form().open_many(raws):
        if isinstance(one, Bad):
            faults.add(one)
        else:
            right.append(one)
    return right, faults.words()


def _about_and_unsent(file: SqliteFile) -> tuple[About, int]:
    about_it = about_of(file)
    return about_it, unsent_of(file, about_it.form()) if about_it.url else 0


def _lost(path: pathlib.Path, noted: bytes, about_it: About, file: SqliteFile) -> list[str]:
    """What a file had by what was noted beside it before it was read, and hasn't, in words."""
    lost = place_noted(noted, noted_of(about_it.form(), inode_of(path))) - file.one(GREATEST_PLACE)
    return [f"The file has lost {entries(lost)} that it had."] if lost > 0 else []


def _found(file: SqliteFile, lacks: Lacking) -> FoundEntries:
    about_it, broken = about_of(file), list[str]()
    right, faults = entries_of(about_it, [raw for _, raw in _rows_of(file, RAW, broken)], "the file")
    return FoundEntries(about_it, right, broken + faults + lacks(about_it, file))


def _judged(file: SqliteFile, lacks: Lacking, begins: Callable[[About], TakesRows]) -> Judged:
    about_it, broken, wrong = about_of(file), list[str](), Faults("the file")
    form, takes = about_it.form(), begins(about_it)
    looks = form.one_by_one()
    found = Judged(about_it, judge_of(form), [], set())
    rows = _rows_of(file, KEPT_COLUMNS, broken)
    while portion := [*islice(rows, JUDGED_AT_ONCE)]:
        takes(portion)
        for one in _put_together(form, looks, portion):
            if isinstance(one, Chained):
                found.add_run(one)
            else:
                found.add(_as_kept(form, looks, one, wrong))
        found.judge.let_through()
    return found._replace(faults=broken + wrong.words() + lacks(about_it, file))


def _rows_of(file: SqliteFile, columns: str, broken: list[str]) -> Iterator[Any]:
    """The places and columns of all entries that can be read, from the front; where the file is damaged, which is told, also from the other
    end. What the disk damaged may have other types."""
    last = 0
    try:
        for row in file.execute(ENTRY_ROWS.format(columns, ">", "ASC"), (0,)):
            yield row
            last = row[0]
    except sqlite3.DatabaseError as why:
        broken.append(f"The file is damaged ({why}); some of it may be lost.")
        with contextlib.suppress(sqlite3.DatabaseError):
            for row in file.execute(ENTRY_ROWS.format(columns, "<", "DESC"), (LAST_PLACE,)):
                if row[0] <= last:
                    break
                yield row


def _put_together(form: Form, looks: OneByOne, portion: Sequence[KeptEntry]) -> Iterable[Chained | Sequence[KeptEntry]]:
    """Rows, those put together that follow one another."""
    if isinstance(form, FirstForm) and isinstance(looks, Keystrokes):
        return put_together(form, looks, portion)
    return put_letters_together(form, portion) if isinstance(form, RecordForm) else [portion]


def _as_kept(form: Form, looks: OneByOne, portion: Sequence[KeptEntry], wrong: Faults) -> Iterator[Row]:
    """The entries of some rows, but those that are none."""
    for row in portion:
        try:
            yield _opened_row(form, looks, row)
        except Bad as why:
            wrong.add(why)


def _opened_row(form: Form, looks: OneByOne, row: KeptEntry) -> Row:
    """The entry of a row. One that isn't as it was kept is looked at as a stranger's is; Bad where it is none."""
    place, of, raw, body, check, _ = row
    try:
        if digest(raw) == of and zlib.crc32(b"" if body is None else body) == check:
            if form.is_gone(raw):
                raise Gone
            entry = form.reopened(raw, form.body(raw) if body is None else body, of)
            return Row(place, entry, False, looks.type_on(entry))
    except (TypeError, ValueError, struct.error):
        # The disk damaged it.
        pass
    return Row(place, form.open(raw), False)


def _with_file(path: pathlib.Path, read: Callable[[SqliteFile], Read]) -> Read:
    """What is read of a file. Where no editor has it open it is a copy that is read, since SQLite would leave files
    beside it."""
    if path.with_name(path.name + "-wal").exists() and path.with_name(path.name + "-shm").exists():
        with contextlib.suppress(Busy):
            return _read(path, path, read)
    try:
        with _copied(path) as copy:
            return _read(path, copy, read)
    except (Busy, OSError) as why:
        raise Trouble(f"{path} can't be read ({why}).") from why


def _read(path: pathlib.Path, copy: pathlib.Path, read: Callable[[SqliteFile], Read]) -> Read:
    """What is read of a file by a copy of it, or by itself."""
    try:
        with FAULTS, contextlib.closing(_note_in(path, copy)) as file:
            return read(file)
    except Malformed as why:
        raise Trouble(f"{path} is damaged, or isn't a note's file ({why}).") from why
    except Damaged as why:
        raise Trouble(f"{path} is damaged ({why}).") from why


@contextlib.contextmanager
def _copied(path: pathlib.Path) -> Iterator[pathlib.Path]:
    """A copy of a file with what is beside it, of which none was set aside meanwhile."""
    with contextlib.ExitStack() as stack:
        with undisturbed(path.parent):
            copy = stack.enter_context(copied(path))
        yield copy


def _note_in(path: pathlib.Path, copy: pathlib.Path) -> SqliteFile:
    """A note's file, or a copy of it, open with what is beside it: the first reading finds that by its name."""
    with undisturbed(copy.parent):
        file = SqliteFile(copy, writes=False, bounded=True)
        try:
            if file.is_later(NOTE_APPLICATIONS.values()):
                raise later(str(path))
            if file.application() not in NOTE_APPLICATIONS.values():
                raise Trouble(f"{path} isn't a note's file.")
        except BaseException:
            file.close()
            raise
        return file


@contextlib.contextmanager
def uncollected() -> Iterator[None]:
    """Keeps Python from looking for garbage meanwhile, which takes as long as all the rest where a long history is read, nor
    later in what was read, which stays."""
    gc.disable()
    try:
        yield
    finally:
        gc.enable()
        gc.freeze()
