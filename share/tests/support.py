"""What tests stand on: folders of their own, and people who share a note."""
import contextlib
import itertools
import os
import pathlib
import random
import re
import sqlite3
import subprocess
import sys
import tempfile
import unittest
from collections.abc import Callable, Iterable, Iterator
from unittest import mock

from share.admission.chains import rank
from share.admission.judge import Judge
from share.format.chunk import packed_in_parts
from share.format.entry import NO_HASH, Author, BuiltOn, Entry, Form, Plain
from share.format.operation import Operation
from share.format.second.claim import CLAIMED_BYTES, found_among, rank_of
from share.format.second.form import RecordForm
from share.format.second.key_link import link_of
from share.format.second.record import RECORD_HEAD, Record
from share.log.base import START, Log
from share.log.opening import opener_of
from share.program.process import Program
from share.program.site import Edited, Site, Told
from share.store import notes
from share.store.note_file import Disk
from share.store.read_only import found_in, text_of
from share.sync.session import Session, Status
from share.tests.forms import is_second_form, of_second_form
from share.tests.naive import newer, taking
from share.tests.note import Note
from share.tests.proved_files import give_up
from share.tests.servers import RedisServer
from share.tests.waiting import PATIENCE
from share.tests.waiting import wait_for as wait_for

TOP = pathlib.Path(__file__).resolve().parents[2]
NOTE = str(TOP / "bin" / "note")
# Where a test sets no clock, how long its keys take on a busy machine decides no undo.
os.environ.setdefault("VIALSHOAL_PAUSE", "100000")
if is_second_form():
    of_second_form()
# How often the locks are read before nobody has one.
READINGS = 5
ALPHABET = "abcdefgh  \r\t\\é߀ñ漢字🎉👍"


class Person:
    """Somebody with a data folder of their own, whose notes are opened in this process."""

    def __init__(self, data: pathlib.Path):
        self.data = data

    @contextlib.contextmanager
    def here(self) -> Iterator[None]:
        """What is opened meanwhile is of this person."""
        before = os.environ.get("VIALSHOAL_DATA")
        os.environ["VIALSHOAL_DATA"] = str(self.data)
        try:
            yield
        finally:
            os.environ.pop("VIALSHOAL_DATA") if before is None else os.environ.update(VIALSHOAL_DATA=before)

    def open(self, name: str = "note", url: str | None = None, link: str | None = None) -> Note:
        """A note, as an editor has it open."""
        with self.here():
            return Note(Session(notes.open_note(name, url, link_of(link) if link else None)))

    def reads(self, link: str | None = None) -> None:
        """Opens a note, and closes it once all is taken in that its log has, and that one has what is here. On a busy machine opening alone
        doesn't wait for that."""
        note = self.open(link=link)
        session = note.session
        wait_for(lambda: session._replicator.is_up_to_date() and (note.take_in(), not session.has_more())[1], "the log to be read")
        session.close()

    def link(self, name: str = "note") -> str:
        """A note's link."""
        with self.here():
            return notes.link_to(name)

    def path(self, name: str = "note") -> pathlib.Path:
        """A note's file."""
        with self.here():
            return notes.path_of(name)

    def text(self, name: str = "note") -> bytes:
        """What the file alone shows."""
        return text_of(found_in(self.path(name))).text

    def disk(self, name: str = "note") -> Disk:
        """The file of a note, which the caller closes."""
        return Disk(self.path(name))

    def log(self, name: str = "note") -> Log:
        """The log of a note, which the caller closes."""
        with contextlib.closing(self.disk(name)) as disk:
            return opener_of(disk.about.url, disk.form)()


def founders_search() -> contextlib.AbstractContextManager[object]:
    """Who founds a note meanwhile has to search for a number that others can take."""
    if not is_second_form():
        return contextlib.nullcontext()
    return mock.patch("share.store.founding.free_number", lambda taken: None)


class Case(unittest.TestCase):
    """A test with a folder of its own. In the second form nobody can take the number of who founded a note: where a test has that done
    the founder has to search for one, as all others."""

    founders_have_numbers = True

    def setUp(self) -> None:
        if not self.founders_have_numbers:
            searching = founders_search()
            searching.__enter__()
            self.addCleanup(searching.__exit__, None, None, None)
        self.folder = pathlib.Path(tempfile.mkdtemp(prefix="share-"))
        self.addCleanup(give_up, self.folder)
        os.environ["VIALSHOAL_DATA"] = str(self.folder / "data")
        # A log that is back is found soon.
        quick = mock.patch("share.sync.threads.RECONNECT_SECONDS", 0.2)
        quick.start()
        self.addCleanup(quick.stop)

    def person(self, name: str = "data") -> Person:
        """Somebody with a data folder of this name."""
        return Person(self.folder / name)

    def opened(self, person: Person, name: str = "note", url: str | None = None, link: str | None = None) -> Note:
        """A note that is open until the test ends."""
        note = person.open(name, url, link)
        self.addCleanup(note.session.close)
        return note

    def file_log(self) -> str:
        """The path of a log in a file."""
        return str(self.folder / "shared" / "note.log")

    def redis(self) -> RedisServer:
        """A server of this test."""
        server = RedisServer(self.folder / "redis")
        self.addCleanup(server.close)
        return server

    def together(self, url: str, *names: str) -> list[Note]:
        """People of these names who have a note open, which the first one of them made."""
        first = self.opened(self.person(names[0]), url=url)
        type_at_the_end(first, "")
        link = self.person(names[0]).link()
        return [first, *(self.opened(self.person(name), link=link) for name in names[1:])]

    def note(self, *words: str, **environment: str) -> subprocess.CompletedProcess[str]:
        """A run of bin/note."""
        return subprocess.run([NOTE, *words], capture_output=True, text=True, timeout=PATIENCE, check=False,
                              stdin=subprocess.DEVNULL, env={**os.environ, **environment})

    def assert_says(self, run: subprocess.CompletedProcess[str], *parts: str) -> None:
        """That a command ended with status 2 and one line that has these parts."""
        self.assertEqual(run.returncode, 2, run.stderr)
        self.assertEqual(len(run.stderr.splitlines()), 1, run.stderr)
        for part in parts:
            self.assertIn(part, run.stderr)

    def assert_comes_to(self, note: Note, text: bytes) -> None:
        """That a note shows a text soon. Where much goes on, opening doesn't wait until all is read."""
        wait_for(lambda: (note.take_in(), bytes(note.text) == text)[1], f"{text!r} to be shown")

    def assert_meet(self, *notes: Note) -> bytes:
        """That notes show the same soon, with all sent; what they show."""
        wait_for(lambda: are_alike(notes), "all to show the same, with all sent")
        for note in notes:
            self.assertEqual(bytes(note.text), note.session.text())
        return bytes(notes[0].text)


class Carried:
    """A site whose entries are carried when the test says so, in the order in which the test has them. It has no
    file."""

    def __init__(self, form: Form, number: int):
        self.form, self.number, self.author = form, number, form.new_author()
        self.judge, self.site = Judge(), Site(number)
        claim = form.claim(number, self.author)
        self.made, self.coming = [claim], list[Entry]()
        self.judge.add(claim)

    def text(self) -> bytes:
        """What the site shows."""
        return self.site.text()

    def insert(self, position: int, data: bytes) -> Edited:
        """Types bytes."""
        return self._kept(self.site.insert(position, data))

    def cut(self, begin: int, end: int) -> Edited:
        """Deletes a stretch."""
        return self._kept(self.site.cut(begin, end))

    def edit(self, work: Callable[[Site], Edited]) -> Edited:
        """Does something at the site."""
        return self._kept(work(self.site))

    def _kept(self, edited: Edited) -> Edited:
        for part in packed_in_parts(edited.messages, self.judge.length(self.number)):
            self.made.append(self.form.entry(self.made[-1], part, self.author, self.judge.built_on(part.operations)))
            self.judge.add(self.made[-1])
        own = self.judge.count().messages
        assert own == edited.messages, (own, edited)
        return edited

    def arrived(self) -> Told:
        """Takes in what the test has put here."""
        coming, self.coming = self.coming, []
        for entry in coming:
            self.judge.add(entry)
        counted = self.judge.count()
        assert not counted.anew
        return self.site.take(counted.messages, looks=True)

    def notices(self) -> list[str]:
        """What the user is told: nothing."""
        return []

    def status(self) -> Status:
        """How things are."""
        return Status(self.number, 1, 0, None, self.judge.incomplete())

    def close(self) -> None:
        """Ends the program."""
        self.site.close()


class Pair(Case):
    """A test with two notes that meet where it says so."""

    def setUp(self) -> None:
        super().setUp()
        self.form = Plain(bytes(16))
        self.notes = [self.joined(), self.joined()]

    def joined(self) -> Note:
        """The note at one more site, which has nothing yet."""
        self.sites = getattr(self, "sites", 0) + 1
        return Note(Carried(self.form, self.sites))

    def tearDown(self) -> None:
        for note in self.notes:
            self.assertEqual(bytes(note.text), note.session.text())
            note.session.close()

    def meet(self) -> None:
        """All take in what the others made."""
        made = [entry for note in self.notes for entry in note.session.made]
        for note in self.notes:
            note.session.coming = made
            note.take_in()
        for note in self.notes:
            self.assertEqual(self.notes[0].text, note.text)

    def shows(self, words: str) -> None:
        """That all show this when they have met."""
        self.meet()
        self.assertEqual(self.notes[0].text.decode(), words)


def are_alike(notes: Iterable[Note]) -> bool:
    """Whether notes show the same, with all sent and nothing that waits."""
    for note in notes:
        note.take_in()
    states = [note.session.status() for note in notes]
    return (not any(state.unsent or state.offline or state.waiting for state in states)
            and all(state.can_type for state in states) and len({bytes(note.text) for note in notes}) == 1)


def type_at_the_end(note: Note, words: str) -> None:
    """Types words at the end, as soon as that may be."""
    wait_for(lambda: (note.take_in(), note.session.status().can_type)[1], "an editor to get its number")
    note.moved_to(len(note.text))
    if words:
        note.type(words)


def written(note: Note, words: str) -> None:
    """Types words at the end, and waits until they are sent."""
    type_at_the_end(note, words)
    # If another disk has its number, the words are made anew as the editor takes in what came.
    wait_for(lambda: (note.take_in(), note.session.has_sent(note.session.last()))[1], "words to be sent")


def raws_of(log: Log) -> list[bytes | None]:
    """All that a log has."""
    raws: list[bytes | None] = []
    after = START
    while page := log.read(after):
        raws += [one.raw for one in page]
        after = page[-1].place
    return raws


def change(path: pathlib.Path, statement: str, *values: object) -> None:
    """Changes a file of SQLite behind everyone's back."""
    with contextlib.closing(sqlite3.connect(path)) as file, file:
        file.execute(statement, values)


def damage(path: pathlib.Path, right: bytes, wrong: bytes) -> bool:
    """Makes others of the same number of the bytes of an entry of a log, while others may be at it; tells whether an entry had
    them."""
    with contextlib.closing(sqlite3.connect(path)) as file, file:
        file.execute("BEGIN IMMEDIATE")
        changed = [(raw.replace(right, wrong), place) for place, raw in file.execute("SELECT place, raw FROM entry")
                   if right in raw]
        file.executemany("UPDATE entry SET raw = ? WHERE place = ?", changed)
    return bool(changed)


def edit_at_random(note: Note, chance: random.Random) -> None:
    """Types, deletes or takes back, at a random character."""
    text = note.text.decode()
    begin = chance.randrange(len(text) + 1)
    note.moved_to(len(text[:begin].encode()))
    what = chance.random()
    if what < 0.65 or not text:
        note.type("".join(chance.choices(ALPHABET, k=chance.randint(1, 8))))
    elif what < 0.95:
        note.erase(note.cursor, note.cursor + len(text[begin:begin + chance.randint(1, 5)].encode()))
    else:
        note.take_back()


def take(person: Person, site: int) -> None:
    """Has somebody with the link claim a number that another one has, so that the claim holds."""
    with contextlib.closing(person.disk()) as disk:
        form = disk.form
        own = next(row.entry for row in disk.entries.rows() if row.entry.kind.is_claim and row.entry.site == site)
    with contextlib.closing(person.log()) as log:
        log.append([claim_against(form, own).raw])


def claim_of(form: Form, site: int, author: Author | None = None) -> Entry:
    """A claim of a number by somebody; in the second form it is searched for."""
    author = author or form.new_author()
    if not isinstance(form, RecordForm):
        return form.claim(site, author)
    tried = found_among(itertools.count(random.getrandbits(48)), form.note, author.name, zero_bits=form.zero_bits)
    return form.claim(site, author, next(one for one in tried if one.site == site).counter)


def newer_of(form: Form, before: Entry, author: Author, body: bytes = b"new") -> Entry:
    """What a later version of an author's wrote after an entry, of a kind that this version doesn't know."""
    if not isinstance(form, RecordForm):
        return newer(form, before, author, body)
    head = RECORD_HEAD.pack(form.number, 99, form.note, author.name, before.site, before.text, 0, 0, NO_HASH)
    unsigned = form._unsigned(head, body)
    return form.open(unsigned + form._signature(unsigned, author))


def claim_order(claim: Entry) -> bytes:
    """Of two claims of a number that one holds of which this is less."""
    return claim.rank if isinstance(claim, Record) else rank(claim)


def claim_against(form: Form, own: Entry) -> Entry:
    """A claim of a stranger that holds against another one. It takes long where that one's rank is small, and so only ranks are made."""
    if not isinstance(form, RecordForm):
        return next(one for one in (claim_of(form, own.site) for _ in itertools.count()) if claim_order(one) < claim_order(own))
    author, held = form.new_author(), claim_order(own)
    counters = itertools.count(random.getrandbits(48))
    return form.claim(own.site, author, next(
        counter for counter in counters if held[:CLAIMED_BYTES] <= rank_of(form.note, author.name, counter) < held))


def ons_of(entry: Entry) -> BuiltOn:
    """What an entry's messages build on, as one is made."""
    return {index: on for index, on in enumerate(entry.ons) if on} if isinstance(entry, Record) else entry.on


def plain_text(messages: Iterable[Operation]) -> bytes:
    """What a plain site shows that takes in messages as they come."""
    program = Program(65_000)
    try:
        program.ask([taking(program, message) for message in messages])
        return program.text()
    finally:
        program.close()


def engine_of(data: pathlib.Path, name: str = "note") -> int:
    """The process that has a person's note open."""
    lock = os.stat(data / "run" / f"{name}.lock")
    # The system tells its locks in parts, between which others change them.
    for _ in range(READINGS):
        found = re.findall(rf"FLOCK +ADVISORY +WRITE +(\d+) [0-9a-f]+:[0-9a-f]+:{lock.st_ino} ",
                           pathlib.Path("/proc/locks").read_text(encoding="ascii"))
        # Files of other disks have the same numbers.
        if holders := [process for process in map(int, found) if _has_open(process, lock)]:
            return holders[0]
    raise IndexError("nobody has the note open")


def _has_open(process: int, file: os.stat_result) -> bool:
    """Whether a process has a file open."""
    for one in pathlib.Path(f"/proc/{process}/fd").glob("*"):
        with contextlib.suppress(OSError):
            if os.path.samestat(one.stat(), file):
                return True
    return False


def alive(process: int) -> bool:
    """Whether a process hasn't ended. Who started one that has may not have asked for its status yet."""
    try:
        return pathlib.Path(f"/proc/{process}/stat").read_text(encoding="utf-8").rpartition(") ")[2][0] != "Z"
    except (FileNotFoundError, ProcessLookupError):
        return False


def python() -> str:
    """The Python that runs the tests."""
    return sys.executable
