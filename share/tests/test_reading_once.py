"""What comes in is read once: counted at the engine of who types a letter, and at that of who gets it; and what the program is
handed is what came."""
import contextlib
import json
from collections.abc import Callable, Iterator
from typing import TypeVar
from unittest import mock

from share.admission.judge import Judge
from share.editors.mirror import Mirror
from share.engine.engine import Engine
from share.format import chunk as chunks
from share.format import entry as entries
from share.format.second.key_link import link_of
from share.format.chunk import unpacked
from share.format.entry import Author, Entry, Plain
from share.format.operation import DELETE, Operation
from share.program.process import Program
from share.program.site import Site
from share.store import notes
from share.store.entries import Entries
from share.sync.replicator import Watch
from share.sync.session import Session
from share.sync.state import Holdings
from share.tests.editors import Engines
from share.tests.forms import is_second_form
from share.tests.naive import about, chunk_of, entry_of, inserting
from share.tests.support import Case, Person
from share.tests.waiting import wait_for

WORDS = "Some words. "
Result = TypeVar("Result")
FORM = Plain(bytes(range(16)))


class Counts:
    """How often messages are read, chunks packed and unpacked, and entries hashed; and what the program was handed of them, in its
    events' order."""

    def __init__(self) -> None:
        self.read = self.packed = self.unpacked = self.hashed = 0
        self.events: list[bytes] = []

    @contextlib.contextmanager
    def counting(self) -> Iterator["Counts"]:
        """Counts what is done meanwhile."""
        read, add, typed, ask = Operation.read, chunks.Writer.add, chunks._keystrokes_in, Program.ask

        def count(name: str, call: Callable[..., Result]) -> Callable[..., Result]:
            def counted(*words: object, **more: object) -> Result:
                setattr(self, name, getattr(self, name) + 1)
                return call(*words, **more)
            return counted

        def asked(program: Program, events: list[bytes]) -> list[list[bytes]]:
            self.events += [event for event in events if event.split()[1] in (b"take", b"unpack", b"where")]
            return ask(program, events)

        with (mock.patch.object(Operation, "read", count("read", read)), mock.patch.object(chunks.Writer, "add", count("packed", add)),
              mock.patch.object(chunks, "_keystrokes_in", count("unpacked", typed)), mock.patch.object(Program, "ask", asked),
              mock.patch.object(entries, "_hashed", count("hashed", entries._hashed))):
            yield self

    def verbs(self) -> list[bytes]:
        """The verbs of the events."""
        return [event.split()[1] for event in self.events]


class Here:
    """An engine in this process, and one editor at it."""

    def __init__(self, person: Person, url: str | None = None, link: str | None = None):
        self._person = person
        with person.here():
            given = link_of(link) if link else None
            self.engine = Engine("note", lambda: Session(notes.open_note("note", url, given)), lambda: None)
            self._sent: list[bytes] = []
            self._peer = self.engine.joined(self._sent.append, lambda: 0)
            self.engine.take(self._peer, [json.dumps({"do": "open", "protocol": 1, "units": ["utf-8"], "looks": True}).encode()])
        self._asked: list[bytes | None] = []
        self.mirror = Mirror(json.loads(self._sent.pop(0)), lambda line: self._asked.append(json.dumps(line).encode()))

    def turn(self, is_called: bool = True) -> None:
        """Does what is asked, and takes in what came."""
        with self._person.here():
            while self._asked:
                self.engine.take(self._peer, self._asked)
            self.engine.turn(is_called)
        for line in map(json.loads, self._sent):
            self.mirror.take(line)
        self._sent.clear()

    def until(self, condition: Callable[[], bool], what: str) -> None:
        """Turns until something is so."""
        def is_so() -> bool:
            self.turn()
            return condition()

        wait_for(is_so, what)

    def is_sent(self) -> bool:
        """Whether the log has all, and was read again since."""
        session = self.engine.session
        assert session
        return session.status().can_type and session.has_sent(session.last()) and not session.status().unsent


class OwnKeys(Case):
    """What this editor writes itself."""

    def test_they_are_not_read_back(self) -> None:
        person = self.person()
        note = self.opened(person)
        for _ in range(2):
            note.take_in()
        with mock.patch.object(Holdings, "read", autospec=True, side_effect=Holdings.read) as read:
            for _ in range(5):
                note.type("x")
                note.take_in()
        self.assertEqual(read.call_count, 0)
        other = self.opened(person)
        for _ in range(5):
            for one in other, note, note:
                one.type("y")
            wait_for(lambda: (note.take_in(), other.take_in(), note.text == other.text)[2], "both to be the same")
        with mock.patch.object(Entries, "_row", autospec=True, side_effect=Entries._row) as rows:
            for _ in range(3):
                note.type("z")
            other.take_in()
            other.type("z")
            wait_for(lambda: (note.take_in(), other.take_in(), note.text == other.text)[2], "both to be the same")
        # Each reads what the other one typed.
        self.assertEqual(rows.call_count, 4)

    def test_nobody_is_woken_for_them(self) -> None:
        person = self.person()
        note, other = self.opened(person), self.opened(person)
        watch = Watch(mock.Mock(), note.session._replicator._known, mock.Mock(), None, mock.Mock())
        with contextlib.closing(person.disk()) as disk:
            self.assertTrue(watch._has_news(disk))
            for one, is_news in (note, False), (note, False), (other, True), (note, False), (other, True):
                one.type("x")
                self.assertEqual(watch._has_news(disk), is_news)
                self.assertFalse(watch._has_news(disk))

    def test_they_are_answered_before_what_came_is_looked_for(self) -> None:
        author, answered = Here(self.person()), list[list[str]]()
        self.addCleanup(author.engine.close)
        author.turn()
        arrived = Session.arrived

        def seen(session: Session) -> object:
            answered.append([json.loads(line).get("answer") for line in author._sent])
            return arrived(session)

        with mock.patch.object(Session, "arrived", seen):
            author.mirror.edit([(0, 0, "x")])
            author.turn()
        self.assertEqual(answered, [["edit"]])

    def test_keys_in_a_row_are_followed_by_one_look(self) -> None:
        author = Here(self.person())
        self.addCleanup(author.engine.close)
        author.turn()
        with (mock.patch.object(Session, "arrived", autospec=True, side_effect=Session.arrived) as looked,
              mock.patch("share.engine.engine.PUT_OFF_SECONDS", 1_000)):
            for at in range(5):
                author.mirror.edit([(at, at, "x")])
                author.turn(is_called=False)
                self.assertEqual(author.mirror.answered, author.mirror.made)
                # The server calls soon.
                self.assertTrue(author.engine.is_restless())
            self.assertEqual(looked.call_count, 0)
            author.turn()
        self.assertEqual(looked.call_count, 1)
        self.assertFalse(author.engine.is_restless())


class Letters(Engines):
    """A letter is typed, beside others."""

    def numbers_of(self, name: str) -> int:
        """How many numbers somebody has that the log has the claims of."""
        with contextlib.closing(self.person(name).disk()) as disk:
            return sum(one.stood for one in disk.own.clients())

    def test_who_types_it_reads_and_packs_it_once(self) -> None:
        author = Here(self.person("anna"), url=self.file_log())
        self.addCleanup(author.engine.close)
        author.until(author.is_sent, "a number")
        author.mirror.edit([(0, 0, WORDS)])
        author.until(author.is_sent, "words to be sent")
        if is_second_form():
            author.until(lambda: self.numbers_of("anna") > 1, "a number in advance")
        for at in 4, 5, len(WORDS) + 2:
            # After a jump, after the letter before it, and at the end.
            with Counts().counting() as counts:
                author.mirror.edit([(at, at, "x")])
                author.until(author.is_sent, "the letter to be sent")
                for _ in range(20):
                    author.turn()
            self.assertEqual((counts.read, counts.packed, counts.unpacked, counts.hashed), (1, 1, 0, 1))
            self.assertEqual(counts.events, [])

    def test_who_gets_it_unpacks_it_once(self) -> None:
        (author,) = self.others("anna")
        author.type(WORDS)
        author.settle()
        receiver = Here(self.person("berta"), link=self.person("anna").link())
        self.addCleanup(receiver.engine.close)
        receiver.until(lambda: receiver.mirror.text == WORDS, "the words")
        if is_second_form():
            assert (session := receiver.engine.session)
            judge = session._holdings.judge
            receiver.until(lambda: len(judge.claimed()) > 3, "a number in advance for each")
        # Judged message by message, they are packed for the program.
        packed = int(is_second_form())
        for text in "x", "y":
            with Counts().counting() as counts:
                author.type(text)
                author.settle()
                receiver.until(lambda: receiver.mirror.text == author.text, "the letter")
                for _ in range(20):
                    receiver.turn()
            self.assertEqual((counts.read, counts.packed, counts.unpacked, counts.hashed), (0, packed, 1, 1))
            self.assertEqual(counts.verbs(), [b"unpack", b"where"])


class HandedIn(Case):
    """What counts of entries is handed to the program."""

    def setUp(self) -> None:
        super().setUp()
        self.author = Author(b"sixteen bytes of", b"")
        self.claim = FORM.claim(7, self.author)
        self.judge = Judge([self.claim])
        self.site = Site(1)
        self.addCleanup(self.site.close)
        self.site.insert(0, b"before ")

    def taken(self, *entries: Entry, told: bool = True) -> Counts:
        """What the site was handed of these."""
        for entry in entries:
            self.judge.add(entry)
        messages = self.judge.count().messages
        with Counts().counting() as counts:
            changes = self.site.take(messages, looks=told)
        if told:
            self.assertIsInstance(changes, list)
        return counts

    def handed(self, counts: Counts) -> list[bytes]:
        """The chunks that the program was handed, which are all that it was."""
        self.assertNotIn(b"take", counts.verbs())
        return [bytes.fromhex(event.split()[3].decode()) for event in counts.events if event.split()[1] == b"unpack"]

    def test_chunks_that_count_as_a_whole_are_handed_in_as_they_came(self) -> None:
        first = entry_of(FORM, self.claim, [inserting(7, 1, 1, None, 0, b"ab"), inserting(7, 2, 2, (7, 1), 2, b"c")], self.author)
        second = entry_of(FORM, first, [about(DELETE, 7, 3, 3, [(7, 0, 1)])], self.author, length=3)
        counts = self.taken(first, second)
        self.assertEqual(self.handed(counts), [first.spelled, second.spelled])
        self.assertEqual((counts.read, counts.packed), (0, 0))
        self.assertEqual(self.site.text(), b"bcbefore ")
        # What is inserted was nowhere, and what is deleted of that neither.
        self.assertEqual(counts.verbs(), [b"unpack", b"unpack", b"where"])

    def test_where_is_asked_once_before_and_once_after(self) -> None:
        first = entry_of(FORM, self.claim, [inserting(7, 1, 1, None, 0, b"abcdef")], self.author)
        self.taken(first)
        second = entry_of(FORM, first, [about(DELETE, 7, 2, 2, [(7, 1, 1), (7, 4, 1)])], self.author, length=6)
        third = entry_of(FORM, second, [inserting(7, 3, 3, (7, 0), 6, b"x"), about(DELETE, 7, 4, 4, [(7, 0, 2)])], self.author, length=6)
        counts = self.taken(second, third)
        where = [b"1 where 1 %d %d %d" % names for names in ((7, 0, 2), (7, 4, 1))]
        self.assertEqual([event for event in counts.events if b"where" in event], [*where, *where, b"1 where 1 7 6 1"])
        self.assertEqual(self.site.text(), b"xcdfbefore ")

    def test_a_part_is_handed_in_as_a_chunk_of_its_own(self) -> None:
        letters = [inserting(7, 1 + number, 1 + number, (7, number - 1) if number else None, number, b"%c" % letter)
                   for number, letter in enumerate(b"abcdefgh")]
        # The last one waits for what it was typed after.
        entry = entry_of(FORM, self.claim, [*letters, inserting(7, 9, 9, (50, 0), 8, b"z")], self.author)
        self.assertEqual(sum(one.size for one in unpacked(entry.spelled)), 9)
        judge = Judge([self.claim, entry])
        messages = judge.count().messages
        for begin, end in (0, 3), (3, 8):
            with Counts().counting() as counts:
                self.site.take(messages[begin:end], looks=True)
            self.assertEqual(self.handed(counts), [chunk_of(letters[begin:end])])
            self.assertEqual(counts.read, 0)
        self.assertEqual(self.site.text(), b"abcdefghbefore ")

    def test_much_is_handed_in_with_few_events(self) -> None:
        made, last = [], self.claim
        for number in range(2_500):
            last = entry_of(FORM, last, [inserting(7, 1 + number, 1 + number, None, number, b"x")], self.author)
            made.append(last)
        counts = self.taken(*made, told=False)
        self.assertLess(len(counts.events), 10)
        self.assertEqual(self.site.text(), b"x" * 2_500 + b"before ")
