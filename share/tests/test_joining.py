"""A note with a long history is joined, opened and typed into, with a bar, and each message is handed in once at most. The
figures of a note of 100,000 messages are printed where VIALSHOAL_FIGURES is set, as `share/tests/run` doesn't."""
import contextlib
import os
import time
from collections.abc import Callable
from unittest import mock

from share.format.link import Link
from share.format.second.key_link import link_of
from share.format.entry import Entry, Form
from share.format.link import is_network
from share.format.operation import Operation
from share.log.opening import open_log
from share.program.process import Program
from share.store import notes
from share.store.founding import begun
from share.sync.session import Session
from share.tests.naive import entry_of, taking
from share.tests.note import Note
from share.tests.support import Case, Person, wait_for

FIGURES = bool(os.environ.get("VIALSHOAL_FIGURES"))
LONG = 100_000 if FIGURES else 6_000
BACKWARDS, KEYS = 2_000, 50
# A log of so many messages may take a minute on a busy machine.
PATIENCE = 300
# How many edits one of two sites makes before the other one takes them in and goes on, and how many an entry has, as
# of who types while all is sent.
ROUND, EACH = 1_000, 1


def history(count: int) -> tuple[list[list[Operation]], bytes]:
    """So many messages of two sites, in rounds of one site each, and the text that they make."""
    sites = Program(1), Program(2)
    rounds, length = list[list[Operation]](), 0
    while length < count:
        typing, other = sites if len(rounds) % 2 == 0 else sites[::-1]
        events = [typing.event("type", length + number, b"%d" % (number % 10)) for number in range(ROUND)]
        made = [Operation.read(bytes.fromhex(answer[0].split()[2].decode())) for answer in typing.ask(events)]
        other.ask([taking(other, message) for message in made])
        rounds.append(made)
        length += ROUND
    text = sites[0].text()
    for site in sites:
        site.close()
    return rounds, text


def in_entries(form: Form, rounds: list[list[Operation]]) -> list[bytes]:
    """The entries of rounds, as who wrote them gave them to a log."""
    authors = {site: form.new_author() for site in (1, 2)}
    last: dict[int, Entry] = {site: form.claim(site, author) for site, author in authors.items()}
    raws = [one.raw for one in last.values()]
    for made in rounds:
        for begin in range(0, len(made), EACH):
            part = made[begin:begin + EACH]
            last[part[0].site] = entry_of(form, last[part[0].site], part, authors[part[0].site])
            raws.append(last[part[0].site].raw)
    return raws


class Joining(Case):
    """Joins notes whose logs the test has filled."""

    def fill(self, url: str, rounds: list[list[Operation]], backwards: bool = False) -> str:
        """Makes a log with the messages of rounds; the link of its note."""
        about = begun(url).about
        form = about.form()
        raws = in_entries(form, rounds)
        with contextlib.closing(open_log(url, form.note)) as log:
            for begin in range(0, len(raws), 1_000):
                log.append((raws[::-1] if backwards else raws)[begin:begin + 1_000])
        return Link("sealed" if about.sealed else "plain", about.secret, url).spelled()

    def timed(self, what: str, person: Person, text: bytes, link: str | None = None) -> tuple[Note, int]:
        """Opens a note, and counts how many messages are handed in, each of which is taken in at once."""
        handed: list[int] = []
        steps: list[tuple[int, int]] = []
        ask = Program.ask

        def counting(program: Program, events: list[bytes]) -> list[list[bytes]]:
            answers = ask(program, events)
            for event, (*_, answer) in zip(events, answers):
                if b" take " in event:
                    self.assertEqual(answer, b"taken 0 0")
                    handed.append(1)
                elif b" unpack " in event and answer != b"refused 1":
                    self.assertRegex(answer, rb"^unpacked \d+ 0 0$")
                    handed.append(int(answer.split()[1]))
            return answers

        begin = time.monotonic()
        with person.here(), mock.patch.object(Program, "ask", counting):
            disk = notes.open_note("note", None, link_of(link) if link else None)
            note = Note(Session(disk, None, lambda done, total: steps.append((done, total))))
            end = begin + PATIENCE
            while bytes(note.text) != text and time.monotonic() < end:
                note.take_in()
                time.sleep(0.02)
        self.assertEqual(bytes(note.text), text)
        self.told(f"{what} {len(text):,} messages", time.monotonic() - begin)
        self.addCleanup(note.session.close)
        self.assertTrue(all(total for _, total in steps))
        return note, sum(handed)

    def told(self, what: str, seconds: float) -> None:
        """Prints a figure, where these are asked for."""
        if FIGURES:
            print(f"{what}: {seconds:.2f} s", flush=True)

    def key(self, what: str, note: Note) -> None:
        """Types some keys."""
        seconds = []
        wait_for(lambda: (note.take_in(), note.session.status().can_type)[1], "a number")
        note.moved_to(len(note.text) // 2)
        for _ in range(KEYS):
            begin = time.perf_counter()
            note.type("x")
            seconds.append(time.perf_counter() - begin)
            note.take_in()
        seconds.sort()
        self.told(f"a key by the median, {what}", seconds[KEYS // 2])
        self.told(f"a key at most, {what}", seconds[-1])

    def tried(self, what: str, url: str, away: Callable[[], object]) -> None:
        """Joins a long note, types, and opens it again, also without its log."""
        rounds, text = history(LONG)
        link, person = self.fill(url, rounds), self.person("ann")
        note, handed = self.timed(f"{what}: joining", person, text, link)
        self.assertEqual(handed, len(text))
        self.key(what, note)
        text = bytes(note.text)
        wait_for(lambda: not note.session.status().unsent, "all to be sent")
        note.session.close()
        # It goes on from its packed file, which has all of it.
        note, handed = self.timed(f"{what}: opening", person, text)
        self.assertEqual(handed, 0)
        note.session.close()
        away()
        note, handed = self.timed(f"{what}: opening offline", person, text)
        self.assertEqual(handed, 0)
        self.assertTrue(is_network(url) or note.session.status().can_type)

    def test_a_long_history_in_a_file(self) -> None:
        self.tried("plain, a log in a file", self.file_log(), lambda: None)

    def test_a_long_history_on_a_server(self) -> None:
        server = self.redis()
        self.tried("sealed, a server", server.url, server.kill)

    def test_a_history_backwards(self) -> None:
        rounds, text = history(BACKWARDS)
        link = self.fill(self.file_log(), rounds, backwards=True)
        _, handed = self.timed("joining backwards", self.person("ann"), text, link)
        self.assertEqual(handed, len(text))
