"""Who closes a note has nothing open any more, whatever its log is and whatever failed as it was opened; and a process that has
more open than `select` takes goes on."""
import contextlib
import json
import os
import resource
import signal
import socket
import subprocess
import threading
import unittest
from collections.abc import Callable, Iterator, Sequence
from unittest import mock

from share.engine import protocol
from share.engine import server as serving
from share.log.base import Unreachable
from share.log.bell import Bell
from share.log.opening import open_log
from share.log.polling import can_read, ready
from share.log.redis import RedisLog
from share.program.site import Site
from share.store.locks import Locks
from share.tests.editors import Engines
from share.tests.left_open import left_open, open_now
from share.tests.servers import RedisServer, SocketServer, TlsServer
from share.tests.support import NOTE, Case, Person, type_at_the_end, wait_for, written
from share.tests.waiting import PATIENCE
from share.text.errors import Trouble
from share.text.line import Line

# Above the descriptors that `select` takes.
HIGH = 1_100
TIMES = 4


class Failure(Exception):
    """What a test has something raise."""


class Closing(Case):
    """Tests that see what is open."""

    def setUp(self) -> None:
        super().setUp()
        # On a busy machine a thread takes long to end. One that isn't woken holds up its end for ever.
        patches = contextlib.ExitStack()
        self.addCleanup(patches.close)
        patches.enter_context(mock.patch("share.sync.threads.JOIN_SECONDS", PATIENCE))
        patches.enter_context(mock.patch("share.sync.ways.SAY_ON_SECONDS", 10 * PATIENCE))
        patches.enter_context(mock.patch.object(RedisLog, "watch_seconds", 10 * PATIENCE))
        # What is loaded and opened once, as the first note is.
        self.opened_and_closed(self.person("warm"))
        self.before = open_now()

    def opened_and_closed(self, person: Person, url: str | None = None) -> None:
        """Somebody opens a note, types, and closes it."""
        note = person.open(url=url)
        try:
            type_at_the_end(note, "words ")
        finally:
            note.session.close()

    def redis(self) -> RedisServer:
        server = super().redis()
        self.held(server)
        return server

    def held(self, server: RedisServer) -> None:
        """The port of a server that was just started is this process's until the test ends."""
        self.addCleanup(server.close)
        self.before = open_now()

    def assert_nothing_open(self) -> None:
        """That nothing is open that wasn't before."""
        self.assertEqual(left_open(self.before), "")


class Logs(Closing):
    """Notes of all kinds of logs."""

    def logs(self) -> Iterator[str]:
        """The logs."""
        yield ""
        yield self.file_log()
        yield self.redis().url
        server = SocketServer(self.folder / "by-socket")
        self.held(server)
        yield server.url

    def test_a_note_that_is_closed(self) -> None:
        for number, url in enumerate(self.logs()):
            with self.subTest(url):
                for _ in range(TIMES):
                    self.opened_and_closed(self.person(f"person-{number}"), url or None)
                    # At once, since nothing held up its threads.
                    self.assertEqual(open_now().beyond(self.before).words(), "")

    def test_several_who_have_it_open(self) -> None:
        for number, url in enumerate((self.file_log(), self.redis().url)):
            for _ in range(TIMES):
                first = self.person(f"first-{number}")
                notes = [first.open(url=url), first.open()]
                type_at_the_end(notes[0], "words ")
                notes += [self.person(f"other-{number}").open(link=first.link()) for _ in range(2)]
                self.assert_meet(*notes)
                for note in notes:
                    note.session.close()
                self.assertEqual(open_now().beyond(self.before).words(), "")

    def test_a_tls_server(self) -> None:
        server = TlsServer(self.folder / "tls", "IP:127.0.0.1")
        self.held(server)
        for trusted in True, False:
            with mock.patch.dict(os.environ, {"SSL_CERT_FILE": str(server.certificate)} if trusted else {}):
                for number in range(TIMES):
                    self.opened_and_closed(self.person(f"{trusted}-{number}"), server.url)
        self.assert_nothing_open()

    def test_a_server_that_stands_still(self) -> None:
        server, person = self.redis(), self.person("somebody")
        note = person.open(url=server.url)
        written(note, "words ")
        server.process.send_signal(signal.SIGSTOP)
        type_at_the_end(note, "more ")
        wait_for(lambda: note.session.status().unsent, "it to be unsent")
        with mock.patch("share.sync.threads.JOIN_SECONDS", 1):
            note.session.close()
        server.kill()
        self.assert_nothing_open()

    def test_a_server_that_is_away(self) -> None:
        server, person = self.redis(), self.person("somebody")
        self.opened_and_closed(person, server.url)
        server.kill()
        for _ in range(TIMES):
            self.opened_and_closed(person)
            self.assert_nothing_open()


class Closed(Closing):
    """What was closed stays so."""

    def test_a_session(self) -> None:
        note = self.person().open(url=self.file_log())
        written(note, "words ")
        session, pid = note.session, note.session.site._program.process.pid
        session.close()
        uses: list[Callable[[], object]] = [
            session.close, session.text, lambda: session.insert(0, b"x"), session.arrived, session.status, session.notices, session.recover,
            lambda: session.show({b"token": b"cursor"})]
        for use in uses:
            with contextlib.suppress(Exception):
                use()
            self.assertEqual(open_now().beyond(self.before).words(), "")
        self.assertEqual(session.site._program.process.pid, pid)
        with self.assertRaises(Trouble):
            session.text()
        self.assertEqual(self.person().text(), b"words ")

    def test_locks(self) -> None:
        locks = Locks(self.folder / "note.note")
        self.assertTrue(locks.lock(7))
        locks.close()
        locks.close()
        locks.note(bytes(32), 7)
        self.assertFalse(locks.lock(8))
        self.assertEqual(locks.noted(bytes(32)), 0)
        self.assert_nothing_open()

    def test_a_bell(self) -> None:
        bell = Bell()
        bell.ring()
        bell.close()
        bell.close()
        # The descriptors are another one's now.
        ends = os.pipe()
        try:
            bell.ring()
            bell.silence()
            self.assertFalse(can_read(ends[0], 0))
            self.assertTrue(bell.waits(600))
        finally:
            for end in ends:
                os.close(end)
        self.assert_nothing_open()

    def test_a_thread_that_is_held_up(self) -> None:
        goes_on, held = threading.Event(), threading.Event()
        note = self.person().open(url=self.file_log())
        written(note, "words ")

        def holds(*_: object) -> set[int]:
            held.set()
            goes_on.wait()
            raise Failure

        with mock.patch("share.sync.threads.JOIN_SECONDS", 0.05), mock.patch("share.sync.known.Known.look_at", holds):
            type_at_the_end(note, "more ")
            held.wait()
            note.session.close()
            self.assertNotEqual(open_now().beyond(self.before).words(), "")
            goes_on.set()
        self.assert_nothing_open()


class Failing(Closing):
    """Openings that fail midway."""

    PARTS = ("share.sync.open_file.OpenFile.read_all", "share.sync.session.Numbers.__init__", "share.sync.session.Replica.__init__",
             "share.program.process.os.set_blocking", "share.program.site.Lasting.see_that_it_knows_chunks",
             "share.sync.session.Replicator.__init__", "share.sync.replicator.Giver.__init__", "share.sync.replicator.Replicator._start",
             "share.sync.session.OwnEdits.__init__",
             "share.sync.session.Hiders.__init__", "share.sync.session.Session.arrived", "share.sync.session.trace",
             "share.store.note_file.about_of", "share.store.note_file.OwnTables.__init__", "share.store.unchanged.Ahead.note",
             "share.store.guarded.SqliteFile.safe", "share.store.guarded.GuardedFile.reading", "share.log.bell.os.pipe2")

    def test_each_part(self) -> None:
        person = self.person()
        self.opened_and_closed(person, self.file_log())
        for part in self.PARTS:
            with self.subTest(part), mock.patch(part, side_effect=Failure):
                with self.assertRaises(Failure):
                    person.open()
                self.assert_nothing_open()

    def test_each_thread(self) -> None:
        person = self.person()
        self.opened_and_closed(person, self.file_log())
        start = threading.Thread.start
        for last in range(4):
            started = iter(range(last))

            def starts(thread: threading.Thread, started: Iterator[int] = started) -> None:
                if next(started, None) is None:
                    raise RuntimeError("can't start new thread")
                start(thread)

            with self.subTest(last), mock.patch.object(threading.Thread, "start", starts), self.assertRaises(RuntimeError):
                person.open()
            self.assert_nothing_open()


class High(Closing):
    """A process that has many descriptors."""

    def setUp(self) -> None:
        super().setUp()
        allow_many(self)
        nothing = os.open(os.devnull, os.O_RDWR | os.O_CLOEXEC)
        self.addCleanup(os.close, nothing)
        while (one := os.dup(nothing)) <= HIGH:
            self.addCleanup(os.close, one)
        self.addCleanup(os.close, one)

    def test_a_note(self) -> None:
        for number, url in enumerate((None, self.file_log(), self.redis().url)):
            note = self.person(f"person-{number}").open(url=url)
            self.addCleanup(note.session.close)
            self.assertGreater(note.session.site._program.run._out, HIGH)
            written(note, "words ")
            self.assertEqual(note.session.text(), b"words ")
            note.session.close()

    def test_a_long_answer(self) -> None:
        with contextlib.closing(Site(1)) as site:
            words = b"words and more words " * 100_000
            site.insert(0, words)
            self.assertEqual(site.text(), words)

    def test_a_program_that_ends(self) -> None:
        with contextlib.closing(Site(1)) as site:
            site.insert(0, b"words")
            site._program.process.kill()
            self.assertEqual(site.text(), b"words")

    def test_a_bell(self) -> None:
        with contextlib.closing(Bell()) as bell:
            self.assertGreater(bell.fileno(), HIGH)
            self.assertFalse(bell.waits(0))
            bell.ring()
            self.assertTrue(bell.waits(600))

    def test_what_is_ready(self) -> None:
        out, into = os.pipe()
        self.addCleanup(os.close, out)
        self.assertGreater(out, HIGH)
        self.assertEqual(ready(0, [out], [into]), (set(), {into}))
        os.write(into, b"!")
        self.assertEqual(ready(600, [out], [into]), ({out}, {into}))
        os.read(out, 1)
        os.close(into)
        self.assertEqual(ready(600, [out]), ({out}, set()))
        with self.assertRaises(OSError):
            ready(600, [into])


class Editors(Engines):
    """Many editors at one engine."""

    def connected(self, many: int) -> list[socket.socket]:
        """Connections that open the note all at once."""
        lines = list[socket.socket]()
        with self.person().here():
            for _ in range(many):
                line = serving.connected("note")
                assert line
                self.addCleanup(line.close)
                lines.append(line)
        for line in lines:
            line.sendall(protocol.serialize({"do": "open", "protocol": 1, "units": ["utf-8"]}))
        return lines

    def sockets(self) -> int:
        """How many sockets the engine has open."""
        folder, many = f"/proc/{self.engine()}/fd", 0
        for one in os.listdir(folder):
            # It may just be closed.
            with contextlib.suppress(FileNotFoundError):
                many += os.readlink(f"{folder}/{one}").startswith("socket:")
        return many

    def answers(self, lines: Sequence[socket.socket], is_it: Callable[[Line], bool]) -> list[Line]:
        """The first line of each that is the one; nothing of one that is closed before."""
        return [next((line for line in map(json.loads, one.makefile("rb")) if is_it(line)), {}) for one in lines]

    def test_more_than_select_takes(self) -> None:
        allow_many(self)
        first = self.editor()
        before, lines = self.sockets(), self.connected(HIGH)
        self.assertEqual([one["text"] for one in self.answers(lines, lambda line: line.get("answer") == "open")], [""] * HIGH)
        self.assertEqual(self.sockets(), before + HIGH)
        lines[-1].sendall(protocol.serialize({"do": "edit", "version": 0, "edits": 1, "changes": [[0, 0, "words"]]}))
        first.shows("words")
        found = self.answers(lines[:-1], lambda line: line.get("notice") == "changes")
        self.assertEqual([one["changes"] for one in found], [[[0, 0, "words"]]] * (HIGH - 1))
        for line in lines:
            line.close()
        wait_for(lambda: self.sockets() == before, "the engine to have let go of them")

    def test_more_than_the_system_lets_an_engine_have(self) -> None:
        served = 20
        words = f"ulimit -n {serving.OWN_FILES + served}; exec {NOTE} engine note"
        with subprocess.Popen(["sh", "-c", words], stdin=subprocess.PIPE, stdout=subprocess.PIPE) as relay:
            assert relay.stdin and relay.stdout
            relay.stdin.write(protocol.serialize({"do": "open", "protocol": 1, "units": ["utf-8"]}))
            relay.stdin.flush()
            self.assertIn(b'"answer":"open"', relay.stdout.readline())
            lines = self.connected(4 * served)
            found = self.answers(lines, lambda line: line.get("answer") == "open")
            self.assertEqual(["error" in one for one in found], [False] * (served - 1) + [True] * (3 * served + 1))
            self.assertIn(f"is open in {served} editors, as many as this system lets it be. Quit one of them.", found[-1]["words"])
            # Who is refused is let go of, and who goes makes room.
            self.assertEqual(lines[-1].recv(1), b"")
            lines[0].close()
            wait_for(lambda: "error" not in self.answers(self.connected(1), lambda line: line.get("answer") == "open")[0], "room for one")
            for line in lines:
                line.close()


class Connections(Closing):
    """Connections to a server that fail midway: who holds on to what was raised holds on to nothing open."""

    def test_each(self) -> None:
        self.server = self.redis()
        plain, tls = self.server.url, self.server.url.replace("redis://", "rediss://")
        faults: list[tuple[str, str, str | None]] = [
            (plain, "socket.socket.setsockopt", None), (tls, "ssl.create_default_context", None), (tls, "ssl.SSLContext.wrap_socket", None),
            (tls, "", None), (plain, "", "no password"), (f"unix://{self.folder}/nothing", "", None), ("redis://127.0.0.1:1", "", None),
            (plain, "share.log.resp.Wire._exchange", None), (plain, "share.log.resp.Wire._exchange", "password")]
        raised = list[Exception]()
        for url, fault, password in faults:
            with contextlib.ExitStack() as failing:
                if fault:
                    failing.enter_context(mock.patch(fault, side_effect=OSError))
                try:
                    open_log(url, bytes(16), password)
                except (Unreachable, Trouble) as why:
                    raised.append(why)
            self.assertEqual(open_now().beyond(self.before).words(), "", (url, fault))
        self.assertEqual(len(raised), len(faults))


def allow_many(case: Case) -> None:
    """Lets this process have many descriptors while a test runs."""
    limits = resource.getrlimit(resource.RLIMIT_NOFILE)
    resource.setrlimit(resource.RLIMIT_NOFILE, (max(limits[0], min(2 * HIGH, limits[1])), limits[1]))
    case.addCleanup(resource.setrlimit, resource.RLIMIT_NOFILE, limits)


if __name__ == "__main__":
    unittest.main()
