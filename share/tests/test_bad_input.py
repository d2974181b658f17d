"""What goes wrong is told in a sentence that says what to do, and leaves the note whole."""
import contextlib
import itertools
import json
import os
import shlex
import shutil
import signal
import socket
import sqlite3
import subprocess
import threading
import unittest
from collections.abc import Iterator
from unittest import mock

from share.format.second.key_link import link_of
from share.log.base import Unreachable
from share.log.sqlite import SqliteLog
from share.program import patience
from share.program.process import Ended, Program, command
from share.store import read_only
from share.tests.note import Note
from share.tests.servers import Hostile
from share.tests.support import NOTE, TOP, Case, change, python, raws_of, type_at_the_end, wait_for, written
from share.tests.test_logs import WITHOUT_END
from share.tests.waiting import PATIENCE

SOMEBODY = 65_534

# Types until no file may grow any more, as where a disk is full; prints how much was shown by then, what was told, and
# what is shown after it. Then there is room again.
FILLS = """
import json, resource
from share.store import notes
from share.sync.session import Session
from share.tests.note import Note
note = Note(Session(notes.open_note("note", None, None)))
resource.setrlimit(resource.RLIMIT_FSIZE, (200_000, 300_000))
while not note.notice:
    before = len(note.text)
    note.moved_to(before)
    note.type("x" * 500)
told = note.session.status().trouble
full = [before, len(note.text), len(note.session.text())]
resource.setrlimit(resource.RLIMIT_FSIZE, (300_000, 300_000))
note.type("y")
print(json.dumps([*full, note.notice, told, note.session.status().trouble, len(note.text)]))
note.session.close()
"""


class CutLine:
    """A line to a server that can be cut after a request, before its answer."""

    def __init__(self, port: int):
        self.port, self.cuts, self.was_cut = port, False, False
        self._listening = socket.create_server(("127.0.0.1", 0))
        self._open = [self._listening]
        self.url = f"redis://127.0.0.1:{self._listening.getsockname()[1]}"
        threading.Thread(target=self._listen, daemon=True).start()

    def _listen(self) -> None:
        with contextlib.suppress(OSError):
            while True:
                client, _ = self._listening.accept()
                server = socket.create_connection(("127.0.0.1", self.port))
                self._open += [client, server]
                for one, other, answers in (client, server, False), (server, client, True):
                    threading.Thread(target=self._pass_on, args=(one, other, answers), daemon=True).start()

    def _pass_on(self, one: socket.socket, other: socket.socket, answers: bool) -> None:
        with contextlib.suppress(OSError):
            while data := one.recv(65_536):
                if answers and self.cuts:
                    self.was_cut = True
                    break
                other.sendall(data)
            for end in one, other:
                end.shutdown(socket.SHUT_RDWR)

    def close(self) -> None:
        """Ends all that is open."""
        for one in self._open:
            with contextlib.suppress(OSError):
                one.shutdown(socket.SHUT_RDWR)
            one.close()


class BadInput(Case):
    """Each test has a note with some words of one person, and a log in a file."""

    def setUp(self) -> None:
        super().setUp()
        self.ann = self.person()
        note = self.ann.open(url=self.file_log())
        for words in "one ", "two ", "three ":
            written(note, words)
        note.session.close()

    def test_a_log_that_is_none(self) -> None:
        words, other = self.folder / "words", self.folder / "other"
        words.write_text("These are words.\n" * 100)
        with contextlib.closing(sqlite3.connect(other)) as file, file:
            file.execute("CREATE TABLE something (else_ TEXT)")
        for path in words, other:
            before = path.read_bytes()
            run = self.note("note", "--print", "--log", str(path))
            self.assertEqual((run.stdout, run.returncode), ("one two three ", 3), run.stderr)
            self.assertIn("isn't a note's log. Move it away, or name another file", run.stderr)
            self.assertEqual(path.read_bytes(), before)
        for url in "http://example.org", "redis://127.0.0.1", "redis://127.0.0.1:99999", "unix://x", "":
            self.assert_says(self.note("note", "--print", "--log", url or "\n"), "redis://HOST:PORT")

    def test_a_server_that_keeps_no_log(self) -> None:
        hostile = Hostile(lambda asked: b"HTTP/1.1 400 Bad Request\r\n\r\n")
        self.addCleanup(hostile.close)
        note = self.opened(self.person("bob"), url=self.redis().url)
        written(note, "one ")
        link = link_of(self.person("bob").link())
        for url, words in (hostile.url, "as a Redis server"), ("redis://127.0.0.1:1", "Connection refused"):
            run = self.note("note", "--print", VIALSHOAL_DATA=str(self.folder / "new"),
                            VIALSHOAL_LINK=link._replace(url=url).spelled())
            self.assertEqual((run.stdout, run.returncode), ("", 3))
            self.assertIn(words, run.stderr)

    def test_no_program(self) -> None:
        run = self.note("note", "--print", VIALSHOAL_PROGRAM="/nowhere")
        self.assert_says(run, "can't be run", "VIALSHOAL_PROGRAM")
        for part in "share", "bin":
            shutil.copytree(TOP / part, self.folder / "copy" / part, ignore=shutil.ignore_patterns("site_cli"))
        run = subprocess.run([self.folder / "copy" / "bin" / "note", "note", "--print"], capture_output=True,
                             text=True, check=False, env={**os.environ, "VIALSHOAL_PROGRAM": ""})
        self.assert_says(run, "Nothing is built here", "bin/site_cli")

    def test_a_program_that_ends_is_started_again(self) -> None:
        note = self.opened(self.ann)
        for words in "four ", "five ":
            note.session.site._program.process.send_signal(signal.SIGKILL)
            written(note, words)
        note.session.site._program.process.send_signal(signal.SIGKILL)
        self.assertTrue(note.take_back())
        self.assertEqual(note.session.text(), b"one two three four ")
        self.assertEqual(bytes(note.text), b"one two three four ")

    def test_only_a_program_that_hangs_is_ended(self) -> None:
        works = "import sys, time; sys.stdin.readline()\nwhile time.process_time() < {}: pass\nprint('text 0 ', flush=True)"
        for seconds, starves, stops in (0.1, True, False), (60, False, False), (60, False, True):
            command = shlex.join([python(), "-c", works.format(seconds)])
            with self.subTest(seconds=seconds, stops=stops), mock.patch.dict(os.environ, VIALSHOAL_PROGRAM=command):
                program = Program(1)
                self.addCleanup(program.close)
                if stops:
                    program.process.send_signal(signal.SIGSTOP)
                expected: contextlib.AbstractContextManager[object] = self.assertRaises(Ended)
                if starves:
                    expected = self.starved(program.process.pid)
                with mock.patch("share.program.patience.MOST_WORKING_SECONDS", 0.5), expected:
                    self.assertEqual(program.text(), b"")

    def test_a_program_that_waits_as_it_starts_is_waited_for(self) -> None:
        goes_on, real, looks = self.folder / "goes-on", patience.seen, itertools.count(1)
        waits = f"while [ ! -e {goes_on} ]; do sleep 0.01; done; exec {' '.join(command())} \"$@\""

        def seen(process: int) -> patience.Seen:
            if (number := next(looks)) == 2 * patience.MOST_STILL:
                goes_on.touch()
            return patience.Seen(False, 0.0) if number <= 2 * patience.MOST_STILL else real(process)

        with mock.patch.object(patience, "seen", seen), mock.patch("share.program.process.BETWEEN_LOOKS_SECONDS", 0.1), \
                mock.patch.dict(os.environ, VIALSHOAL_PROGRAM=shlex.join(["sh", "-c", waits, "sh"])):
            self.assertEqual(self.opened(self.ann).session.text(), b"one two three ")
        self.assertGreater(next(looks), 2 * patience.MOST_STILL)

    @contextlib.contextmanager
    def starved(self, process: int) -> Iterator[None]:
        """Leaves a process a tenth of a processor meanwhile."""
        other = subprocess.Popen([python(), "-c", "while True: pass"])
        try:
            for one in process, other.pid:
                os.sched_setaffinity(one, {min(os.sched_getaffinity(0))})
            os.setpriority(os.PRIO_PROCESS, process, os.getpriority(os.PRIO_PROCESS, other.pid) + 10)
            yield
        finally:
            other.kill()
            other.wait()

    def test_what_the_disk_damaged_is_brought_back(self) -> None:
        for damage in ("raw = CAST(substr(raw, 1, 90) || x'00' AS BLOB)", "raw = 'words'", "raw = CAST(x'ff' AS TEXT)",
                       "raw = 7", "body = 'words'", "sum = 'words'", "hash = CAST(x'ff01' AS TEXT)", "made = 'x'",
                       "raw = x''", "raw = zeroblob(100000)"):
            with self.subTest(damage=damage):
                change(self.ann.path(), f"UPDATE entry SET {damage} WHERE place = 3")
                note = self.ann.open()
                wait_for(lambda: (note.take_in(), note.text == b"one two three ")[1], "the log to bring it back")
                note.session.close()
                self.assertEqual(self.ann.text(), b"one two three ")

    def test_a_file_that_says_nothing_is_told(self) -> None:
        good = self.ann.path().read_bytes()
        for statement in ("DELETE FROM about WHERE name = 'secret'", "UPDATE about SET value = 'words'",
                          "UPDATE about SET value = 7 WHERE name = 'url'", "DROP TABLE client", "DROP TABLE about",
                          "UPDATE about SET value = x'00' WHERE name = 'secret'", "DROP TABLE entry"):
            with self.subTest(statement=statement):
                self.ann.path().write_bytes(good)
                change(self.ann.path(), statement)
                with self.assertRaisesRegex(Exception, "recover|renew|note's file") as raised:
                    self.opened(self.ann)
                self.assertEqual(type(raised.exception).__name__, "Trouble")
                run = self.note("note", "--print")
                if run.returncode == 2:
                    self.assert_says(run, "note.note")

    def test_a_disk_that_is_full(self) -> None:
        data = str(self.folder / "full")
        run = subprocess.run([python(), "-B", "-c", FILLS], cwd=TOP, capture_output=True, text=True, check=False,
                             env={**os.environ, "VIALSHOAL_DATA": data}, timeout=PATIENCE)
        self.assertEqual(run.returncode, 0, run.stderr)
        before, shown, site, notice, told, later, more = json.loads(run.stdout)
        self.assertGreater(before, 5_000)
        self.assertEqual((shown, site), (before, before))
        for words in notice, told:
            self.assertRegex(words, "The last edit couldn't be kept .*all before it is. Make room on the disk")
        self.assertEqual((later, more), (None, before + 1))
        printed = self.note("note", "--print", VIALSHOAL_DATA=data)
        self.assertEqual(printed.stdout, "x" * before + "y")

    def test_a_log_on_a_disk_that_is_full(self) -> None:
        note = self.opened(self.ann)
        with mock.patch.object(SqliteLog, "append", side_effect=Unreachable("database or disk is full")):
            type_at_the_end(note, "kept ")
            wait_for(lambda: note.session.status().offline, "the log to be full")
            self.assertEqual(note.session.status().offline, "database or disk is full")
            self.assertEqual(note.session.status().unsent, 1)
        wait_for(lambda: not note.session.status().unsent, "the log to have room again")
        wait_for(lambda: not note.session.status().offline, "it to be said")

    def test_a_log_and_a_file_that_have_no_end(self) -> None:
        for path in self.file_log(), str(self.ann.path()):
            with contextlib.closing(sqlite3.connect(path)) as file:
                file.executescript(f"ALTER TABLE entry RENAME TO before; {WITHOUT_END}")
            if path == self.file_log():
                run = self.note("cat", "note")
                self.assertEqual((run.returncode, run.stdout), (3, "one two three "))
                self.assertIn("The log can't be read", run.stderr)
        with mock.patch("share.log.sqlite_file.MOST_TICKS", 1):
            found = read_only.found_in(self.ann.path())
        self.assertRegex(found.faults[0], "damaged .interrupted.")

    def test_a_server_that_goes_away_while_it_appends(self) -> None:
        server = self.redis()
        line = CutLine(server.port)
        self.addCleanup(line.close)
        bob = self.person("bob")
        note = self.opened(bob, url=line.url)
        written(note, "one ")
        wait_for(lambda: (note.take_in(), len(list(self.claims(note))) == 2)[1], "one more number")
        line.cuts = True
        type_at_the_end(note, "two ")
        wait_for(lambda: line.was_cut, "the answer to an append to be cut off")
        wait_for(lambda: note.session.status().offline, "the client to notice")
        line.cuts = False
        written(note, "three ")
        with contextlib.closing(bob.log()) as log:
            raws = raws_of(log)
        self.assertEqual(len(raws), len(set(raws)))
        self.assertEqual(len(raws), 5)
        self.assertEqual(bytes(note.text), b"one two three ")

    def claims(self, note: Note) -> list[int]:
        """The numbers that are claimed."""
        return note.session._holdings.judge.claimed()

    def test_two_editors_of_one_folder_have_two_numbers(self) -> None:
        notes = [self.opened(self.ann) for _ in range(2)]
        self.assertEqual(len({note.session.number for note in notes}), 2)
        for note, words in zip(notes, ("four ", "five ")):
            type_at_the_end(note, words)
        self.assertEqual(sorted(self.assert_meet(*notes).split()), sorted(b"one two three four five".split()))

    def test_a_note_that_is_full(self) -> None:
        note = self.opened(self.ann)
        with mock.patch("share.program.site.MOST_MESSAGES", 5):
            written(note, "a")
            written(note, "b")
            note.type("c")
            self.assertRegex(note.notice, r"refused \(21\).*save it as a file")
            note.notice = ""
            note.take_back()
            self.assertRegex(note.notice, r"refused \(21\)")
            self.assertEqual(bytes(note.text), b"one two three ab")
        note.take_back()
        self.assertEqual(bytes(note.text), b"one two three a")
        self.assertEqual(note.session.text(), b"one two three a")

    @unittest.skipUnless(os.geteuid() == 0 and shutil.which("setpriv"), "root alone can be another account")
    def test_a_folder_of_another_account(self) -> None:
        os.chmod(self.folder, 0o755)
        words = ["setpriv", f"--reuid={SOMEBODY}", f"--regid={SOMEBODY}", "--clear-groups", NOTE]
        for more in ("note", "--print"), ("link", "note"), ("recover", str(self.ann.data)), ("renew", "note"):
            run = subprocess.run([*words, *more], capture_output=True, text=True, check=False, timeout=PATIENCE)
            self.assert_says(run, "Permission denied")


if __name__ == "__main__":
    unittest.main()
