"""Both logs keep each entry once and as it came, and end no client: what can't be an entry is left out, what was
lost is seen, and what is out of reach is said."""
import contextlib
import hashlib
import multiprocessing
import os
import pathlib
import random
import shutil
import sqlite3
import stat
import subprocess
import sys
import tempfile
import threading
import time
import tracemalloc
import unittest
from collections.abc import Callable, Iterator
from contextlib import closing
from unittest import mock

from share.format.entry import MOST_BYTES, Plain
from share.format.presence import MOST_PRESENCE
from share.log.base import READ_AT_ONCE, START, Log, LogLost, Unreachable
from share.log.bell import Bell
from share.log.opening import open_log
from share.log.sqlite import SqliteLog
from share.tests.counting import memory
from share.tests.servers import RedisServer, held_port, port_of
from share.tests.waiting import PATIENCE, wait_for
from share.text.errors import Trouble

NOTE, OTHER = bytes(range(16)), bytes(16)
# Who reads it never comes to its end.
WITHOUT_END = """CREATE VIEW entry AS WITH RECURSIVE more (place) AS (SELECT 1 UNION ALL SELECT place + 1 FROM more)
                 SELECT place, NULL AS hash, x'00' AS raw, 0 AS mark FROM more"""
TOP = pathlib.Path(__file__).resolve().parents[2]
# Seconds for which nobody waits here.
ENDLESS = 100_000


def raw(number: int, note: bytes = NOTE) -> bytes:
    """Bytes that begin as an entry of a note."""
    return bytes([2, 2]) + note + b"%06d" % number + bytes(50)


def raws(log: Log, after: str = START) -> list[bytes | None]:
    """All that a log has after a place."""
    found = []
    while page := log.read(after):
        found += [one.raw for one in page]
        after = page[-1].place
    return found


class Case(unittest.TestCase):
    """A test with a folder of its own."""

    def setUp(self) -> None:
        self.folder = pathlib.Path(tempfile.mkdtemp(prefix="logs-"))
        self.addCleanup(shutil.rmtree, self.folder, ignore_errors=True)


class Shared:
    """Holds tests that each log inherits, so that they don't run by themselves."""

    class Both(Case):
        """What both logs do."""

        def opened(self, note: bytes = NOTE) -> Log:
            """The log, which the caller closes."""
            raise NotImplementedError

        def log(self, note: bytes = NOTE) -> Log:
            """The log, as long as the test runs."""
            log = self.opened(note)
            self.addCleanup(log.close)
            return log

        def is_watched(self) -> bool:
            """Whether somebody waits for an entry of the log."""
            raise NotImplementedError

        @contextlib.contextmanager
        def watching(self, *places: str) -> Iterator[list[bytes | None]]:
            """Has another thread watch the log from one place after the other, at the last of which it waits; what it reads there as soon
            as a watch ends."""
            found: list[bytes | None] = []

            def watches() -> None:
                with closing(self.opened()) as log:
                    for place in places:
                        log.watch(place, ENDLESS)
                        found.extend(raws(log, place))

            thread = threading.Thread(target=watches, daemon=True)
            thread.start()
            wait_for(self.is_watched, "the log to be watched")
            yield found
            thread.join(PATIENCE)
            self.assertFalse(thread.is_alive(), "it watches on")

        def test_entries_come_as_they_went(self) -> None:
            log = self.log()
            self.assertEqual(log.read(START), [])
            some = [bytes(range(256)), raw(1), b"\n\r\0", bytes(MOST_BYTES)]
            log.append(some)
            self.assertEqual(raws(log), some)
            self.assertEqual(raws(self.log()), some)
            self.assertEqual(log.size(), 4)

        def test_an_exact_repeat_is_held_once(self) -> None:
            one, two = self.log(), self.log()
            one.append([raw(1), raw(2), raw(1)])
            two.append([raw(2), raw(3), raw(1)])
            one.append([])
            self.assertEqual(raws(one), [raw(1), raw(2), raw(3)])

        def test_a_place_parts_old_from_new(self) -> None:
            log = self.log()
            log.append([raw(1), raw(2)])
            first, last = (one.place for one in log.read(START))
            self.assertEqual(log.read(last), [])
            self.assertEqual(raws(log, first), [raw(2)])
            self.log().append([raw(3)])
            self.assertEqual(raws(log, last), [raw(3)])

        def test_many_come_in_pages(self) -> None:
            log, many = self.log(), [raw(number) for number in range(2 * READ_AT_ONCE + 7)]
            log.append(many)
            first = log.read(START)
            self.assertLessEqual(len(first), READ_AT_ONCE)
            self.assertFalse(log.at_end)
            self.assertEqual([log.size_to(START), log.size_to(first[6].place), log.size_to(first[-1].place)], [0, 7, len(first)])
            self.assertEqual(raws(log), many)
            self.assertTrue(log.at_end)
            self.assertEqual(log.size(), len(many))

        def test_large_ones_come_in_pages(self) -> None:
            log, many = self.log(), [b"%06d" % number + bytes(MOST_BYTES - 6) for number in range(700)]
            log.append(many)
            self.assertEqual(raws(log), many)

        def test_a_watch_ends_with_an_entry(self) -> None:
            log = self.log()
            log.append([raw(1)])
            place = log.read(START)[-1].place

            with self.watching(START, place) as found:
                log.append([raw(2)])
            self.assertEqual(found, [raw(1), raw(2)])

        def test_a_watch_ends_with_its_time(self) -> None:
            log = self.log()
            for at in range(2):
                begin = time.monotonic()
                log.watch(log.read(START)[-1].place if at else START, 0.2)
                # A busy machine makes it longer alone.
                self.assertGreater(time.monotonic() - begin, 0.1)
                log.append([raw(1)])

        @mock.patch("share.log.redis.ON_SECONDS", PATIENCE)
        @mock.patch("share.log.sqlite.ON_SECONDS", PATIENCE)
        def test_those_who_are_on_are_told(self) -> None:
            log, other = self.log(), self.log()
            self.assertEqual(log.meet(b"one", b"1"), [b"1"])
            self.assertEqual(sorted(other.meet(b"two", b"2")), [b"1", b"2"])
            self.assertEqual(sorted(log.meet(b"one", b"1 again")), [b"1 again", b"2"])
            other.leave(b"two")
            self.assertEqual(log.meet(b"one", b""), [b""])

        def test_too_long_a_presence_is_left_out(self) -> None:
            log = self.log()
            log.meet(b"one", bytes(MOST_PRESENCE + 1))
            self.assertEqual(log.meet(b"two", bytes(MOST_PRESENCE)), [bytes(MOST_PRESENCE)])

        def test_writers_at_once_lose_nothing(self) -> None:
            def write(begin: int) -> None:
                with closing(self.opened()) as log:
                    for number in range(begin, begin + 30):
                        log.append([raw(number)])

            threads = [threading.Thread(target=write, args=(begin,)) for begin in (0, 15, 30)]
            for thread in threads:
                thread.start()
            for thread in threads:
                thread.join()
            self.assertEqual(sorted(filter(None, raws(self.log()))), [raw(number) for number in range(60)])

        def test_the_sites_that_are_claimed(self) -> None:
            log, form = self.log(), Plain(NOTE)
            self.assertIn(log.claimed(1, 18), (set(), None))
            author = form.new_author()
            claims = [form.claim(site, author) for site in (7, 65_000, 7)]
            log.append([b"", b"\1", raw(1), *(one.raw for one in claims), form.made_anew(claims[1], author).raw])
            with mock.patch("share.log.redis.CLAIMS_AT_ONCE", 2):
                self.assertIn(log.claimed(1, 18), ({7, 65_000}, None))

        def test_a_place_of_another_log_is_told(self) -> None:
            log = self.log()
            log.append([raw(1)])
            for place in ("x", "1", "7-1", "1.1", "7-1/3", "99999999999999999999.1"):
                with self.assertRaises(LogLost, msg=place):
                    log.watch(place, 0.1)
                    log.read(place)


class Files(Shared.Both):
    """A log in a file."""

    def setUp(self) -> None:
        super().setUp()
        self.path = self.folder / "made" / "here" / "log.db"
        patched = mock.patch.object(Bell, "waits", autospec=True, side_effect=Bell.waits)
        self.pauses = patched.start()
        self.addCleanup(patched.stop)

    def is_watched(self) -> bool:
        return bool(self.pauses.called)

    def opened(self, note: bytes = NOTE) -> Log:
        return open_log(str(self.path), note)

    def file(self) -> sqlite3.Connection:
        """The file, as another program opens it."""
        file = sqlite3.connect(self.path, isolation_level=None)
        self.addCleanup(file.close)
        return file

    def asides(self) -> list[str]:
        """What was set aside."""
        return sorted(path.name for path in self.path.parent.glob("*.damaged-*")
                      if path.name[-1].isdigit())

    def closed_with(self, *some: bytes) -> None:
        """The log with some entries, and nobody at it."""
        with closing(self.opened()) as log:
            log.append(some)

    def test_nobody_else_reads_it(self) -> None:
        os.umask(before := os.umask(0))
        self.addCleanup(os.umask, before)
        os.umask(0)
        log = self.log()
        log.append([raw(1)])
        for end in ("", "-wal", "-shm"):
            mode = os.stat(f"{self.path}{end}").st_mode
            self.assertEqual(stat.S_IMODE(mode), 0o600, end)
        for folder in (self.path.parent, self.path.parent.parent):
            self.assertEqual(stat.S_IMODE(folder.stat().st_mode), 0o700)

    def test_another_notes_log_is_left_as_it_is(self) -> None:
        self.closed_with(raw(1))
        before = self.path.read_bytes()
        with self.assertRaisesRegex(Trouble, "is the log of another note"):
            self.opened(OTHER)
        self.assertEqual(self.path.read_bytes(), before)

    def test_an_emptied_header_is_written_anew(self) -> None:
        nothing: list[bytes] = []
        for some in (nothing, [raw(1)]):
            self.closed_with(*some)
            self.file().execute("DELETE FROM header")
            with self.subTest(some=some):
                if some:
                    self.file().execute("INSERT INTO header VALUES ('text')")
                    with self.assertRaisesRegex(Trouble, "another note"):
                        self.opened(OTHER)
                with closing(self.opened()) as log:
                    self.assertEqual(raws(log), some)
                with self.assertRaisesRegex(Trouble, "another note"):
                    self.opened(OTHER)

    def test_what_can_not_be_an_entry_is_left_out(self) -> None:
        log = self.log()
        log.append([raw(1)])
        file = self.file()
        add = "INSERT INTO entry (raw) VALUES "
        for value in ("('text')", "(7)", "(1.5)", f"(zeroblob({MOST_BYTES + 1}))", "(zeroblob(300000000))",
                      "(CAST(x'ff00fe' AS TEXT))"):
            file.execute(add + value)
        file.execute("INSERT INTO entry (raw, mark) VALUES (zeroblob(3), 'no number')")
        log.append([raw(2)])
        # It has 300 MB.
        self.assertLess(memory(lambda: self.assertEqual(raws(log), [raw(1), *[None] * 6, bytes(3), raw(2)])), 3 * 10**7)
        self.assertEqual(raws(log, log.read(START)[3].place), [None, None, None, bytes(3), raw(2)])

    def test_null_in_a_table_of_another_making(self) -> None:
        self.closed_with(raw(1))
        file = self.file()
        file.executescript("""ALTER TABLE entry RENAME TO old; CREATE TABLE entry (place INTEGER PRIMARY KEY, hash,
                              raw, mark); INSERT INTO entry SELECT * FROM old; INSERT INTO entry DEFAULT VALUES""")
        log = self.log()
        self.assertEqual(raws(log), [raw(1), None])
        log.append([raw(2), raw(1)])
        self.assertEqual(raws(log, log.read(START)[1].place), [raw(2)])

    def test_a_flipped_bit_makes_room_for_the_right_entry(self) -> None:
        log = self.log()
        log.append([raw(1), raw(2)])
        wrong = raw(1)[:-1] + b"x"
        self.file().execute("UPDATE entry SET raw = ? WHERE place = 1", (wrong,))
        for _ in range(2):
            log.append([raw(1), raw(2)])
        self.assertEqual(raws(log), [wrong, raw(2), raw(1)])

    def lost(self, log: Log, *why: str) -> None:
        """That each call at a log says that it is lost."""
        for call in self.calls(log):
            with self.assertRaises(LogLost) as told:
                call()
        for part in why:
            self.assertIn(part, str(told.exception))

    def calls(self, log: Log) -> list[Callable[[], object]]:
        """One of each call."""
        return [lambda: log.append([raw(9)]), lambda: log.read(START), lambda: log.watch(START, 5), log.size, lambda: log.size_to(START),
                lambda: log.meet(b"x", b""), lambda: log.leave(b"x")]

    def test_a_removed_file_is_lost(self) -> None:
        for ends in (("", "-wal", "-shm"), ("",), ("-wal",), ("-shm",)):
            # Another one that is at it in this process goes with it.
            with self.subTest(ends=ends), closing(self.opened()) as log, closing(self.opened()) as other:
                log.append([raw(1)])
                for end in ends:
                    os.unlink(f"{self.path}{end}")
                self.lost(log, "was removed")
                with closing(self.opened()) as again:
                    self.assertEqual(raws(again), [])
                    self.lost(other)
                    again.append([raw(2)])
                    self.assertEqual(raws(again), [raw(2)])
                self.path.unlink()
            with closing(self.opened()) as log:
                log.append([raw(1)])
                self.assertEqual(raws(log), [raw(1)])
                self.assertEqual(stat.S_IMODE(self.path.stat().st_mode), 0o600)

    def test_a_replaced_file_is_lost(self) -> None:
        self.closed_with(raw(1))
        copy = shutil.copy(self.path, self.folder / "copy.db")
        with closing(self.opened()) as log:
            log.append([raw(2)])
            os.replace(copy, self.path)
            self.lost(log, "was replaced")
        with closing(self.opened()) as log:
            log.append([raw(1), raw(3)])
            self.assertEqual(raws(log)[0], raw(1))
            self.assertIn(raw(3), raws(log))

    def test_an_emptied_file_is_lost(self) -> None:
        for which in (1, 2):
            with closing(self.opened()) as log, closing(self.opened()) as other:
                log.append([raw(1), raw(2)])
                os.truncate(self.path, 0)
                with self.assertRaisesRegex(LogLost, f"was emptied; it is kept as log.db.damaged-{which}"):
                    log.append([raw(3)])
                self.lost(other, "was removed")
            with closing(self.opened()) as log:
                self.assertEqual(log.read(START), [])
                log.append([raw(1)])
            self.path.unlink()
        self.assertEqual(self.asides(), ["log.db.damaged-1", "log.db.damaged-2"])

    def test_an_emptied_table_is_lost(self) -> None:
        log = self.log()
        log.append([raw(1), raw(2)])
        place = log.read(START)[-1].place
        self.file().execute("DELETE FROM entry")
        log.watch(place, 0)
        for after in (place, START):
            with self.assertRaisesRegex(LogLost, "has lost entries"):
                log.read(after)
        with closing(self.opened()) as again:
            again.append([raw(1)])
            self.assertEqual(raws(again), [raw(1)])

    def test_lost_ends_are_seen(self) -> None:
        """Both ends: the last entries, even where others took their places, and the first ones."""
        for which, take in (("place > 2", raw(8)), ("place < 2", raw(9))):
            self.closed_with(*[raw(number) for number in range(1, 5)])
            with self.subTest(which), closing(self.opened()) as log:
                place = log.read(START)[-1].place
                self.file().execute(f"DELETE FROM entry WHERE {which}")
                with closing(self.opened()) as other:
                    other.append([take] * 3)
                    other.append([raw(7)])
                with self.assertRaisesRegex(LogLost, "has lost entries"):
                    log.read(place)

    def test_a_damaged_file_is_set_aside(self) -> None:
        for number in range(1, 4):
            with closing(self.opened()) as log:
                log.append([raw(at) for at in range(2000)])
            size = self.path.stat().st_size
            with open(self.path, "r+b") as file:
                file.seek(size // 4)
                file.write(random.Random(5).randbytes(size // 2))
            with self.assertRaisesRegex(LogLost, f"is damaged .*kept as log.db.damaged-{number}"):
                with closing(self.opened()) as log:
                    raws(log)
            with closing(self.opened()) as log:
                self.assertEqual(raws(log), [])
        self.assertEqual(self.asides(), [f"log.db.damaged-{number}" for number in (1, 2, 3)])

    def test_a_file_damaged_while_it_is_open_is_lost(self) -> None:
        log = self.log()
        log.append([raw(at) for at in range(9000)])
        self.file().execute("PRAGMA wal_checkpoint(TRUNCATE)")
        size = self.path.stat().st_size
        with open(self.path, "r+b") as file:
            file.write(bytes(size))
        with self.assertRaises(LogLost):
            raws(log)
        self.lost(log)
        with contextlib.suppress(LogLost):
            self.opened().close()
        with closing(self.opened()) as again:
            again.append([raw(1)])
            self.assertEqual(raws(again), [raw(1)])

    def test_a_header_of_zeros_is_set_aside(self) -> None:
        self.closed_with(raw(1))
        with open(self.path, "r+b") as file:
            file.write(bytes(4096))
        with self.assertRaisesRegex(LogLost, "kept as"):
            self.opened()
        self.closed_with(raw(1))

    def test_a_table_that_is_gone_is_set_aside(self) -> None:
        for table in ("entry", "header", "presence"):
            with self.subTest(table), closing(self.opened()) as log:
                self.file().execute(f"DROP TABLE {table}")
                with self.assertRaisesRegex(LogLost, "is damaged"):
                    with closing(self.opened()) as other:
                        other.meet(b"x", b"")
                self.lost(log)
            self.closed_with(raw(1))

    def test_views_without_end_end(self) -> None:
        self.closed_with(raw(1))
        with closing(self.opened()) as log, mock.patch("share.log.sqlite_file.MOST_TICKS", 1):
            self.file().executescript(f"ALTER TABLE entry RENAME TO before; {WITHOUT_END}")
            for call in (lambda: raws(log), lambda: log.watch(START, 0), log.size):
                with self.assertRaisesRegex(Unreachable, "interrupted"):
                    call()
        # Who opens it sees at once that it is no log.
        with self.assertRaisesRegex(LogLost, "lacks some of its tables.*kept as"):
            self.opened()
        self.closed_with(raw(1))

    def test_places_without_room_above_are_set_aside(self) -> None:
        self.closed_with(raw(1))
        self.file().execute("INSERT INTO entry (place, raw) VALUES (9223372036854775807, x'00')")
        with self.assertRaisesRegex(LogLost, "kept as"), closing(self.opened()) as log:
            log.append([raw(2)])
            raws(log)
        self.closed_with(raw(1))

    def test_what_is_no_log_is_left_as_it_is(self) -> None:
        self.path.parent.mkdir(parents=True)
        for data in (b"Dear Ann,\n" * 50, b"xy"):
            self.path.write_bytes(data)
            with self.assertRaisesRegex(Trouble, "isn't a note's log"):
                self.opened()
            self.assertEqual(self.path.read_bytes(), data)
        self.path.unlink()
        self.file().executescript("CREATE TABLE letters (one); PRAGMA application_id = 5")
        data = self.path.read_bytes()
        with self.assertRaisesRegex(Trouble, "isn't a note's log"):
            self.opened()
        self.assertEqual(self.path.read_bytes(), data)
        self.path.unlink()
        for what in ("/dev/null", "/", str(self.path)):
            self.path.unlink(missing_ok=True)
            self.path.symlink_to("nothing" if what == str(self.path) else what)
            with self.assertRaisesRegex(Trouble, "isn't a file"):
                self.opened()

    def test_a_full_disk_is_unreachable(self) -> None:
        log = self.log()
        log.append([raw(1)])
        assert isinstance(log, SqliteLog)
        pages = log._file.one("PRAGMA page_count")
        log._file.one(f"PRAGMA max_page_count = {pages + 4}")
        with self.assertRaisesRegex(Unreachable, "full"):
            log.append([raw(number) for number in range(2, 500)])
        log._file.one("PRAGMA max_page_count = 100000")
        self.assertEqual(raws(log), [raw(1)])
        log.append([raw(2)])
        self.assertEqual(raws(log), [raw(1), raw(2)])

    def test_a_locked_file_is_unreachable(self) -> None:
        log = self.log()
        assert isinstance(log, SqliteLog)
        log._file.one("PRAGMA busy_timeout = 50")
        other = self.file()
        other.execute("BEGIN IMMEDIATE")
        with self.assertRaisesRegex(Unreachable, "locked"):
            log.append([raw(1)])
        other.execute("COMMIT")
        log.append([raw(1)])

    def test_no_folder_ends_in_a_traceback(self) -> None:
        (self.folder / "file").write_bytes(b"")
        for path in (self.folder / "file" / "log.db", self.folder / ("x" * 300), "/proc/nothing/log.db"):
            with self.assertRaises(Unreachable, msg=path):
                open_log(str(path), NOTE)

    def test_kept_files_of_those_who_die(self) -> None:
        """What was appended stands, whenever who appended was killed."""
        code = ("import sys\nfrom share.log.opening import open_log\nlog = open_log(sys.argv[1], bytes(range(16)))\n"
                "for number in range(10 ** 6):\n"
                "    log.append([b'%06d' % number]); print(number, flush=True)")
        for turn in range(5):
            with subprocess.Popen([sys.executable, "-B", "-c", code, str(self.path)], cwd=TOP,
                                  stdout=subprocess.PIPE) as writer:
                assert writer.stdout
                said = [int(writer.stdout.readline()) for _ in range(5 + turn)]
                writer.kill()
            with closing(self.opened()) as log:
                self.assertLessEqual({b"%06d" % number for number in said}, set(raws(log)))

    def test_makers_at_once_make_one(self) -> None:
        with multiprocessing.get_context("fork").Pool(6) as makers:
            makers.map(_append_one, [(str(self.path), number) for number in range(24)], 1)
        self.assertEqual(sorted(filter(None, raws(self.log()))), [raw(number) for number in range(24)])


class Servers(Shared.Both):
    """A log on a server."""

    def setUp(self) -> None:
        super().setUp()
        self.server = RedisServer(self.folder / "redis")
        self.addCleanup(self.server.close)
        # A busy machine's server isn't one that is gone.
        patient = mock.patch("share.log.resp.REPLY_SECONDS", PATIENCE)
        patient.start()
        self.addCleanup(patient.stop)
        self.entries, self.places, self.times, self.said = (
            f"vialshoal:note:{{{NOTE.hex()}}}:{part}" for part in ("entries", "places", "times", "said"))

    def opened(self, note: bytes = NOTE) -> Log:
        return open_log(self.server.url, note)

    def is_watched(self) -> bool:
        return b"blocked_clients:1\r" in self.server.cli("INFO", "clients")

    def script(self, script: str, *words: str) -> None:
        """Runs a script on the server, over the stream of entries."""
        self.server.cli("EVAL", script, "1", self.entries, *words)

    def test_notes_are_apart(self) -> None:
        self.log().append([raw(1)])
        self.log().meet(b"one", b"1")
        self.log(OTHER).append([raw(2)])
        self.assertEqual(raws(self.log(OTHER)), [raw(2)])
        self.assertEqual(self.log(OTHER).meet(b"two", b"2"), [b"2"])
        for key in self.server.cli("KEYS", "*").decode().split():
            self.assertRegex(key, f"^vialshoal:note:{{({NOTE.hex()}|{OTHER.hex()})}}:")

    def test_what_is_gone_is_added_anew(self) -> None:
        log = self.log()
        for remove in ("redis.call('XTRIM', KEYS[1], 'MAXLEN', 1)", "redis.call('DEL', KEYS[1])",
                       "redis.call('XDEL', KEYS[1], redis.call('XRANGE', KEYS[1], '-', '+', 'COUNT', 1)[1][1])"):
            log.append([raw(1), raw(2), raw(3)])
            self.script(remove)
            log.append([raw(1), raw(2), raw(3)])
            self.assertEqual(sorted(filter(None, raws(self.log()))), [raw(1), raw(2), raw(3)], remove)

    def test_what_is_gone_is_seen(self) -> None:
        for which, lose in enumerate(("redis.call('XTRIM', KEYS[1], 'MAXLEN', 1)", "redis.call('DEL', KEYS[1])",
                                      "redis.call('XDEL', KEYS[1], ARGV[1])", "redis.call('FLUSHALL')")):
            log = self.log()
            log.append([raw(number) for number in range(5)])
            page = log.read(START)
            self.script(lose, page[2].place.split("/")[0])
            for more in range(2):
                with self.subTest(which), self.assertRaisesRegex(LogLost, "has lost entries"):
                    log.read(page[-1].place)
                self.log().append([raw(9)])
            self.assertIn(raw(9), raws(log))

    def test_an_older_copy_is_seen(self) -> None:
        log = self.log()
        log.append([raw(1)])
        shutil.copytree(self.server.folder, self.folder / "copy")
        log.append([raw(2), raw(3)])
        place = log.read(START)[-1].place
        self.server.kill()
        shutil.rmtree(self.server.folder)
        shutil.copytree(self.folder / "copy", self.server.folder)
        self.server.start()
        with self.assertRaises(Unreachable):
            log.read(place)
        with self.assertRaises(LogLost):
            log.read(place)
        log.append([raw(4), raw(5), raw(6)])
        with self.assertRaises(LogLost):
            log.read(place)
        log.append([raw(number) for number in range(1, 4)])
        self.assertEqual(raws(log), [raw(number) for number in (1, 4, 5, 6, 2, 3)])

    def test_the_places_can_not_be_poisoned(self) -> None:
        log = self.log()
        log.append([raw(1)])
        place = log.read(START)[0].place.split("/")[0]
        for number, wrong in enumerate((place, "0-1", "garbage", "+", "-", "", "x" * 1000), 10):
            self.server.cli("HSET", self.places, hashlib.sha1(raw(number)).hexdigest(), wrong)
            for _ in range(2):
                log.append([raw(number)])
        self.assertEqual(raws(log), [raw(1), *[raw(number) for number in range(10, 17)]])

    def test_what_can_not_be_an_entry_is_left_out(self) -> None:
        log = self.log()
        log.append([raw(1)])
        for words in ("'x', 'y'", "'e', 'y', 'e', 'z'", f"'e', string.rep('x', {MOST_BYTES + 1})",
                      "'', ''", "'e', string.rep('x', 100000000)"):
            self.script(f"redis.call('XADD', KEYS[1], '*', {words})")
        log.append([raw(2)])
        tracemalloc.start()
        try:
            page = log.read(START)
            log.watch(page[-3].place, 5)
            self.assertLess(tracemalloc.get_traced_memory()[1], 2**20)
        finally:
            tracemalloc.stop()
        self.assertEqual([one.raw for one in page], [raw(1), *[None] * 5, raw(2)])
        self.assertEqual(raws(log, page[3].place), [None, None, raw(2)])

    def test_a_watch_ends_with_a_large_one(self) -> None:
        with self.watching(START) as found:
            self.script("redis.call('XADD', KEYS[1], '*', 'e', string.rep('x', 3e7))")
        self.assertEqual(found, [None])

    def test_keys_of_other_kinds_are_told(self) -> None:
        calls: list[tuple[str, Callable[[Log], object]]] = [
            (self.entries, lambda log: log.append([raw(1)])), (self.entries, lambda log: log.read(START)),
            (self.entries, lambda log: log.watch(START, 1)), (self.entries, lambda log: log.size()),
            (self.places, lambda log: log.append([raw(1)])), (self.times, lambda log: log.meet(b"x", b"")),
            (self.said, lambda log: log.leave(b"x"))]
        for key, call in calls:
            self.server.cli("SET", key, "text")
            with self.assertRaisesRegex(Trouble, "something else under the note's keys"), closing(self.opened()) as log:
                call(log)
            self.server.cli("DEL", key)

    def test_a_server_that_is_gone_is_unreachable(self) -> None:
        log = self.log()
        log.append([raw(1)])
        self.server.kill()
        calls: list[Callable[[], object]] = [lambda: log.append([raw(2)]), log.size, lambda: log.watch(START, 1),
                                             lambda: log.read(START)]
        for _ in range(2):
            for call in calls:
                with self.assertRaises(Unreachable):
                    call()
        with self.assertRaises(Unreachable):
            self.opened()
        self.server.start()
        log.append([raw(2)])
        self.assertEqual(raws(log), [raw(1), raw(2)])

    def test_what_it_can_not_do_now_is_said(self) -> None:
        log = self.log()
        log.append([raw(1)])
        self.server.cli("CONFIG", "SET", "maxmemory", "1")
        with self.assertRaisesRegex(Unreachable, "has no memory left"):
            log.append([raw(2)])
        self.server.cli("CONFIG", "SET", "maxmemory", "0")
        with held_port() as nobodys:
            self.server.cli("REPLICAOF", "127.0.0.1", str(port_of(nobodys)))
            with self.assertRaisesRegex(Unreachable, "is a replica"):
                log.append([raw(2)])
        self.server.cli("REPLICAOF", "NO", "ONE")
        log.append([raw(2)])
        self.assertEqual(raws(log), [raw(1), raw(2)])

    # On a busy machine some seconds go by meanwhile.
    @mock.patch("share.log.redis.ON_SECONDS", PATIENCE)
    def test_who_is_on_goes_by_the_servers_clock(self) -> None:
        log = self.log()
        log.meet(b"one", b"1")
        for token, change in (("old", -PATIENCE - 5), ("new", 2 * PATIENCE), ("near", -5)):
            self.server.cli("HSET", self.said, token, token)
            self.server.cli("ZADD", self.times, str(int(time.time()) + change), token)
        self.assertEqual(sorted(log.meet(b"two", b"2")), [b"1", b"2", b"near"])
        self.assertEqual(self.server.cli("HLEN", self.said), b"3")
        self.assertLessEqual(int(self.server.cli("TTL", self.said)), 4 * PATIENCE)

    def test_too_many_who_are_on_are_left_out(self) -> None:
        self.server.cli("EVAL", "for i = 1, 1500 do redis.call('ZADD', KEYS[1], redis.call('TIME')[1], i); "
                        "redis.call('HSET', KEYS[2], i, string.rep('x', i % 300)) end", "2", self.times, self.said)
        said = self.log().meet(b"one", b"1")
        self.assertLessEqual(len(said), 1000)
        self.assertLessEqual(max(map(len, said)), MOST_PRESENCE)
        self.assertGreater(len(said), 500)

    def test_kept_by_a_server_that_dies(self) -> None:
        log = self.log()
        for turn in range(3):
            log.append([raw(turn)])
            self.server.kill()
            self.server.start()
            with contextlib.suppress(Unreachable):
                log.size()
        self.assertEqual(raws(log), [raw(turn) for turn in range(3)])


class Accounts(Case):
    """Which accounts of a machine are at a log in a file. Where these tests don't run as root, there is one
    account, and the files' modes alone are looked at."""

    def setUp(self) -> None:
        super().setUp()
        self.folder.chmod(0o711)
        self.is_root = os.getuid() == 0
        self.account, self.group = (54_001, 54_000) if self.is_root else (os.getuid(), os.getgid())

    def shared(self, mode: int) -> pathlib.Path:
        """A log in a folder of the group, with this mode."""
        folder = self.folder / "ours"
        folder.mkdir()
        os.chown(folder, self.account, self.group)
        folder.chmod(mode)
        return folder / "log.db"

    def by(self, account: int, group: int, path: pathlib.Path, *numbers: int) -> str:
        """What an account finds in a log to which it has appended these, or what kept it off."""
        from_child, to_parent = os.pipe()
        if not (child := os.fork()):
            with contextlib.suppress(BaseException):
                if self.is_root:
                    # As an account has it: a group of its own, and this one besides.
                    os.setgroups([group])
                    os.setgid(account)
                    os.setuid(account)
                os.umask(0o077)
                os.write(to_parent, _found(path, *numbers).encode())
            os._exit(0)
        os.close(to_parent)
        os.waitpid(child, 0)
        with open(from_child, encoding="utf-8") as said:
            return said.read()

    def test_a_group_shares_the_log_in_its_folder(self) -> None:
        path = self.shared(0o2770)
        self.assertEqual(self.by(self.account, self.group, path, 1), "[1]")
        with sqlite3.connect(path) as held:
            # Somebody is at it as others come and go.
            held.execute("SELECT * FROM entry")
            self.assertEqual(self.by(self.account + 1, self.group, path, 2), "[1, 2]")
            self.assertEqual(self.by(self.account, self.group, path, 3), "[1, 2, 3]")
            for one in path.parent.iterdir():
                self.assertEqual(stat.S_IMODE(one.stat().st_mode), 0o660, one)
                self.assertEqual(one.stat().st_gid, self.group)
        held.close()
        self.assertEqual(self.by(self.account + 1, self.group, path, 4), "[1, 2, 3, 4]")
        if self.is_root:
            self.assertIn("Permission denied", self.by(self.account + 2, self.group + 1, path))

    def test_who_has_not_the_group_is_kept_off(self) -> None:
        path = self.shared(0o2775)
        self.assertEqual(self.by(self.account, self.group, path, 1), "[1]")
        if self.is_root:
            self.assertIn("Unreachable", self.by(self.account + 2, self.group + 1, path))
        self.assertEqual(self.by(self.account + 1, self.group, path), "[1]")

    def test_without_the_bit_it_is_one_accounts(self) -> None:
        for mode in (0o770, 0o2755, 0o2750):
            path = self.shared(mode)
            self.assertEqual(self.by(self.account, self.group, path, 1), "[1]")
            self.assertEqual(stat.S_IMODE(path.stat().st_mode), 0o600)
            if self.is_root:
                self.assertIn("Unreachable", self.by(self.account + 1, self.group, path, 2))
            shutil.rmtree(path.parent)

    def test_a_group_sets_a_damaged_log_aside(self) -> None:
        path = self.shared(0o2770)
        self.assertEqual(self.by(self.account, self.group, path, 1), "[1]")
        with open(path, "r+b") as file:
            file.write(bytes(4096))
        self.assertIn("kept as log.db.damaged-1", self.by(self.account + 1, self.group, path))
        self.assertEqual(self.by(self.account, self.group, path, 2), "[2]")
        self.assertEqual(self.by(self.account + 1, self.group, path, 3), "[2, 3]")


def _found(path: pathlib.Path, *numbers: int) -> str:
    try:
        with closing(open_log(str(path), NOTE)) as log:
            log.append([raw(number) for number in numbers])
            return str([int(one[18:24]) for one in raws(log) if one])
    except Exception as why:
        return repr(why)


def _append_one(what: tuple[str, int]) -> None:
    with closing(open_log(what[0], NOTE)) as log:
        log.append([raw(what[1])])


if __name__ == "__main__":
    unittest.main()
