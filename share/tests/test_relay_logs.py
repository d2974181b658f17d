"""A log at a relay does what each log does, whatever is behind it; it is told at once what is new; and what the relay can't do is said in
words, and done later."""
import contextlib
import pathlib
import sqlite3
import subprocess
import threading
import time
import unittest
from collections.abc import Callable
from contextlib import closing
from typing import Any
from unittest import mock

from share.format.entry import Plain
from share.format.link import OF_SECOND_FORM_ALONE
from share.log.base import START, Log, LogLost, PresenceChannel, Unreachable
from share.log.bell import Bell
from share.log.opening import opener_of
from share.log.redis import RedisLog
from share.log.relay import Following, RelayLogs
from share.log.relay_line import RelayLine
from share.log.sqlite import SqliteLog
from share.relay.kept import NoteIsFull
from share.relay.limits import Allowance, Limits, NewNotes, Paces
from share.relay.member import Member
from share.tests import test_logs
from share.tests.relays import KEY, OTHER_KEY, RelayHere, RelayProcess, form_of, record
from share.tests.servers import RedisServer
from share.tests.support import NOTE
from share.tests.test_logs import raws
from share.tests.waiting import PATIENCE, wait_for
from share.text.errors import Trouble


class AtRelay(test_logs.Case):
    """A relay of the test, and logs there."""

    limits = Limits()

    def setUp(self) -> None:
        super().setUp()
        self.relay = self.made()
        self.addCleanup(self.relay.close)
        # What is looked at each some seconds is looked at more often, and a busy machine's relay isn't one that is gone.
        patches = contextlib.ExitStack()
        self.addCleanup(patches.close)
        patches.enter_context(mock.patch("share.relay.room.LOOK_AT_LOG_SECONDS", 0.3))
        patches.enter_context(mock.patch("share.log.relay_line.REPLY_SECONDS", PATIENCE))

    def made(self) -> RelayHere:
        """The relay."""
        return RelayHere(self.folder / "kept", self.limits)

    def opened_of(self, key: bytes = KEY) -> Log:
        """The log of a key's note, which the caller closes."""
        return opener_of(self.relay.url, form_of(key))()

    def log_of(self, key: bytes = KEY) -> Log:
        """The log, as long as the test runs."""
        log = self.opened_of(key)
        self.addCleanup(log.close)
        return log

    @property
    def file(self) -> pathlib.Path:
        """The file in which the relay keeps the note."""
        return self.folder / "kept" / f"{form_of().note.hex()}.log"


class AsEachLog(AtRelay, test_logs.Shared.Both):
    """What each log does, with any bytes as entries."""

    def setUp(self) -> None:
        super().setUp()
        anything = mock.patch("share.relay.room.is_record", lambda note, raw: True)
        anything.start()
        self.addCleanup(anything.stop)
        patched = mock.patch.object(Bell, "waits", autospec=True, side_effect=Bell.waits)
        self.pauses = patched.start()
        self.addCleanup(patched.stop)

    def opened(self, note: bytes = test_logs.NOTE) -> Log:
        return self.opened_of(KEY if note == test_logs.NOTE else OTHER_KEY)

    def kept(self) -> Log:
        """The log that the relay keeps, without the relay."""
        return SqliteLog(self.file, form_of().note)

    def is_watched(self) -> bool:
        return any(call.args[1] > PATIENCE for call in self.pauses.call_args_list)

    def test_those_who_are_on_are_told(self) -> None:
        # There is no table, but a channel.
        self.assertEqual(self.log().meet(b"one", b"1"), [])

    def test_what_was_taken_out_there_is_counted_no_more(self) -> None:
        with closing(self.kept()) as kept:
            kept.append([record(number) for number in range(10)])
            kept.take_out(record(9), [record(number) for number in range(3)])
            log = self.log()
            self.assertEqual((raws(log), log.size()), ([record(number) for number in range(3, 10)], 7))
            place = log.read(START)[-1].place
            kept.take_out(record(9), [record(3)])
            log.watch(place, PATIENCE)
            # Who counted it reads from the front.
            with self.assertRaisesRegex(LogLost, "has lost entries"):
                log.read(place)
            log.append([record(10)])
            self.assertEqual((raws(log), log.size()), ([record(number) for number in range(4, 11)], 7))

    def test_too_long_a_presence_is_left_out(self) -> None:
        log = self.log()
        self.assertEqual(log.meet(b"one", bytes(257)), [])
        channel = log.channel()
        assert channel
        with closing(channel), closing(Bell()) as bell:
            for said in bytes(257), b"", bytes(256):
                channel.say(said)
            self.assertEqual(channel.hear(PATIENCE, bell), [bytes(256)])


class BeforeRedis(AsEachLog):
    """The same, where the relay keeps notes on a Redis server."""

    def made(self) -> RelayHere:
        self.server = RedisServer(self.folder / "redis")
        self.addCleanup(self.server.close)
        return RelayHere(self.folder / "kept", log=self.server.url)

    def kept(self) -> Log:
        return RedisLog(self.server.url, form_of().note)

    def test_what_others_write_there_is_told(self) -> None:
        log = self.log()
        log.append([record(1)])
        place = log.read(START)[-1].place
        key = f"vialshoal:note:{{{form_of().note.hex()}}}:entries"
        with self.watching(place) as found:
            self.server.cli("XADD", key, "*", "e", "more")
        self.assertEqual(found, [b"more"])

    def test_what_is_gone_there_is_seen(self) -> None:
        log = self.log()
        log.append([record(1), record(2)])
        place = log.read(START)[-1].place
        self.server.cli("FLUSHALL")
        log.watch(place, PATIENCE)
        with self.assertRaisesRegex(LogLost, "has lost entries"):
            log.read(place)
        log.append([record(1)])
        self.assertEqual(raws(log), [record(1)])

    def test_a_server_that_is_gone_and_full(self) -> None:
        log = self.log()
        log.append([record(1)])
        self.server.cli("CONFIG", "SET", "maxmemory", "1")
        with self.assertRaisesRegex(Unreachable, "has no room left"):
            log.append([record(2)])
        self.server.cli("CONFIG", "SET", "maxmemory", "0")
        self.server.kill()
        with self.assertRaisesRegex(Unreachable, "can't be used now"):
            log.append([record(2)])
        # Only the operator is told where it is.
        self.assertIn(self.server.url, self.relay.said[-1])
        self.server.start()
        wait_for(lambda: self.appends(log, record(2)), "the server to be reached again")
        self.assertEqual(raws(log), [record(1), record(2)])

    @staticmethod
    def appends(log: Log, raw: bytes) -> bool:
        """Whether something is appended."""
        with contextlib.suppress(Unreachable):
            log.append([raw])
            return True
        return False


class InFolder(AtRelay):
    """What a relay that keeps notes in a folder does, and its clients."""

    def test_it_comes_again(self) -> None:
        log = self.log_of()
        log.append([record(1)])
        place = log.read(START)[-1].place
        for number in 2, 3:
            self.relay.stop()
            for _ in range(2):
                with self.assertRaises(Unreachable):
                    log.append([record(number)])
                with self.assertRaises(Unreachable):
                    log.watch(place, PATIENCE)
                    log.read(place)
            self.relay.start()
            log.append([record(number)])
        self.assertEqual(raws(log, place), [record(2), record(3)])

    def test_a_watch_ends_as_the_relay_does(self) -> None:
        log = self.log_of()
        self.assertEqual(log.read(START), [])
        begun, waits = threading.Event(), Bell.waits

        def is_waiting(bell: Bell, *words: Any) -> bool:
            begun.set()
            return waits(bell, *words)

        stopping = threading.Thread(target=lambda: (begun.wait(PATIENCE), self.relay.stop()))
        stopping.start()
        with mock.patch.object(Bell, "waits", is_waiting):
            log.watch(START, 10 * PATIENCE)
        stopping.join()
        with self.assertRaises(Unreachable):
            log.read(START)

    def test_what_is_new_comes_unasked(self) -> None:
        log, other = self.log_of(), self.log_of()
        self.assertEqual(log.read(START), [])
        with mock.patch.object(RelayLine, "read", side_effect=AssertionError("it was asked")):
            place = START
            for number in range(5):
                other.append([record(number)])
                log.watch(place, PATIENCE)
                page = log.read(place)
                self.assertEqual(([one.raw for one in page], log.size_to(page[-1].place)), ([record(number)], number + 1))
                place = page[-1].place

    def test_who_reads_slowly_is_told_once_that_there_is_more(self) -> None:
        log, other = self.log_of(), self.log_of()
        self.assertEqual(log.read(START), [])
        tells = mock.patch.object(Member, "tell", autospec=True, side_effect=Member.tell)
        with mock.patch("share.relay.member.MOST_UNSENT", -1), tells as told:
            for number in range(10):
                other.append([record(number)])
            self.assertEqual(told.call_count, 1)
        log.watch(START, PATIENCE)
        self.assertEqual(len(log.read(START)), 10)

    def test_a_lost_file_is_seen_and_filled_again(self) -> None:
        log = self.log_of()
        losses: list[Callable[[], object]] = [self.file.unlink, lambda: self.file.write_bytes(b""), lambda: self.cut("place < 2"),
                                              lambda: self.cut("place > 0")]
        for number, lose in enumerate(losses):
            log.append([record(1), record(2)])
            place = log.read(START)[-1].place
            lose()
            # It looks by itself, and so says that there is something to be seen.
            log.watch(place, PATIENCE)
            with self.subTest(number), self.assertRaisesRegex(LogLost, "has lost entries"):
                log.read(place)
            wait_for(lambda: self.again(log), "it to be filled again")

    def cut(self, which: str) -> None:
        """Takes entries out of the file."""
        with closing(sqlite3.connect(self.file)) as file, file:
            file.execute(f"DELETE FROM entry WHERE {which}")

    @staticmethod
    def again(log: Log) -> bool:
        """Whether it has what it is given again."""
        with contextlib.suppress(LogLost):
            log.append([record(1), record(2)])
            return sorted(filter(None, raws(log))) == sorted([record(1), record(2)])
        return False

    def test_a_full_disk_is_told_and_what_is_new_goes_later(self) -> None:
        log = self.log_of()
        log.append([record(1)])
        with mock.patch("share.log.sqlite.SqliteLog.append", side_effect=Unreachable(f"{self.file}: database or disk is full")):
            with self.assertRaisesRegex(Unreachable, "has no room left. What is new stays on your disk") as told:
                log.append([record(2)])
        # Where it keeps notes only the operator is told.
        self.assertNotIn(str(self.folder), str(told.exception))
        self.assertIn(f"{self.file}: database or disk is full", self.relay.said)
        log.append([record(2)])
        self.assertEqual(raws(log), [record(1), record(2)])

    def test_a_file_that_is_no_log(self) -> None:
        self.file.write_text("Dear Ann,\n" * 100)
        log = self.log_of()
        calls: list[Callable[[], object]] = [lambda: log.append([record(1)]), lambda: log.read(START), log.size]
        for call in calls:
            with self.assertRaisesRegex(Unreachable, "can't be used now"):
                call()
        self.assertEqual(self.file.read_text(), "Dear Ann,\n" * 100)
        self.file.unlink()
        log.append([record(1)])

    def test_who_asks_for_a_place_that_is_none_troubles_nobody_else(self) -> None:
        log, other = self.log_of(), self.log_of()
        log.append([record(1)])
        place = log.read(START)[-1].place
        with mock.patch.object(Following, "came", side_effect=AssertionError("others are told")):
            for wrong in "7.7/1", "x/1", "1.1/0":
                with self.assertRaises(LogLost):
                    other.read(wrong)
            self.assertEqual((log.read(place), self.relay.said), ([], []))

    def test_who_reads_makes_nothing(self) -> None:
        log = self.log_of()
        log.append([])
        self.assertEqual((log.read(START), log.size()), ([], 0))
        self.assertEqual([path.name for path in self.file.parent.iterdir()], ["relay.lock"])

    def test_notes_are_apart(self) -> None:
        self.log_of().append([record(1)])
        self.assertEqual(self.log_of(OTHER_KEY).read(START), [])
        self.log_of(OTHER_KEY).append([record(1, OTHER_KEY)])
        self.assertEqual((raws(self.log_of()), raws(self.log_of(OTHER_KEY))), ([record(1)], [record(1, OTHER_KEY)]))

    def test_notes_of_the_first_form_are_refused(self) -> None:
        with self.assertRaisesRegex(Trouble, f"{OF_SECOND_FORM_ALONE} bin/note renew NAME --log {self.relay.url}"):
            RelayLogs(self.relay.url, Plain(bytes(16)))

    def test_a_channel_that_breaks_is_opened_again(self) -> None:
        log = self.log_of()
        with closing(Bell()) as bell:
            channel = log.channel()
            assert channel
            with closing(channel):
                channel.say(b"one")
                self.assertEqual(channel.hear(PATIENCE, bell), [b"one"])
                self.relay.stop()
                with self.assertRaises(Unreachable):
                    channel.hear(PATIENCE, bell)
                with self.assertRaises(Unreachable):
                    channel.say(b"two")
            self.relay.start()
            again = log.channel()
            assert again
            with closing(again):
                again.say(b"three")
                self.assertEqual(again.hear(PATIENCE, bell), [b"three"])

    def test_more_presence_than_some_a_second_is_passed_on_to_nobody(self) -> None:
        # So few that it is too much however slowly it comes on a busy machine.
        with mock.patch("share.relay.room.PRESENCE_A_SECOND", 0.2):
            log = self.log_of()
            channel = log.channel()
            assert channel
            with closing(channel), closing(Bell()) as bell, mock.patch.object(Member, "pass_on", autospec=True) as passed:
                for number in range(50):
                    channel.say(bytes([number]))
                log.append([record(1)])
                self.assertEqual(channel.hear(0.0, bell), [])
                # What ten seconds have is passed on at once.
                self.assertLess(passed.call_count, 50)
                self.assertGreaterEqual(passed.call_count, 2)

    def test_who_reads_slowly_is_given_no_presence(self) -> None:
        log = self.log_of()
        channel = log.channel()
        assert channel
        with closing(channel), closing(Bell()) as bell:
            with mock.patch("share.relay.member.MOST_UNSENT", -1):
                channel.say(b"lost")
                # By then it was taken.
                self.assertEqual(log.size(), 0)
            channel.say(b"heard")
            self.assertEqual(channel.hear(PATIENCE, bell), [b"heard"])

    def test_presence_is_kept_nowhere(self) -> None:
        log = self.log_of()
        log.append([record(1)])
        channel: PresenceChannel | None = log.channel()
        assert channel
        with closing(channel), closing(Bell()) as bell:
            channel.say(b"where she is, sealed")
            self.assertEqual(channel.hear(PATIENCE, bell), [b"where she is, sealed"])
        for path in self.file.parent.iterdir():
            self.assertNotIn(b"where she is", path.read_bytes(), path)

    def test_ones_that_are_open_at_once_have_one_line(self) -> None:
        opens = RelayLogs(self.relay.url, form_of())
        logs = [opens() for _ in range(3)]
        self.assertEqual(self.relay.door.connected(), 1)
        for log in logs:
            log.close()
        wait_for(lambda: self.relay.loop.is_running() and not self.relay.relay._rooms, "the room to be closed")
        with closing(opens()) as log:
            log.append([record(1)])


class Full(AtRelay):
    """A relay whose notes have little room."""

    limits = Limits(note_bytes=100_000)

    def test_a_full_note_is_told_by_name(self) -> None:
        log = self.log_of()
        with self.assertRaisesRegex(Unreachable, r"note is full at this relay, which keeps 100,000 bytes of one \(--note-bytes\)"):
            for number in range(1_000):
                log.append([record(number)])
        had = log.size()
        self.assertLess(self.file.stat().st_size, 120_000)
        # It isn't asked again at once.
        with mock.patch("aiohttp.ClientWebSocketResponse.send_bytes", side_effect=AssertionError("it was asked")):
            with self.assertRaisesRegex(Unreachable, "note is full"):
                log.append([record(2_000)])
        self.assertEqual(log.size(), had)
        # Others' notes have room.
        self.log_of(OTHER_KEY).append([record(1, OTHER_KEY)])

    def test_what_is_too_much_at_once_is_refused_whole(self) -> None:
        log = self.log_of()
        with self.assertRaisesRegex(Unreachable, "note is full"):
            log.append([record(number) for number in range(600)])
        self.assertEqual(log.size(), 0)

    def test_who_only_reads_is_told_each_time(self) -> None:
        log, other = self.log_of(), self.log_of()
        self.assertEqual(log.read(START), [])
        with mock.patch("share.log.relay_line.FULL_SECONDS", 0.0):
            for number in range(3):
                with mock.patch("share.relay.kept.KeptNote.append", side_effect=NoteIsFull), self.assertRaises(Unreachable):
                    other.append([record(number)])
                wait_for(log.told, "it to be told")
                other.append([record(number)])


class Slow(AtRelay):
    """A relay that takes little at once."""

    limits = Limits(entries_a_second=20, new_notes_an_hour=2)

    def test_more_entries_than_it_takes_a_second_wait_or_are_refused(self) -> None:
        log, begin = self.log_of(), time.monotonic()
        # Ten seconds' entries at once, and others as time goes on, which a busy machine has spent while the first ones were kept.
        log.append([record(number) for number in range(200)])
        log.append([record(number) for number in range(200, 240)])
        self.assertGreater(time.monotonic() - begin, 1.9)
        with mock.patch.object(self.relay.relay._rooms[form_of().note].pace, "wait", lambda *_: None):
            with self.assertRaisesRegex(Unreachable, r"takes 20 entries a second of a note \(--entries-a-second\)"):
                log.append([record(240)])
        log.append([record(240)])
        self.assertEqual(log.size(), 241)

    def test_what_is_beyond_waits_and_what_would_wait_too_long_is_refused(self) -> None:
        now = 100.0
        pace = Allowance(20, lambda: now)
        self.assertEqual([pace.wait(150), pace.wait(50), pace.wait(20), pace.wait(80)], [0, 0, 1, 5])
        self.assertEqual([pace.wait(20), pace.wait(1)], [5, None])
        now += 1
        self.assertEqual([pace.wait(1), pace.wait(1)], [5, None])
        now += 1_000
        self.assertEqual([pace.wait(200), pace.wait(1_000), pace.wait(1)], [0, 5, None])

    def test_who_leaves_and_comes_again_has_no_more(self) -> None:
        for waits in 0, 5:
            with closing(self.opened_of()):
                pace = self.relay.relay._rooms[form_of().note].pace
                # However long a busy machine takes.
                pace._now, pace._since = lambda: 100.0, 100.0
                self.assertEqual(pace.wait(200), waits)
            wait_for(lambda: not self.relay.relay._rooms, "the room to be left")

    def test_what_has_rested_is_not_remembered(self) -> None:
        now = 100.0
        paces = Paces(20, lambda: now)
        one, two = paces.enter(b"one"), paces.enter(b"two")
        one.wait(50)
        paces.leave(b"one", one)
        paces.leave(b"two", two)
        self.assertEqual([*paces._left], [b"one"])
        self.assertIs(paces.enter(b"one"), one)
        now += 3
        paces.leave(b"one", one)
        self.assertEqual([*paces._left], [])

    def test_who_has_one_address_of_ipv6_has_all_that_begin_so(self) -> None:
        now = 100.0
        notes = NewNotes(1, lambda: now)
        self.assertEqual([notes.take(one) for one in ("10.0.0.1", "10.0.0.1", "::ffff:10.0.0.1", "10.0.0.2", "2001:db8::1", "2001:db8::2",
                                                      "2001:db8:0:1::1", "fe80::1%eth0", "fe80::2%eth0", "", "")],
                         [True, False, False, True, True, False, True, True, False, True, False])
        now += 3_601
        self.assertTrue(notes.take("10.0.0.1"))
        for number in range(20_000):
            notes.take(f"10.1.{number // 250}.{number % 250}")
        self.assertLessEqual(len(notes._made), 10_000)
        # The last ones are remembered.
        self.assertFalse(notes.take("10.1.79.249"))

    def test_new_notes_of_an_address(self) -> None:
        keys = [bytes([number]) * 32 for number in range(4)]
        logs = [opener_of(self.relay.url, form_of(key))() for key in keys]
        for log in logs:
            self.addCleanup(log.close)
        made = [form_of(key).claim(7, form_of(key).new_author()).raw for key in keys]
        for log, raw in zip(logs[:2], made):
            log.append([raw])
        with self.assertRaisesRegex(Unreachable, r"takes 2 new notes an hour from an address \(--new-notes-an-hour\)"):
            logs[2].append([made[2]])
        # Those that are there go on.
        logs[0].append([form_of(keys[0]).claim(8, form_of(keys[0]).new_author()).raw])
        self.assertEqual([log.size() for log in logs], [2, 1, 0, 0])


class Killed(test_logs.Case):
    """A relay by the real command."""

    def test_what_it_said_to_keep_it_has(self) -> None:
        patient = mock.patch("share.log.relay_line.REPLY_SECONDS", PATIENCE)
        patient.start()
        self.addCleanup(patient.stop)
        relay = RelayProcess(self.folder / "kept")
        self.addCleanup(relay.close)
        opens, number = RelayLogs(relay.url, form_of()), 0
        for many in 1, 10, 100:
            kept = list[bytes]()
            # While the next one is on its way.
            killer = threading.Thread(target=self.kill, args=(relay, kept, many))
            killer.start()
            with closing(opens()) as log, contextlib.suppress(Unreachable):
                while True:
                    log.append([record(number)])
                    kept.append(record(number))
                    number += 1
            killer.join()
            self.assertGreaterEqual(len(kept), many)
            relay.kill()
            relay.start()
            with closing(opens()) as log:
                self.assertLessEqual({*kept}, {*raws(log)})

    @staticmethod
    def kill(relay: RelayProcess, kept: list[bytes], many: int) -> None:
        """Kills a relay once it has said to keep so many."""
        wait_for(lambda: len(kept) >= many, "entries to be kept")
        relay.process.kill()

    def test_two_relays_have_two_folders(self) -> None:
        relay = RelayProcess(self.folder / "kept")
        self.addCleanup(relay.close)
        run = subprocess.run([NOTE, "relay", "--listen", "127.0.0.1:0", "--log", str(self.folder / "kept")], capture_output=True, text=True,
                             timeout=PATIENCE, check=False)
        self.assertEqual((run.returncode, run.stderr), (2, f"note: Another relay has the folder {self.folder / 'kept'}.\n"))


if __name__ == "__main__":
    unittest.main()
