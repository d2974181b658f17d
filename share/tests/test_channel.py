"""Presence by a server's channel: what it costs, that it comes by the table where there is no channel or somebody doesn't hear it,
and that a flood takes it away and nothing else. Where time matters the tests have a clock of their own."""
import contextlib
import os
import random
import re
import threading
import unittest
from collections import Counter
from collections.abc import Callable, Sequence
from contextlib import closing
from itertools import count
from typing import Any, NoReturn
from unittest import mock

from share.format import heartbeat, presence
from share.format.entry import Plain
from share.format.heartbeat import Hears, Lack, Said, Way
from share.format.presence import MOST_PRESENCE, Present
from share.log.base import ON_SECONDS, START, InLog, Log, PresenceChannel, Unreachable
from share.log.bell import Bell
from share.log.opening import open_log
from share.log.redis import RedisLog
from share.log.resp import RECEIVED_AT_ONCE
from share.program.trace import Traced
from share.sync import ways
from share.sync.meeting import MOST_ASK_SECONDS, Meeting
from share.sync.presence import HEARD_SECONDS, Presence
from share.sync.threads import Ends, Threads
from share.sync.ways import SAY_ON_SECONDS, SHOW_SECONDS, SILENT_SECONDS, BothWays
from share.tests import test_logs
from share.tests.note import Note
from share.tests.servers import Hostile, RedisServer
from share.tests.support import Case, raws_of, type_at_the_end, wait_for, written
from share.tests.test_logs import NOTE, OTHER, raw
from share.tests.test_trace import Kept
from share.tests.waiting import PATIENCE
from share.text.errors import Trouble

LACK = Lack(Way.IT, bytes(range(32)))
# Ten idle people are to have below 20 commands a second, and each says every five seconds that he is on.
PEOPLE, MOST_FOR_A_HEARTBEAT = 10, 10


def shows(token: bytes, at: int) -> dict[bytes, bytes]:
    """What somebody shows whose cursor is there."""
    editor = token[::-1]
    return {editor: presence.presence_of(Present(token, editor, 7, "#000000", (1, at), None, ""))}


def cursors(shown: Sequence[bytes]) -> list[int]:
    """Where the cursors are that are shown."""
    return sorted(one.cursor[1] for data in shown if (one := presence.read_presence(data)) and one.cursor)


class OfAServer(test_logs.Case):
    """A log's channel on a Redis server."""

    def setUp(self) -> None:
        super().setUp()
        self.server = RedisServer(self.folder / "redis")
        self.addCleanup(self.server.close)
        self.bell = Bell()
        self.addCleanup(self.bell.close)

    def log(self, note: bytes = NOTE) -> Log:
        """The log, as long as the test runs."""
        log = open_log(self.server.url, note)
        self.addCleanup(log.close)
        return log

    def channel(self, log: Log | None = None) -> PresenceChannel:
        """Its channel."""
        channel = (log or self.log()).channel()
        assert channel
        return channel

    def heard(self, channel: PresenceChannel, until: bytes = b"end") -> list[bytes]:
        """What is heard until something is."""
        found: list[bytes] = []
        while until not in found:
            found += channel.hear(60, self.bell)
        return found

    def test_what_is_said_is_heard_by_all_and_kept_nowhere(self) -> None:
        one, two, other = self.channel(), self.channel(), self.channel(self.log(OTHER))
        size = self.server.cli("INFO", "persistence").split(b"aof_current_size:")[1].split()[0]
        for said in b"1", b"", bytes(MOST_PRESENCE), bytes(MOST_PRESENCE + 1), bytes(60_000), b"\r\n$-1\r\n", b"end":
            two.say(said)
        other.say(b"end")
        for channel in one, two:
            self.assertEqual(self.heard(channel), [b"1", b"", bytes(MOST_PRESENCE), b"\r\n$-1\r\n", b"end"])
        self.assertEqual(self.heard(other), [b"end"])
        self.assertEqual(self.server.cli("KEYS", "*"), b"")
        self.assertEqual(self.server.cli("INFO", "persistence").split(b"aof_current_size:")[1].split()[0], size)

    def test_a_bell_ends_hearing_and_watching(self) -> None:
        log = self.log()
        channel = self.channel(log)
        both: list[Callable[[], object]] = [lambda: channel.hear(600, self.bell), lambda: log.watch(START, 600, self.bell)]
        for waits in both:
            for seconds in 0.0, 0.2:
                threading.Timer(seconds, self.bell.ring).start()
                self.assertFalse(waits())
                self.bell.silence()
        log.append([raw(1)])
        log.watch(START, 600, self.bell)
        self.assertEqual(log.read(START)[0].raw, raw(1))
        channel.say(b"end")
        self.assertEqual(self.heard(channel), [b"end"])

    def test_a_watch_asks_once(self) -> None:
        log = self.log()
        log.append([raw(1)])
        place, before = log.read(START)[-1].place, calls_of(self.server)
        threading.Timer(1.0, log_once, (self.server.url,)).start()
        log.watch(place, 600, self.bell)
        self.assertEqual((calls_of(self.server) - before)["xread"], 1)
        self.assertEqual(log.read(place)[0].raw, raw(2))

    def test_a_flood_is_heard_in_parts(self) -> None:
        one, two = self.channel(), self.channel()
        with self.server.connected() as line:
            words = b"*3\r\n$7\r\nPUBLISH\r\n$52\r\n%s\r\n$256\r\n%s\r\n" % (f"vialshoal:note:{{{NOTE.hex()}}}:on".encode(), bytes(256))
            threading.Thread(target=line.sendall, args=(20_000 * words,)).start()
            heard = list[bytes]()
            while len(heard) < 20_000:
                part = one.hear(60, self.bell)
                self.assertLessEqual(sum(map(len, part)), 2 * RECEIVED_AT_ONCE)
                heard += part
            line.recv(1)
        two.close()

    def test_who_hears_too_slowly_is_let_go(self) -> None:
        self.server.cli("CONFIG", "SET", "client-output-buffer-limit", "pubsub 65536 65536 0")
        log, says = self.log(), self.channel()
        slow = self.channel(log)
        wait_for(lambda: ([says.say(bytes(60_000)) for _ in range(20)], not self.server.cli("CLIENT", "LIST", "TYPE", "pubsub"))[1],
                 "both to be let go")
        with self.assertRaises(Unreachable):
            while True:
                slow.hear(0.1, self.bell)
        with self.assertRaises(Unreachable):
            slow.hear(0.1, self.bell)
        again = self.channel(log)
        again.say(b"end")
        self.assertEqual(self.heard(again), [b"end"])

    def test_who_may_use_no_channel(self) -> None:
        self.server.cli("ACL", "SETUSER", "default", "resetchannels")
        log = self.log()
        with self.assertRaisesRegex(Trouble, "doesn't let"):
            log.channel()
        log.append([raw(1)])
        self.assertEqual(raws_of(log), [raw(1)])

    def answering(self, answer: bytes) -> Hostile:
        """A server that is there, and gives this answer to all else."""
        hostile = Hostile(lambda asked: b"+PONG\r\n" if b"PING" in asked else answer)
        self.addCleanup(hostile.close)
        return hostile

    def test_what_a_server_says_that_is_none(self) -> None:
        right = b"*3\r\n$9\r\nsubscribe\r\n$52\r\n%s\r\n:1\r\n" % f"vialshoal:note:{{{NOTE.hex()}}}:on".encode()
        for answer in (b"", b"+OK\r\n", b"*0\r\n", b":7\r\n", right[:-3] + b"2\r\n", b"-ERR unknown command\r\n", b"*3\r\n" * 20,
                       right + b"*3\r\n$7\r\nmessage\r\n$1\r\nx\r\n$9999999\r\n", right + b"-ERR \x1b[2J\r\n", right + b"x\r\n"):
            hostile = self.answering(answer)
            with mock.patch("share.log.resp.REPLY_SECONDS", 0.05), mock.patch("share.log.channel.REPLY_SECONDS", 0.05):
                with self.assertRaises((Trouble, Unreachable), msg=str(answer)), closing(open_log(hostile.url, NOTE)) as log:
                    channel = log.channel()
                    assert channel
                    for _ in range(3):
                        channel.hear(0.1, self.bell)
        # What isn't a message is passed over.
        for passed in b"*1\r\n:1\r\n", b"*3\r\n$7\r\nmessage\r\n$1\r\nx\r\n:1\r\n", b"*-1\r\n", b"+OK\r\n", b"$-1\r\n":
            hostile = self.answering(right + passed)
            with closing(open_log(hostile.url, NOTE)) as log:
                self.assertEqual(self.channel(log).hear(0.1, self.bell), [])


def log_once(url: str) -> None:
    """Appends an entry."""
    with closing(open_log(url, NOTE)) as log:
        log.append([raw(2)])


def calls_of(server: RedisServer) -> Counter[str]:
    """How often the server was asked for what, by scripts too."""
    found = re.findall(r"cmdstat_([a-z]+)[^:]*:calls=(\d+)", server.cli("INFO", "commandstats").decode())
    return Counter({name: int(calls) for name, calls in found})


class Air:
    """A server of a simulation: a table and a channel, and how often each was used."""

    def __init__(self) -> None:
        self.now = 1_000.0
        self.table: dict[bytes, tuple[float, bytes]] = {}
        self.ears: list["AirChannel"] = []
        self.calls = Counter[str]()
        # What part of what is said isn't heard, each time by chance; and whether the channel is refused.
        self.loses, self.refuses, self.chance = 0.0, False, random.Random(7)

    def all_said(self) -> list[bytes]:
        """What the table has."""
        self.table = {token: one for token, one in self.table.items() if self.now - one[0] <= ON_SECONDS}
        return [said for _, said in self.table.values()]


class AirChannel(PresenceChannel):
    """The channel, as one hears it."""

    def __init__(self, air: Air):
        self.air, self.waiting, self.due, self.hearings = air, list[bytes](), 0.0, 0
        air.ears.append(self)

    def say(self, presence: bytes) -> None:
        self.air.calls["publish"] += 1
        for ear in self.air.ears:
            if self.air.chance.random() >= self.air.loses:
                ear.waiting.append(presence)

    def hear(self, seconds: float, bell: Bell) -> list[bytes]:
        if self not in self.air.ears:
            raise Unreachable("it was let go")
        said, self.waiting = self.waiting, []
        self.due, self.hearings = self.air.now + (0.0 if said else seconds), self.hearings + 1
        return said

    def close(self) -> None:
        if self in self.air.ears:
            self.air.ears.remove(self)


class AirLog(Log):
    """The log, of which presence is there alone."""

    def __init__(self, air: Air, has_channel: bool = True):
        self.air, self.has_channel = air, has_channel

    def meet(self, token: bytes, presence: bytes) -> list[bytes]:
        self.air.calls["meet"] += 1
        self.air.table[token] = self.air.now, presence
        return self.air.all_said()

    def met(self) -> list[bytes]:
        self.air.calls["met"] += 1
        return self.air.all_said()

    def leave(self, token: bytes) -> None:
        self.air.table.pop(token, None)

    def channel(self) -> PresenceChannel | None:
        if self.air.refuses:
            raise Trouble("refused")
        return AirChannel(self.air) if self.has_channel else None

    def append(self, raws: Sequence[bytes]) -> None:
        raise NotImplementedError

    def read(self, after: str) -> list[InLog]:
        raise NotImplementedError

    def watch(self, after: str, seconds: float, bell: Bell | None = None) -> None:
        raise NotImplementedError

    def size(self) -> int:
        raise NotImplementedError

    def size_to(self, after: str) -> int:
        raise NotImplementedError

    def close(self) -> None:
        pass


class Somebody:
    """Somebody of a simulation."""

    def __init__(self, air: Air, has_channel: bool = True):
        self.air, self.token, counts, form = air, heartbeat.new_token(), count(1), Plain(bytes(16))
        log, self.threads = AirLog(air, has_channel), Threads(lambda: None, lambda: None)
        self.rested = 0.0
        mock.patch.object(self.threads.stopped, "wait", self.rest).start()
        self.due = 0.0
        self.meeting = Meeting(form, self.token, counts, lambda: None)
        self.presence = Presence(Ends(lambda: self.fail(), lambda: log), form, counts, self.meeting, self.threads, self.token)
        mock.patch.object(self.presence._bell, "waits", self.waits).start()
        self.ways = BothWays(log, form, counts, self.meeting)
        self.shows: dict[bytes, bytes] = {}

    def fail(self) -> NoReturn:
        """Nobody opens a file here."""
        raise AssertionError

    def rest(self, seconds: float) -> bool:
        """Rests without anything passing."""
        self.rested = self.air.now + seconds
        return False

    def waits(self, seconds: float, line: object = None) -> bool:
        """Waits without anything passing."""
        self.due = self.air.now + seconds
        return False

    def turn(self) -> None:
        """Does what is due, where it doesn't rest."""
        channel = self.ways._channel._channel
        if isinstance(channel, AirChannel):
            self.due = 0.0 if channel.waiting or channel not in self.air.ears else channel.due
        is_rung = self.shows != self.presence._shows or self.meeting.asks()
        if self.air.now >= self.rested and (is_rung or self.air.now >= self.due):
            self.presence._shows = self.shows
            self.presence._turn(self.ways)

    def moves(self, at: int) -> None:
        """Moves the cursor."""
        self.shows = shows(self.token, at)

    def sees(self) -> list[int]:
        """Where it sees others' cursors."""
        return cursors(self.presence.shown())


class Simulated(unittest.TestCase):
    """People who say and hear, at a clock of the test's own."""

    def setUp(self) -> None:
        self.air = Air()
        clock = mock.patch("time.monotonic", lambda: self.air.now)
        clock.start()
        self.addCleanup(clock.stop)
        self.people: list[Somebody] = []

    def somebody(self, at: int = 0, has_channel: bool = True) -> Somebody:
        """Somebody who comes."""
        one = Somebody(self.air, has_channel)
        self.addCleanup(one.threads.stop)
        if at:
            one.moves(at)
        self.people.append(one)
        return one

    def goes(self, one: Somebody, says: bool = True) -> None:
        """Somebody goes, and says so, or doesn't."""
        if says:
            one.ways.leave()
        one.ways.close()
        self.people.remove(one)

    def pass_time(self, seconds: float) -> Counter[str]:
        """Some time passes; how often the server was asked for what."""
        before, end = Counter(self.air.calls), self.air.now + seconds
        while self.air.now < end:
            self.air.now += 0.05
            for one in self.people:
                one.turn()
        return self.air.calls - before

    def until(self, condition: Callable[..., Any], seconds: float) -> None:
        """That something is so before some time has passed."""
        end = self.air.now + seconds
        while not condition():
            self.assertLess(self.air.now, end)
            self.pass_time(0.05)

    def all_see_all(self) -> bool:
        """Whether each sees the others' cursors, and how many are on."""
        return all(one.meeting.on == len(self.people) and one.sees() == cursors([
            data for other in self.people if other is not one for data in other.shows.values()]) for one in self.people)

    def test_ten_idle_people(self) -> None:
        people = [self.somebody(number + 1) for number in range(PEOPLE)]
        self.until(self.all_see_all, 2)
        self.pass_time(10)
        calls = self.pass_time(600)
        # Each says that he is on, and looks whether somebody is in the table.
        for what in "publish", "met":
            self.assertLessEqual(calls[what], PEOPLE * (600 / 5 + 1))
        self.assertEqual(calls["meet"], 0)
        self.assertTrue(self.all_see_all())
        self.assertEqual(people[0].sees(), [*range(2, PEOPLE + 1)])
        self.assertGreaterEqual(min(SAY_ON_SECONDS, RedisLog.watch_seconds), 5)
        # Who is on may miss it twice, and a lost log is seen in 15 seconds where two watches end in that time.
        self.assertLessEqual(3 * SAY_ON_SECONDS, ON_SECONDS)
        self.assertLessEqual(2 * RedisLog.watch_seconds, 15)

    def test_a_cursor_is_said_where_it_moved(self) -> None:
        ann, bob = self.somebody(1), self.somebody(2)
        self.until(self.all_see_all, 2)
        self.pass_time(1)
        for at in range(3, 40):
            ann.moves(at)
            self.until(lambda at=at: bob.sees() == [at], 0.5)
        calls, begin = 0, self.air.now
        for at in range(100, 200):
            # Ten moves a second are said at most five times.
            ann.moves(at)
            calls += self.pass_time(0.1)["publish"]
        self.assertLessEqual(calls, (self.air.now - begin) * (1 / SHOW_SECONDS + 2 / SAY_ON_SECONDS) + 3)
        self.pass_time(0.3)
        self.assertEqual(bob.sees(), [199])

    def test_who_comes_and_who_goes(self) -> None:
        ann, bob = self.somebody(1), self.somebody(2)
        self.until(self.all_see_all, 2)
        self.pass_time(60)
        carl = self.somebody(3)
        self.until(self.all_see_all, 2)
        carl.shows = {}
        self.until(lambda: ann.sees() == [2] and bob.sees() == [1], 1)
        carl.moves(4)
        self.until(self.all_see_all, 1)
        self.goes(carl)
        self.until(lambda: ann.meeting.on == bob.meeting.on == 2 and ann.sees() == [2], 0.5)
        self.goes(bob, says=False)
        self.pass_time(ON_SECONDS - SAY_ON_SECONDS - 1)
        self.assertEqual(ann.meeting.on, 2)
        self.until(lambda: ann.meeting.on == 1 and not ann.sees(), SAY_ON_SECONDS + 3)

    def test_what_was_missed_is_said_again(self) -> None:
        ann, bob = self.somebody(1), self.somebody(2)
        self.until(self.all_see_all, 2)
        for at in range(3, 6):
            # The server lets go of Bob, who hears nothing until he is back.
            self.air.ears.remove(next(ear for ear in self.air.ears if ear is bob.ways._channel._channel))
            ann.moves(at)
            self.pass_time(0.3)
            self.assertNotEqual(bob.sees(), [at])
            self.until(lambda at=at: bob.sees() == [at], 3)
        self.assertEqual(self.air.calls["meet"], 0)

    def test_an_ask_is_said_until_it_is_heard(self) -> None:
        ann, bob = self.somebody(1), self.somebody(2)
        self.until(self.all_see_all, 2)
        self.air.loses = 0.7
        ann.meeting.ask(lambda: [LACK.hash])
        self.until(lambda: LACK in bob.meeting._take_wanted(), 10 * SAY_ON_SECONDS)
        self.air.loses = 0.0
        # It is answered once; who still lacks it asks again, ever later, and nobody asks after that.
        for _ in range(3):
            self.pass_time(30)
            self.assertEqual(bob.meeting._take_wanted(), [])
            self.pass_time(MOST_ASK_SECONDS)
            ann.meeting.ask(lambda: [LACK.hash])
            self.until(lambda: LACK in bob.meeting._take_wanted(), 2)

    def test_who_comes_asks_for_nothing_at_first(self) -> None:
        ann = self.somebody(1)
        self.pass_time(1)
        bob = self.somebody(2)
        bob.meeting.ask(lambda: [LACK.hash])
        # The first that is heard under a token asks for nothing, so it is the second.
        self.until(lambda: LACK in ann.meeting._take_wanted(), 1)

    def test_a_refused_channel(self) -> None:
        ann, bob = self.somebody(1), self.somebody(2)
        self.until(self.all_see_all, 2)
        self.air.refuses = True
        carl = self.somebody(3)
        self.until(self.all_see_all, SAY_ON_SECONDS + 2)
        carl.moves(4)
        bob.moves(5)
        self.until(lambda: ann.sees() == [4, 5] and carl.sees() == [1, 5], 3)
        carl.meeting.ask(lambda: [LACK.hash])
        self.until(lambda: LACK in ann.meeting._wanted and LACK in bob.meeting._wanted, 3)
        self.goes(carl)
        self.until(lambda: ann.meeting.on == bob.meeting.on == 2 and ann.sees() == [5], 3)
        self.pass_time(2)
        self.assertEqual((self.pass_time(60)["meet"], self.air.table), (0, {}))

    def test_a_refused_channel_is_tried_again(self) -> None:
        self.air.refuses = True
        self.somebody(1), self.somebody(2)
        self.until(self.all_see_all, 3)
        self.air.refuses = False
        self.until(lambda: len(self.air.ears) == 2, 61)
        self.pass_time(3)
        self.assertTrue(self.all_see_all())
        self.assertEqual(self.pass_time(30)["meet"], 0)

    def test_a_channel_on_which_nothing_is_heard(self) -> None:
        self.air.loses = 1.0
        self.somebody(1), self.somebody(2)
        self.until(self.all_see_all, SILENT_SECONDS + 2)
        self.air.loses = 0.0
        self.pass_time(61)
        self.assertTrue(self.all_see_all())
        self.pass_time(3)
        self.assertEqual(self.pass_time(30)["meet"], 0)
        # Once it has worked, too.
        self.air.loses = 1.0
        self.pass_time(ON_SECONDS + 2)
        self.assertGreater(self.pass_time(1)["meet"], 0)
        self.until(self.all_see_all, 2)

    def test_what_is_older_is_nothing_whichever_way_it_comes(self) -> None:
        ann, bob, heard = self.somebody(1), self.somebody(2), AirChannel(self.air)
        self.until(self.all_see_all, 2)
        bob.moves(3)
        self.until(lambda: ann.sees() == [3], 1)
        bob.shows = {}
        self.until(lambda: not ann.sees(), 1)
        self.goes(bob)
        self.until(lambda: ann.meeting.on == 1, 1)
        for number, said in enumerate(heard.waiting[:]):
            heard.say(said)
            self.air.table[b"%d" % number] = self.air.now, said
        for _ in range(40):
            self.pass_time(0.5)
            self.assertEqual((ann.meeting.on, ann.sees()), (1, []))

    def test_a_flood_takes_little(self) -> None:
        ann, bob = self.somebody(1), self.somebody(2)
        self.until(self.all_see_all, 2)
        channel = ann.ways._channel._channel
        assert isinstance(channel, AirChannel)
        before, end, junk = channel.hearings, self.air.now + 20, [bytes(250)] * 200
        while self.air.now < end:
            channel.waiting += junk
            self.pass_time(0.05)
        self.assertLessEqual(channel.hearings - before, 20 / HEARD_SECONDS + 1)
        bob.moves(3)
        self.until(lambda: ann.sees() == [3], 1)

    def test_many_who_come_are_told_all_once_a_second(self) -> None:
        ann, said = self.somebody(1), AirChannel(self.air)
        self.pass_time(2)
        calls, begin = 0, self.air.now
        for _ in range(200):
            said.say(heartbeat.heartbeat_of(Said(heartbeat.new_token(), 1, 0, [], Hears.CHANNEL_FROM_NOW)))
            calls += self.pass_time(0.05)["publish"]
        # Each time a heartbeat and what one editor shows.
        self.assertLessEqual(calls, 2 * (self.air.now - begin + 2))
        self.assertGreater(ann.meeting.on, 100)

    def test_a_stranger_is_nobody(self) -> None:
        ann, said = self.somebody(1), AirChannel(self.air)
        self.pass_time(1)
        with mock.patch.object(Plain, "present", lambda form, raw: None):
            for number in range(100):
                said.say(heartbeat.heartbeat_of(Said(heartbeat.new_token(), number, number, [LACK])))
                self.pass_time(0.1)
        self.assertEqual((ann.meeting.on, ann.meeting._take_wanted()), (1, []))

    def test_of_many_who_are_on_the_last_are_remembered(self) -> None:
        ann, said = self.somebody(1), AirChannel(self.air)
        with mock.patch("share.sync.heard.MOST_ON", 50):
            for number in range(200):
                token = heartbeat.new_token()
                said.say(heartbeat.heartbeat_of(Said(token, 1, 0, [], Hears.CHANNEL)))
                for data in shows(token, number).values():
                    said.say(presence.with_count(data, 2))
                ann.turn()
            self.pass_time(1)
        self.assertEqual((ann.meeting.on, len(ann.sees())), (51, 50))


class OnRedis(Case):
    """People who have a note open on a server."""

    def setUp(self) -> None:
        super().setUp()
        self.server = self.redis()
        # What is done each five seconds is done ten times as often, and a busy machine's server isn't one that is gone.
        patches = contextlib.ExitStack()
        self.addCleanup(patches.close)
        patches.enter_context(mock.patch("share.sync.ways.SAY_ON_SECONDS", 0.5))
        patches.enter_context(mock.patch.object(RedisLog, "watch_seconds", 0.5))
        patches.enter_context(mock.patch("share.log.resp.REPLY_SECONDS", PATIENCE))

    def people(self, many: int) -> list[Note]:
        """People who see each other."""
        notes = self.together(self.server.url, *(f"person-{number}" for number in range(many)))
        for number, note in enumerate(notes):
            note.session.show(shows(note.session.token(), number))
        self.see_each_other(notes)
        return notes

    def see_each_other(self, notes: Sequence[Note]) -> None:
        """Waits until all see where the others are."""
        wait_for(lambda: all(cursors(note.session._replicator.shown()) == [other for other in range(len(notes)) if other != number]
                             and note.session._replicator.on == len(notes) for number, note in enumerate(notes)), "all to see all")

    def size(self) -> bytes:
        """How large the server's file is to which all is appended."""
        return self.server.cli("INFO", "persistence").split(b"aof_current_size:")[1].split()[0]

    def test_what_ten_idle_people_cost(self) -> None:
        self.assertEqual(RedisLog.watch_seconds, ways.SAY_ON_SECONDS)
        notes = self.people(PEOPLE)
        self.assert_meet(*notes)
        before, size = calls_of(self.server), self.size()

        def calls() -> Counter[str]:
            return calls_of(self.server) - before

        wait_for(lambda: calls()["publish"] >= 4 * PEOPLE, "all to say four times that they are on")
        found = calls()
        self.assertLessEqual(sum(found.values()), MOST_FOR_A_HEARTBEAT * (found["publish"] + PEOPLE), found)
        self.assertEqual(self.size(), size)
        self.see_each_other(notes)

    def test_a_lost_log_is_seen_at_the_end_of_a_watch(self) -> None:
        note, = self.people(1)
        written(note, "words")
        with closing(self.person("person-0").log()) as log:
            for lose in ("FLUSHALL",), ("DEL", f"vialshoal:note:{{{note.session._form.note.hex()}}}:entries"):
                had = sorted(filter(None, raws_of(log)))
                self.server.cli(*lose)
                wait_for(lambda had=had: sorted(filter(None, raws_of(log))) == had, "the log to be filled again")
        wait_for(lambda: (note.take_in(), "has lost" in str(note.told))[1], "it to be told")

    def test_a_flood_takes_presence_alone(self) -> None:
        ann, bob = self.people(2)
        name, stop = f"vialshoal:note:{{{ann.session._form.note.hex()}}}:on".encode(), threading.Event()

        def flood() -> None:
            with self.server.connected() as line:
                line.settimeout(0.5)
                while not stop.is_set():
                    with contextlib.suppress(TimeoutError):
                        line.sendall(b"*3\r\n$7\r\nPUBLISH\r\n$%d\r\n%b\r\n$256\r\n%b\r\n" % (len(name), name, os.urandom(256)) * 500)
                        line.recv(2**20)

        thread = threading.Thread(target=flood)
        thread.start()
        try:
            for number in range(4):
                type_at_the_end(ann, f"{number} ")
                self.assert_comes_to(bob, b"".join(b"%d " % one for one in range(number + 1)))
            ann.session.show(shows(ann.session.token(), 77))
        finally:
            stop.set()
            thread.join()
        wait_for(lambda: cursors(bob.session._replicator.shown()) == [77], "the cursor to be shown")
        self.assertFalse(ann.session.status().offline or bob.session.status().offline)

    def test_connections_that_are_cut(self) -> None:
        notes = self.people(2)
        for number in range(2):
            self.server.cli("CLIENT", "KILL", "TYPE", "pubsub" if number else "normal")
            for at, note in enumerate(notes):
                note.session.show({})
                note.session.show(shows(note.session.token(), at))
            self.see_each_other(notes)
            written(notes[0], "words ")
            self.assert_meet(*notes)

    def test_where_no_channel_may_be_used(self) -> None:
        kept = Kept(self.folder)
        with kept.here():
            self.server.cli("ACL", "SETUSER", "default", "resetchannels")
            notes = self.people(2)
            written(notes[0], "words ")
            self.assert_meet(*notes)
            self.server.cli("ACL", "SETUSER", "default", "allchannels")
            three = self.opened(self.person("three"), link=self.person("person-0").link())
            three.session.show(shows(three.session.token(), 2))
            self.see_each_other([*notes, three])
        self.assertTrue(kept.has(Traced.CHANNEL_REFUSED, Traced.TABLE_USED, Traced.CHANNEL_OPENED, Traced.TABLE_USED), kept.events())

    def test_who_goes_is_seen_to_go(self) -> None:
        ann = self.people(1)[0]
        bob = self.person("bob").open(link=self.person("person-0").link())
        bob.session.show(shows(bob.session.token(), 1))
        self.see_each_other([ann, bob])
        bob.session.close()
        wait_for(lambda: ann.session._replicator.on == 1 and not ann.session._replicator.shown(), "Bob to be gone")


if __name__ == "__main__":
    unittest.main()
