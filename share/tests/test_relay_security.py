"""What logs withstand they withstand with a relay between: its operator, who has what is behind it, too; somebody with the link; and a
relay that lies."""
import asyncio
import base64
import contextlib
import os
import random
import socket
import threading
import unittest
from collections.abc import Callable, Iterator, Sequence
from concurrent.futures import ThreadPoolExecutor
from contextlib import closing
from typing import Any
from unittest import mock

from share.format.second.key_link import link_of
from share.log.base import READ_AT_ONCE, START, InLog, LogLost, Unreachable
from share.log.bell import Bell
from share.log.opening import opener_of
from share.log.relay import RelayLogs
from share.log.relay_messages import MOST_BYTES_OF_PAGE, RelayPage
from share.relay.kept import KeptNote, News, Reading
from share.tests import test_losses, test_security
from share.tests.forms import of_second_form
from share.tests.note import Note
from share.tests.relays import BehindRelay, RelayHere, form_of, record
from share.tests.servers import Hostile
from share.tests.support import Case, raws_of, type_at_the_end, wait_for, written
from share.tests.test_security import Tapped
from share.tests.waiting import PATIENCE
from share.text.errors import Trouble

# The tests that are loaded here again are those of a note of the second form, whatever others run.
of_second_form()


@contextlib.contextmanager
def of_the_second_form() -> Iterator[None]:
    """New notes are of the second form meanwhile, and a relay looks often at its log."""
    with mock.patch.dict(os.environ, VIALSHOAL_FORM="2", VIALSHOAL_ZERO_BITS="0"), mock.patch("share.relay.room.LOOK_AT_LOG_SECONDS", 0.3):
        yield


class Relayed(Case):
    """A note at a relay, before whose Redis server its operator sits."""

    def setUp(self) -> None:
        patches = contextlib.ExitStack()
        self.addCleanup(patches.close)
        patches.enter_context(of_the_second_form())
        for name in "test_security.Server", "support.RedisServer", "test_losses.RedisServer":
            patches.enter_context(mock.patch(f"share.tests.{name}", BehindRelay))
        super().setUp()


class Operators(Relayed, test_security.Operators):
    """What the operator of a relay can't do."""

    server: BehindRelay

    def reads_nothing(self, name: str, way: bytes) -> None:
        # All that a relay is sent comes by one line.
        tapped = TappedLines(self.server.relay.port)
        self.addCleanup(tapped.close)
        url = tapped.url.replace("redis:", "http:")
        self.server.relay.relay.origins.append(url)
        note = self.opened(self.ann, url=url)
        bob = self.opened(self.person(name), link=link_of(self.link)._replace(url=url).spelled())
        for words in "marzipan", "gooseberry":
            written(note, words)
        self.assert_meet(note, bob)
        wait_for(lambda: note.session._replicator.on > 2 and bob.session._replicator.on > 2, "each other to be seen")
        kept = [path.read_bytes() for path in (self.folder / "redis").rglob("*") if path.is_file()]
        # What people send is masked by a key that is beside it, as WebSockets do.
        messages = [message for line in tapped.lines for message in messages_of(bytes(line))]
        sent = b"".join(messages)
        self.assertIn(self.form.note, sent)
        self.assertTrue(any(self.form.note.hex().encode() in one for one in kept))
        token, key = note.session._replicator.token, self.about.secret
        with closing(self.ann.disk()) as disk:
            secrets = [one.author.secret[:32] for one in disk.own.clients()]
        unseen = [b"marzipan", b"marz", b"gooseberry", b"one ", b"OT\1", token, key, key.hex().encode(),
                  base64.urlsafe_b64encode(key)[:20], self.form.keys.append, self.form.keys.seal, *secrets]  # type: ignore[attr-defined]
        for one in unseen:
            for data in [sent, *kept, *map(str.encode, self.server.relay.said)]:
                self.assertNotIn(one, data)
        # Nor is presence, which it passes on, in what it writes.
        said = [message[1:] for message in messages if message[:1] == b"\5"]
        self.assertTrue(said)
        for one in said:
            for data in kept:
                self.assertNotIn(one[:40], data)

    def test_a_server_named_as_a_private_note_gets_nothing_of_it(self) -> None:
        diary = self.opened(self.ann, "diary")
        type_at_the_end(diary, "dear diary")
        with self.ann.here(), self.assertRaisesRegex(Exception, "isn't sealed"):
            self.ann.open("diary", url=self.server.url)


class Peers(Relayed, test_security.Peers):
    """What somebody with the link can't do, who puts entries past the relay."""


class Losses(Relayed, test_losses.OnAServer):
    """A relay whose server loses what it had."""


del test_security.Operators, test_security.Peers, test_losses.OnAServer


class TappedLines(Tapped):
    """A line to a relay that keeps all that goes to it, of each connection by itself."""

    def __init__(self, port: int):
        self.lines: list[bytearray] = []
        super().__init__(port)

    def _pass_on(self, one: socket.socket, other: socket.socket, kept: bytearray) -> None:
        if kept is self.sent:
            self.lines.append(kept := bytearray())
        super()._pass_on(one, other, kept)


def messages_of(data: bytes) -> Iterator[bytes]:
    """What a client has said: its request, and its messages without the mask of WebSockets."""
    head, end, data = data.partition(b"\r\n\r\n")
    yield head + end
    at = 0
    while at < len(data):
        size, begin = data[at + 1] & 127, at + 2
        if size > 125:
            width = 2 if size == 126 else 8
            size, begin = int.from_bytes(data[begin:begin + width], "big"), begin + width
        mask, body = data[begin:begin + 4], data[begin + 4:begin + 4 + size]
        yield bytes(one ^ mask[number % 4] for number, one in enumerate(body))
        at = begin + 4 + size


class Lying(Case):
    """A relay that has right entries, and lies about them."""

    def setUp(self) -> None:
        super().setUp()
        self.relay = RelayHere(self.folder / "kept")
        self.addCleanup(self.relay.close)
        patches = of_the_second_form()
        patches.__enter__()
        self.addCleanup(patches.__exit__, None, None, None)

    @contextlib.contextmanager
    def lying(self, lies: Callable[[Sequence[InLog]], Sequence[InLog]]) -> Iterator[None]:
        """The relay gives something else than it has, to all who ask it meanwhile, and tells nothing unasked."""
        right = KeptNote.read

        def read(kept: KeptNote, after: str, most: int) -> Reading:
            found = right(kept, after, most)
            entries = lies(found.entries)
            news = News(START, [], entries[-1].place if entries else START, len(entries))
            return found._replace(entries=entries, news=news) if after == START else found

        with mock.patch.object(KeptNote, "read", read), mock.patch("share.relay.room.Tail.after", lambda tail, place: None):
            yield

    def both(self) -> tuple[Note, str]:
        """Ann's note, in which she has written, and its link."""
        ann = self.opened(self.person("ann"), url=self.relay.url)
        for words in "one ", "two ", "three ":
            written(ann, words)
        return ann, self.person("ann").link()

    def test_entries_that_are_changed_mixed_doubled_or_withheld(self) -> None:
        """Nothing false is shown, and all once the relay gives what it has."""
        ann, link = self.both()
        chance = random.Random(7)
        lies: dict[str, Callable[[Sequence[InLog]], Sequence[InLog]]] = {
            "reordered": lambda some: [*reversed(some)],
            "withheld": lambda some: [*some[:1], *some[2:]],
            "doubled": lambda some: [one._replace(place=f"{number}{one.place}") for number in range(3) for one in some],
            "spliced": lambda some: [one._replace(raw=(one.raw or b"")[:91] + (some[-1].raw or b"")[91:]) for one in some],
            "cut": lambda some: [one._replace(raw=(one.raw or b"")[:chance.randrange(len(one.raw or b""))]) for one in some],
            "changed": lambda some: [one._replace(raw=changed(one.raw or b"", chance)) for one in some],
            "none": lambda some: [one._replace(raw=None) for one in some],
            "forged": lambda some: [*some, InLog("f1", form_of().claim(7, form_of().new_author()).raw), InLog("f2", os.urandom(300))]}
        for name, lie in lies.items():
            with self.subTest(name):
                with self.lying(lie):
                    bob = self.opened(self.person(name), link=link)
                    bob.take_in()
                    self.assertTrue(b"one two three ".startswith(bytes(bob.text)) or name == "reordered", bytes(bob.text))
                # He has it read again, since he gave it what it lacks, or it is asked for.
                bob.session._replicator.read_from_front()
                self.assertEqual(self.assert_meet(ann, bob), b"one two three ")
                bob.session.close()

    def test_places_that_are_none(self) -> None:
        log = opener_of(self.relay.url, form_of())()
        self.addCleanup(log.close)
        log.append([record(1), record(2), record(3)])
        lies: list[Callable[[Sequence[InLog]], Sequence[InLog]]] = [
            lambda some: [one._replace(place="same") for one in some], lambda some: [*some[:1], some[0]],
            lambda some: [one._replace(place="x" * 65) for one in some]]
        for lie in lies:
            with self.lying(lie), self.assertRaises(Trouble):
                log.read(START)
        # One that says that there are more, or fewer, than it gives.
        for many in 2, 4:
            with mock.patch("share.relay.room.RelayPage", lambda *words, many=many: RelayPage(*words)._replace(size=many)):
                with self.assertRaises(Trouble):
                    log.read(START)
        page = log.read(START)
        with mock.patch("share.relay.room.RelayPage", lambda *words: RelayPage(*words)._replace(size=7)), self.assertRaises(LogLost):
            log.read(page[-1].place)
        # One that answers another question.
        with mock.patch("share.relay.room.RelayPage", lambda *words: RelayPage(*words)._replace(after="7.7")), self.assertRaises(Trouble):
            log.read(page[0].place)
        self.assertEqual(raws_of(log), [record(1), record(2), record(3)])

    def test_what_comes_unasked_and_does_not_go_on(self) -> None:
        log = opener_of(self.relay.url, form_of())()
        self.addCleanup(log.close)
        log.append([record(1)])
        place = log.read(START)[-1].place
        wrong = {"after": "5.5", "entries": [InLog("9.9", record(9))]}
        with mock.patch("share.relay.member.Member.tell", lambda member, page: member._send(page._replace(**wrong).spelled())):
            log.append([record(2)])
            log.watch(place, 60)
            self.assertEqual([one.raw for one in log.read(place)], [record(2)])

    def test_a_flood_that_nobody_asked_for_is_bounded(self) -> None:
        log = opener_of(self.relay.url, form_of())()
        self.addCleanup(log.close)
        self.assertEqual(log.read(START), [])
        following = log._following  # type: ignore[attr-defined]
        for raw in bytes(1_000), b"", None:
            junk = RelayPage(0, True, 1, START, [InLog(str(number), raw) for number in range(100)])
            for _ in range(1_000):
                following.came(junk)
            self.assertLessEqual(sum(len(one.raw or b"") for page in following._pages for one in page.entries), MOST_BYTES_OF_PAGE)
            self.assertLess(len(following._pages), 100)
            self.assertIsNone(following.take("7.7"))
        channel = log.channel()
        assert channel
        with closing(channel), closing(Bell()) as bell:
            for _ in range(100_000):
                channel.said(bytes(256))  # type: ignore[attr-defined]
            self.assertLessEqual(len(channel.hear(1, bell)), READ_AT_ONCE)


def changed(raw: bytes, chance: random.Random) -> bytes:
    """Bytes of which one is another one."""
    at = chance.randrange(len(raw))
    return raw[:at] + bytes([raw[at] ^ 1 << chance.randrange(8)]) + raw[at + 1:]


class Strange(Case):
    """What is no relay, or none that is there."""

    def test_what_answers_otherwise_is_told(self) -> None:
        for answer, what in ((b"HTTP/1.1 404 Not Found\r\nContent-Length: 0\r\n\r\n", "not as a relay"), (b"+PONG\r\n", "http://"),
                             (b"HTTP/1.1 502 Bad Gateway\r\nContent-Length: 0\r\n\r\n", "can't be reached now"), (b"", "http://"),
                             (b"HTTP/1.1 200 OK\r\nContent-Length: 2\r\n\r\nhi", "not as a relay")):
            hostile = Hostile(lambda asked, answer=answer: answer)  # type: ignore[misc]
            self.addCleanup(hostile.close)
            url = hostile.url.replace("redis:", "http:")
            for _ in range(2):
                with self.subTest(answer), self.assertRaisesRegex((Unreachable, Trouble), what):
                    RelayLogs(url, form_of())()
        with self.assertRaisesRegex(Unreachable, "http://127.0.0.1:1: "):
            RelayLogs("http://127.0.0.1:1", form_of())()

    def test_nobody_is_sent_elsewhere(self) -> None:
        came = list[bytes]()

        def answers(asked: bytes) -> bytes:
            came.append(asked)
            return b""

        elsewhere = Hostile(answers)
        self.addCleanup(elsewhere.close)
        to = elsewhere.url.replace("redis:", "http:")
        hostile = Hostile(lambda asked: f"HTTP/1.1 302 Found\r\nLocation: {to}/x\r\nContent-Length: 0\r\n\r\n".encode())
        self.addCleanup(hostile.close)
        with self.assertRaisesRegex(Trouble, "not as a relay"):
            RelayLogs(hostile.url.replace("redis:", "http:"), form_of())()
        self.assertEqual(came, [])

    def test_one_that_takes_nothing_holds_up_nobody(self) -> None:
        relay, begun = RelayHere(self.folder / "kept"), threading.Event()
        self.addCleanup(relay.close)

        async def never(*_: object) -> None:
            begun.set()
            await asyncio.Event().wait()

        log = RelayLogs(relay.url, form_of())()
        channel = log.channel()
        calls: list[Callable[[], object]] = [lambda: channel.say(b"x"), lambda: log.append([record(1)]), log.size]
        for call in calls:
            with mock.patch("share.log.relay_line.REPLY_SECONDS", 0.1), mock.patch("aiohttp.ClientWebSocketResponse.send_bytes", never):
                with self.assertRaisesRegex(Unreachable, "doesn't answer in time"):
                    call()
            with mock.patch("share.log.relay_line.REPLY_SECONDS", PATIENCE):
                log.size()
        channel.close()
        # What is being said as the last log is closed ends, too.
        begun.clear()
        with mock.patch("aiohttp.ClientWebSocketResponse.send_bytes", never), ThreadPoolExecutor(1) as thread:
            saying = thread.submit(log._line.say, b"x")
            self.assertTrue(begun.wait(PATIENCE))
            log.close()
            with self.assertRaises(Unreachable):
                saying.result(PATIENCE)

    def test_messages_that_are_none_end_the_line_in_words(self) -> None:
        """A relay that proves nothing of itself, and says anything."""
        from aiohttp import web
        said: list[bytes] = []

        async def answers(request: web.Request) -> web.WebSocketResponse:
            socket = web.WebSocketResponse(protocols=["vialshoal-relay-1"])
            await socket.prepare(request)
            await socket.send_bytes(b"\1" + bytes(32))
            await socket.receive()
            await socket.send_bytes(b"\2\1")
            while not socket.closed and (await socket.receive()).type.name == "BINARY":
                await socket.send_bytes(said[0])
            return socket

        ready, box = threading.Event(), dict[str, Any]()

        async def serve() -> None:
            application = web.Application()
            application.router.add_get("/relay/socket", answers)
            runner = web.AppRunner(application)
            await runner.setup()
            site = web.TCPSite(runner, "127.0.0.1", 0)
            await site.start()
            box.update(loop=asyncio.get_running_loop(), ends=asyncio.Event(), port=runner.addresses[0][1])
            ready.set()
            await box["ends"].wait()
            await runner.cleanup()

        thread = threading.Thread(target=lambda: asyncio.run(serve()))
        thread.start()
        ready.wait()
        try:
            log = RelayLogs(f"http://127.0.0.1:{box['port']}", form_of())()
            page = RelayPage(1, True, 1, START, [InLog("1.1", record(1))]).spelled()
            for wrong in (b"", b"\7", b"\1", page[:5], page[:-1], page + b"\1", page + b"\1x\0\0\0\xff", b"\4\0\0\0\1x", b"\6\0\0\0\1\0no",
                          b"\6\0\0\0\1\x09no", b"\5", b"\5" + bytes(257), page[:5] + b"\2" + page[6:],
                          b"\3\0\0\0\1\1" + bytes(8) + b"\1\xff", b"\4\0\0\0\1"):
                said[:] = [wrong]
                with self.subTest(wrong), mock.patch("share.log.relay_line.REPLY_SECONDS", 1.0):
                    with self.assertRaises((Trouble, Unreachable)):
                        log.read(START)
            log.close()
        finally:
            box["loop"].call_soon_threadsafe(box["ends"].set)
            thread.join()


if __name__ == "__main__":
    unittest.main()
