"""Who is let in to a relay, and what a stranger, a browser, somebody slow and somebody who sends too much get of it."""
import asyncio
import json
import socket
import threading
import time
import unittest
from collections.abc import Callable, Coroutine, Iterator
from contextlib import closing, contextmanager, suppress
from typing import Any
from unittest import mock

import aiohttp
from aiohttp import WSMsgType

from share.format.second.append import challenged
from share.format.second.signature import signed
from share.log.base import START, InLog
from share.log.opening import opener_of
from share.log.relay_messages import (MOST_BYTES_OF_PAGE, MOST_REQUEST, AppendRequest, MessageKind, Misspelled, Proof, ReadRequest,
                                      RelayPage, Why, append_request, presence_message, read_challenge, read_page, read_proof,
                                      read_refusal, read_request)
from share.relay.limits import Limits
from share.relay.member import MOST_REQUESTS, Member
from share.relay.membership import PROOF_SECONDS, Challenge, NotProved
from share.relay.options import RelayOptions, web_origin
from share.relay.room import is_record
from share.tests.relays import OTHER_KEY, RelayHere, form_of, next_of, proved, record, talking
from share.tests.support import Case
from share.tests.waiting import PATIENCE, wait_for
from share.text.errors import Trouble

WELCOME, ORIGIN = b"\2\1", "https://notes.example"
POLICY_VIOLATION, TOO_BIG = 1008, 1009
# So many come, of whom so many may be there.
CROWD, PLACES = 2_000, 50


class Challenges(unittest.TestCase):
    """A proof is right for one challenge, one note, one origin, once, and not for long."""

    def setUp(self) -> None:
        self.now = 1_000.0
        self.form = form_of()

    def challenge(self) -> Challenge:
        """A relay's challenge."""
        return Challenge([ORIGIN, "https://other.name"], lambda: self.now)

    def proof(self, challenge: Challenge, origin: str = ORIGIN) -> Proof:
        """The right answer."""
        return Proof(self.form.note, self.form.public, self.form.proof(challenge.random, origin), origin)

    def test_the_right_one(self) -> None:
        for origin in ORIGIN, "https://other.name":
            one = self.challenge()
            proof = self.proof(one, origin)
            self.assertEqual(one.member_of(read_proof(proof.spelled())), self.form.note)
        self.assertNotEqual(self.challenge().random, self.challenge().random)

    def test_wrong_ones(self) -> None:
        other, one = form_of(OTHER_KEY), self.challenge()
        right = self.proof(one)
        wrong = {"a replayed one": self.proof(self.challenge()),
                 "another note": right._replace(note=other.note),
                 "another note's key": right._replace(public=other.public),
                 "an own key for another's note": Proof(
                     self.form.note, other.public, signed(challenged(self.form.note, one.random, ORIGIN), other.keys.append), ORIGIN),
                 "of another note": Proof(other.note, other.public, right.signature, ORIGIN),
                 "the challenge of another note": right._replace(
                     signature=signed(challenged(other.note, one.random, ORIGIN), self.form.keys.append)),
                 "another origin": self.proof(one, "https://evil.example"),
                 "an origin that wasn't signed": right._replace(origin="https://other.name"),
                 "a changed signature": right._replace(signature=bytes([right.signature[0] ^ 1]) + right.signature[1:]),
                 "zeros": right._replace(signature=bytes(64)),
                 "a key of small order": right._replace(public=bytes(32), signature=bytes(64))}
        for name, proof in wrong.items():
            with self.subTest(name), self.assertRaises(NotProved):
                again = self.challenge()
                again.random = one.random
                again.member_of(proof)

    def test_once_and_not_for_long(self) -> None:
        one = self.challenge()
        proof = self.proof(one)
        one.member_of(proof)
        with self.assertRaisesRegex(NotProved, "used"):
            one.member_of(proof)
        # A wrong one uses it up, too.
        one = self.challenge()
        with self.assertRaises(NotProved):
            one.member_of(proof)
        with self.assertRaisesRegex(NotProved, "used"):
            one.member_of(self.proof(one))
        one = self.challenge()
        self.now += PROOF_SECONDS + 0.1
        with self.assertRaisesRegex(NotProved, "too old"):
            one.member_of(self.proof(one))


class Spelling(unittest.TestCase):
    """What isn't spelled as a message is none."""

    def test_requests(self) -> None:
        asked, appended = ReadRequest(7, 1_000, "12.-5"), AppendRequest(8, [b"", b"x" * 300])
        self.assertEqual((read_request(asked.spelled()), append_request(appended.spelled())), (asked, appended))
        page = RelayPage(9, True, 2**40, START, [InLog("1.1", b""), InLog("2.1", None)])
        self.assertEqual(read_page(page.spelled()), page)
        for data in asked.spelled(), appended.spelled():
            # To append nothing, or the empty one alone, is right.
            cut = [data[:end] for end in range(1, len(data)) if data[0] == MessageKind.READ or end not in (5, 9)]
            for wrong in *cut, data + b"x", data[:1] + bytes(4) + data[5:]:
                with self.subTest(wrong), self.assertRaises(Misspelled):
                    (read_request if data[0] == MessageKind.READ else append_request)(wrong)
        for place in b"\x41" + b"x" * 65, b"\1\n", b"\1\xc3", b"\2x":
            with self.assertRaises(Misspelled):
                read_request(asked.spelled()[:9] + place)

    def test_what_can_be_an_entry(self) -> None:
        note, right = form_of().note, record(1)
        self.assertTrue(is_record(note, right))
        for wrong in (b"", right[:182], right + bytes(16_384), b"\2" + right[1:], b"\3" + right[1:], record(1, OTHER_KEY)):
            self.assertFalse(is_record(note, wrong))

    def test_options(self) -> None:
        for listen, found in (("7", ("127.0.0.1", 7)), (":7", ("127.0.0.1", 7)), ("0.0.0.0:7", ("0.0.0.0", 7)), ("[::1]:7", ("::1", 7))):
            self.assertEqual(RelayOptions(listen).host_and_port(), found)
        for wrong in "", "x", "h:", "h:65536", "::1:7", "http://h:7":
            with self.assertRaises(Trouble):
                RelayOptions(wrong).host_and_port()
        with self.assertRaisesRegex(Trouble, "--url"):
            RelayOptions("0.0.0.0:7").own_origins(7)
        self.assertEqual(RelayOptions(certificate="x").own_origins(7)[0], "https://localhost:7")
        self.assertEqual(RelayOptions("0.0.0.0:7", ["HTTPS://Notes.Example:443"]).own_origins(7), [ORIGIN])
        for wrong in "notes.example", "http://notes.example", "redis://h:7", "https://h/x", "https://u:hush@h":
            with self.assertRaises(Trouble) as told:
                web_origin(wrong)
            self.assertNotIn("hush", str(told.exception))


class AtPort(Case, unittest.IsolatedAsyncioTestCase):
    """A relay, and who comes to its port."""

    limits = Limits()

    def setUp(self) -> None:
        super().setUp()
        # A busy machine's relay isn't one that is gone.
        patient = mock.patch("share.log.relay_line.REPLY_SECONDS", PATIENCE)
        patient.start()
        self.addCleanup(patient.stop)
        self.relay = RelayHere(self.folder / "kept", self.limits, origins=["https://page.example"])
        self.addCleanup(self.relay.close)

    def kept(self) -> list[str]:
        """What the relay has of notes."""
        return sorted(path.name for path in (self.folder / "kept").iterdir() if path.name != "relay.lock")

    async def asked(self, text: bytes) -> bytes:
        """What the port answers to anything."""
        reader, writer = await asyncio.open_connection("127.0.0.1", self.relay.port)
        writer.write(text)
        try:
            # Head and body may come apart, and who sends rubbish may be cut off before the end.
            return await asyncio.wait_for(reader.read() if b"Connection: close" in text else reader.read(2_000), PATIENCE)
        finally:
            writer.close()


class LetIn(AtPort):
    """Who is let in."""

    async def test_nothing_is_done_without_a_proof(self) -> None:
        form = form_of()
        for data in (AppendRequest(1, [record(1)]).spelled(), ReadRequest(1, 1_000, START).spelled(), presence_message(b"x"), b"", b"\1",
                     Proof(form.note, form.public, bytes(64), self.relay.url).spelled()):
            async with talking(self.relay.url) as line:
                await line.receive_bytes()
                await line.send_bytes(data)
                message = await line.receive()
                self.assertEqual((message.type, message.data), (WSMsgType.CLOSE, POLICY_VIOLATION), data)
        async with talking(self.relay.url) as line:
            await line.receive_bytes()
            await line.send_str("hello")
            self.assertEqual((await line.receive()).data, POLICY_VIOLATION)
        # A replayed challenge, and one of another connection.
        async with talking(self.relay.url) as one, talking(self.relay.url) as two:
            proof = form.proof(read_challenge(await one.receive_bytes()), self.relay.url)
            await two.receive_bytes()
            await two.send_bytes(Proof(form.note, form.public, proof, self.relay.url).spelled())
            self.assertEqual((await two.receive()).data, POLICY_VIOLATION)
        self.assertEqual(self.kept(), [])

    async def test_who_proves_nothing_is_let_go(self) -> None:
        with mock.patch("share.relay.server.PROOF_SECONDS", 0.3):
            async with talking(self.relay.url) as line:
                await line.receive_bytes()
                message = await asyncio.wait_for(line.receive(), PATIENCE)
                self.assertEqual((message.data, message.extra), (POLICY_VIOLATION, "No proof came in time."))

    async def test_the_right_name_is_said(self) -> None:
        form = form_of()
        async with talking(self.relay.url) as line:
            signature = form.proof(read_challenge(await line.receive_bytes()), "https://other.example")
            await line.send_bytes(Proof(form.note, form.public, signature, "https://other.example").spelled())
            self.assertIn(f"http://localhost:{self.relay.port}", (await line.receive()).extra)

    async def test_an_append_of_what_is_no_entry_is_stored_nowhere(self) -> None:
        async with talking(self.relay.url) as line:
            self.assertEqual(await proved(line, self.relay.url), WELCOME)
            for wrong in record(1, OTHER_KEY), b"x", b"", record(1)[:180], b"\2" + record(1)[1:]:
                await line.send_bytes(AppendRequest(1, [record(1), wrong]).spelled())
                self.assertIs(read_refusal(await next_of(line, MessageKind.REFUSED)).why, Why.WRONG)
            self.assertEqual(self.kept(), [])

    async def test_browsers_come_from_pages_that_are_let_in(self) -> None:
        for origin in self.relay.url, f"http://localhost:{self.relay.port}", "https://page.example":
            async with talking(self.relay.url, origin=origin) as line:
                self.assertEqual(len(await line.receive_bytes()), 33)
        for origin in ("https://evil.example", "null", "https://page.example.evil", "http://page.example", "", f"{self.relay.url}/",
                       f"https://127.0.0.1:{self.relay.port}"):
            with self.assertRaises(aiohttp.WSServerHandshakeError) as told:
                async with talking(self.relay.url, headers={"Origin": origin}):
                    pass
            self.assertEqual(told.exception.status, 403, origin)
        with self.assertRaises(aiohttp.WSServerHandshakeError):
            async with talking(self.relay.url, headers=[("Origin", self.relay.url), ("Origin", "https://evil.example")]):
                pass

    async def test_paths_lead_nowhere(self) -> None:
        for path in ("//", "/relay/", "/relay/../relay.lock", "/relay/%2e%2e/", "//relay", "/relay%00", "/relay/socket/../../etc/passwd",
                     "/../etc/passwd", f"/{form_of().note.hex()}.log", "/kept/relay.lock", "/RELAY", "/relay;x", "/relay/socket/x",
                     "/" + "x" * 7_000):
            answer = await self.asked(f"GET {path} HTTP/1.1\r\nHost: x\r\nConnection: close\r\n\r\n".encode())
            self.assertRegex(answer, rb"^HTTP/1.1 (404|400) ", path)
        for method in "POST", "PUT", "DELETE", "HEAD", "OPTIONS":
            answer = await self.asked(f"{method} /relay HTTP/1.1\r\nHost: x\r\nContent-Length: 0\r\nConnection: close\r\n\r\n".encode())
            self.assertRegex(answer, rb"^HTTP/1.1 405 ", method)
        for rubbish in (b"\x16\x03\x01\r\n\r\n", b"\0" * 100 + b"\r\n\r\n",
                        b"GET /relay HTTP/1.1\r\nx: " + b"y" * 20_000 + b"\r\n\r\n"):
            self.assertRegex(await self.asked(rubbish), rb"^HTTP/1.[01] 400 |^$")

    async def test_what_it_is(self) -> None:
        answer = await self.asked(b"GET /relay HTTP/1.1\r\nHost: x\r\nConnection: close\r\n\r\n")
        head, _, body = answer.partition(b"\r\n\r\n")
        self.assertEqual((json.loads(body)["relay"], json.loads(body)["connections"]), (1, 1_000))
        for header in b"X-Content-Type-Options: nosniff", b"Cache-Control: no-store", b"Server: vialshoal":
            self.assertIn(header, head)
        answer = await self.asked(b"GET /relay/socket HTTP/1.1\r\nHost: x\r\nConnection: close\r\n\r\n")
        self.assertRegex(answer, b"^HTTP/1.1 400 ")


class TooMuch(AtPort):
    """Who sends too much, or takes too little."""

    limits = Limits(entries_a_second=1_000_000)

    async def test_a_message_of_100_mb_takes_no_memory(self) -> None:
        before = memory_here()
        for is_member in False, True:
            for size in MOST_REQUEST + 1, 100_000_000:
                reader, writer = await self.by_hand(is_member)
                # The head of a frame of so many bytes, and as many of them as it takes.
                writer.write(b"\x82\xff" + size.to_bytes(8, "big") + bytes(4))
                with self.assertRaises((ConnectionError, asyncio.IncompleteReadError)):
                    for _ in range(size // 2**16):
                        writer.write(bytes(2**16))
                        await writer.drain()
                    while True:
                        await reader.readexactly(1)
                writer.close()
        # In frames that are small, and a message without end.
        reader, writer = await self.by_hand(True)
        with self.assertRaises((ConnectionError, asyncio.IncompleteReadError)):
            writer.write(b"\x02\xfe\xff\xff" + bytes(4) + bytes(2**16 - 1))
            for _ in range(2_000):
                writer.write(b"\x00\xfe\xff\xff" + bytes(4) + bytes(2**16 - 1))
                await writer.drain()
            while True:
                await reader.readexactly(1)
        writer.close()
        self.assertLess(memory_here() - before, 50_000)

    async def by_hand(self, is_member: bool) -> tuple[asyncio.StreamReader, asyncio.StreamWriter]:
        """A WebSocket, of whose frames this test makes each byte."""
        line = socket.socket()
        # Little waits on its way.
        line.setsockopt(socket.SOL_SOCKET, socket.SO_RCVBUF, 2**12)
        line.connect(("127.0.0.1", self.relay.port))
        reader, writer = await asyncio.open_connection(sock=line)
        writer.write(b"GET /relay/socket HTTP/1.1\r\nHost: x\r\nConnection: Upgrade\r\nUpgrade: websocket\r\nSec-WebSocket-Version: 13\r\n"
                     b"Sec-WebSocket-Key: AAAAAAAAAAAAAAAAAAAAAA==\r\nSec-WebSocket-Protocol: vialshoal-relay-1\r\n\r\n")
        await reader.readuntil(b"\r\n\r\n")
        challenge = (await reader.readexactly(35))[2:]
        if is_member:
            form = form_of()
            proof = Proof(form.note, form.public, form.proof(read_challenge(challenge), self.relay.url), self.relay.url).spelled()
            writer.write(b"\x82\xfe" + len(proof).to_bytes(2, "big") + bytes(4) + proof)
            self.assertEqual(await reader.readexactly(4), b"\x82\2" + WELCOME)
        return reader, writer

    # So few that it is too much however slowly it comes on a busy machine.
    @mock.patch("share.relay.member.MESSAGES_A_SECOND", 5.0)
    async def test_who_asks_too_much_at_once_is_let_go(self) -> None:
        for flood in ReadRequest(1, 1_000, START).spelled(), presence_message(b"x"), b"":
            async with talking(self.relay.url) as line:
                await proved(line, self.relay.url)
                with self.subTest(flood), self.assertRaises((TypeError, ConnectionError)):
                    for _ in range(20_000):
                        await line.send_bytes(flood)
                    while True:
                        await asyncio.wait_for(line.receive_bytes(), PATIENCE)

    async def test_no_more_is_done_at_once_than_some_requests(self) -> None:
        goes_on = threading.Event()
        with mock.patch("share.relay.kept.KeptNote.read", lambda *_: goes_on.wait(PATIENCE)):
            async with talking(self.relay.url) as line:
                await proved(line, self.relay.url)
                for number in range(1, MOST_REQUESTS + 2):
                    await line.send_bytes(ReadRequest(number, 1_000, START).spelled())
                message = await asyncio.wait_for(line.receive(), PATIENCE)
                self.assertEqual((message.type, message.data), (WSMsgType.CLOSE, POLICY_VIOLATION))
            goes_on.set()

    async def test_who_reads_slowly_holds_up_nobody_and_takes_little(self) -> None:
        most = 2**22
        # Nobody is let go meanwhile, so who held up others would do so for long.
        patient = mock.patch.multiple("share.relay.member", MOST_UNSENT_OF_ALL=most, SLOWEST_SEND_SECONDS=10 * PATIENCE)
        with closing(opener_of(self.relay.url, form_of())()) as log, patient:
            for begin in range(0, 16_000, 500):
                log.append([record(number) for number in range(begin, begin + 500)])
            place = log.read(START)[-1].place
            lines, before = [], memory_here()
            for _ in range(20):
                lines.append(await self.who_reads_nothing())
            await self.comes(lambda: self.relay.relay._sending.waiting > 2**20 and not self.being_done())
            channel = log.channel()
            assert channel
            with closing(channel):
                for number in range(300):
                    channel.say(bytes(256))
            since = time.monotonic()
            log.append([record(60_000)])
            self.assertEqual(log.read(place)[-1:] and log.size(), 16_001)
            self.assertLess(time.monotonic() - since, PATIENCE)
            # Twenty asked for seven pages of 1 MB each.
            self.assertLess(self.relay.relay._sending.waiting, 3 * most)
            self.assertLess(memory_here() - before, 100_000)
            for writer in lines:
                writer.transport.abort()
            await self.comes(lambda: self.relay.relay._sending.waiting == 0)

    async def test_who_asks_again_and_again_and_reads_nothing_is_let_go(self) -> None:
        answer, answered, asked = Member._answer, list[int](), list[int]()

        async def counted(member: Member, number: int, answering: Coroutine[Any, Any, bytes]) -> None:
            await answer(member, number, answering)
            answered.append(number)

        self.fill()
        with mock.patch.object(Member, "_answer", counted):
            _, writer = await self.by_hand(True)
            writer.transport.pause_reading()  # type: ignore[attr-defined]
            for number in range(1, 5 * MOST_REQUESTS):
                self.ask_for_page(writer, number)
                asked.append(number)
                await self.comes(lambda: asked[-1] in answered or not self.relay.relay._sockets)
                if not self.relay.relay._sockets:
                    break
            # Nor is anything kept for him.
            await self.comes(lambda: not self.relay.door.connected())
        # The system takes some of what is sent.
        self.assertLess(len(answered), 2 * MOST_REQUESTS)

    def fill(self) -> None:
        """Has the note have more than a page."""
        with closing(opener_of(self.relay.url, form_of())()) as log, mock.patch("share.relay.room.is_record", lambda *_: True):
            log.append([number.to_bytes(2, "big") * 8_000 for number in range(100)])

    def being_done(self) -> int:
        """How many requests are being done."""
        members = [one for room in [*self.relay.relay._rooms.values()] for one in [*room.members] if isinstance(one, Member)]
        return sum(len(one._requests) for one in members)

    async def who_reads_nothing(self) -> asyncio.StreamWriter:
        """Somebody who has asked for seven large pages, and reads none."""
        _, writer = await self.by_hand(True)
        writer.transport.pause_reading()  # type: ignore[attr-defined]
        for number in range(1, 8):
            self.ask_for_page(writer, number)
        await writer.drain()
        return writer

    @staticmethod
    def ask_for_page(writer: asyncio.StreamWriter, number: int) -> None:
        """Asks for as much as there is."""
        asked = ReadRequest(number, MOST_BYTES_OF_PAGE, START).spelled()
        writer.write(b"\x82" + bytes([0x80 | len(asked)]) + bytes(4) + asked)

    @staticmethod
    async def comes(condition: Callable[[], bool]) -> None:
        """Waits until something is so."""
        await asyncio.to_thread(wait_for, condition, "it to be so")

    async def test_who_takes_nothing_for_long_is_let_go(self) -> None:
        self.fill()
        with mock.patch.multiple("share.relay.member", SLOWEST_SEND_SECONDS=0.5, SLOWEST=2**30):
            writer = await self.who_reads_nothing()
            await self.comes(lambda: not self.relay.relay._sockets)
            writer.close()
        self.assertEqual(self.relay.relay._sending.waiting, 0)


class Crowd(AtPort):
    """A relay with few places."""

    limits = Limits(connections=PLACES)

    def test_a_crowd_is_bounded_and_shuts_out_nobody_who_is_in(self) -> None:
        most, lines = [0], list[socket.socket]()
        with closing(opener_of(self.relay.url, form_of())()) as log, self.counting(most):
            for number in range(CROWD):
                # Who isn't let in may be told so at once.
                with suppress(ConnectionError):
                    line = socket.create_connection(("127.0.0.1", self.relay.port), PATIENCE)
                    lines.append(line)
                    if number % 3:
                        line.sendall(b"GET /relay/socket HTTP/1.1\r\nHost: x\r\n"[:number % 30])
                if len(lines) > 300:
                    lines.pop(0).close()
                if not number % 500:
                    log.append([record(number)])
                    self.assertEqual(log.size(), number // 500 + 1)
            # Somebody more comes in while all of them are there.
            with closing(opener_of(self.relay.url, form_of())()) as other:
                self.assertEqual(other.size(), CROWD // 500)
        for line in lines:
            line.close()
        self.assertLessEqual(most[0], PLACES)
        self.assertGreater(most[0], PLACES / 2)

    @contextmanager
    def counting(self, most: list[int]) -> Iterator[None]:
        """Counts meanwhile how many this process has open to who comes, in the relay's eyes and in the system's."""
        stop = threading.Event()

        def counts() -> None:
            while not stop.wait(0.005):
                most[0] = max(most[0], self.relay.door.connected())

        thread = threading.Thread(target=counts)
        thread.start()
        try:
            yield
        finally:
            stop.set()
            thread.join()

    def test_who_is_silent_is_let_go(self) -> None:
        with mock.patch("share.relay.door.STRANGER_SECONDS", 0.2), mock.patch("share.relay.server.DOOR_SECONDS", 0.1):
            self.relay.stop()
            self.relay.start()
            with socket.create_connection(("127.0.0.1", self.relay.port), PATIENCE) as line:
                # He may be let go before he has said anything.
                with suppress(ConnectionError):
                    line.sendall(b"GET /relay HTTP")
                    self.assertEqual(line.recv(1), b"")

    def test_where_all_are_members_nobody_more_comes_in(self) -> None:
        logs = [opener_of(self.relay.url, form_of())() for _ in range(PLACES)]
        try:
            with self.assertRaises(OSError), socket.create_connection(("127.0.0.1", self.relay.port), PATIENCE) as line:
                line.sendall(b"GET /relay HTTP/1.1\r\nHost: x\r\n\r\n")
                if not line.recv(1):
                    raise ConnectionResetError
            logs[0].append([record(1)])
            self.assertEqual(logs[-1].size(), 1)
        finally:
            for log in logs:
                log.close()


def memory_here() -> int:
    """The memory of this process in KB."""
    with open("/proc/self/status", encoding="ascii") as status:
        return int(next(line for line in status if line.startswith("VmRSS")).split()[1])


if __name__ == "__main__":
    unittest.main()
