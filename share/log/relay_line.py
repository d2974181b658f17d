"""A line to a relay: one WebSocket, in a thread of its own, which all logs of a note have in common that are open at once. It is connected
when something is asked, and again after it broke. The relay may be anyone's: what it sends has a bound and a time, and what isn't spelled
right ends in words."""
import asyncio
import itertools
import ssl
import threading
from collections.abc import Callable, Coroutine, Sequence
from concurrent.futures import CancelledError
from typing import Any, Protocol, TypeVar

from share.format.presence import MOST_PRESENCE
from share.format.second.form import SealedRecords
from share.log.base import LogLost, Unreachable
from share.log.relay_messages import (MOST_ANSWERED, MOST_WORDS_OF_REFUSAL, RELAY_VERSION, SOCKET_PATH, SUBPROTOCOL, UNASKED,
                                      AppendRequest, MessageKind, Misspelled, Proof, ReadRequest, Refusal, RelayPage, Why,
                                      presence_message, read_challenge, read_kept, read_page, read_presence_message, read_refusal)
from share.log.resp import CONNECT_SECONDS, REPLY_SECONDS, SLOWEST, printable
from share.text.errors import Trouble

try:
    import aiohttp
    HAS_AIOHTTP = True
except ImportError:
    HAS_AIOHTTP = False

# After so long without a word it is seen whether the relay is still there, which also keeps what is between from forgetting the line.
PING_SECONDS = 25
# How long nothing is appended after the relay said that the note is full there, or that this address makes too many.
FULL_SECONDS = 60.0
# How long a line that is closed waits for the other end.
END_LINE_SECONDS = 1.0
AWAY_STATUSES = {502, 503, 504}
AskedOfRelay = TypeVar("AskedOfRelay")
# What a relay answers: a page, or the number of what is done.
RelayAnswer = RelayPage | Refusal | int


class RelayEar(Protocol):
    """What hears on a line, in its thread, what comes unasked."""

    def came(self, page: RelayPage) -> None:
        """Entries came."""

    def said(self, presence: bytes) -> None:
        """Presence came."""

    def told(self, words: str) -> None:
        """The relay tells all who are at the note something."""

    def broke(self) -> None:
        """What comes from now on until it is connected again isn't heard."""


class RelayLine:
    """The line. Any thread may call it, until it is closed."""

    def __init__(self, url: str, form: SealedRecords):
        if not HAS_AIOHTTP:
            raise Trouble("Python's module aiohttp isn't here, which a relay needs. On Debian: apt-get install python3-aiohttp.")
        self.url, self._form = url, form
        self._ears, self._lock = set[RelayEar](), threading.Lock()
        self._begun = threading.Event()
        self._thread = threading.Thread(target=lambda: asyncio.run(self._live()), daemon=True)
        self._thread.start()
        self._begun.wait()

    def close(self) -> None:
        """Ends the line, and its thread."""
        self._loop.call_soon_threadsafe(self._ends.set)
        self._thread.join()

    def check(self) -> None:
        """Sees that the relay is reached."""
        self._do(self._connected())

    def read(self, most: int, after: str) -> RelayPage:
        """What the relay has after a place."""
        found = self._do(self._ask(lambda number: ReadRequest(number, most, after).spelled(), most))
        if not isinstance(found, RelayPage) or found.after != after:
            raise self.strange()
        return found

    def append(self, raws: Sequence[bytes]) -> None:
        """Has the relay append entries, which are no more than one message has."""
        self._do(self._ask(lambda number: AppendRequest(number, raws).spelled(), 0))

    def say(self, presence: bytes) -> None:
        """Says presence to all who are at the note; what is too long for that nobody hears anyway."""
        if 1 <= len(presence) <= MOST_PRESENCE:
            self._do(self._say(presence))

    def add(self, ear: RelayEar) -> None:
        """Has an ear hear."""
        with self._lock:
            self._ears.add(ear)

    def remove(self, ear: RelayEar) -> None:
        """Has an ear hear no more."""
        with self._lock:
            self._ears.discard(ear)

    def strange(self) -> Trouble:
        """What is raised where an answer isn't one that a relay gives. The connection is closed."""
        asyncio.run_coroutine_threadsafe(self._let_go(), self._loop).result()
        return self._no_relay()

    def _no_relay(self) -> Trouble:
        return Trouble(f"{self.url} answers, but not as a relay. Look at the host and the port.")

    # What follows is done in the line's thread alone.

    async def _live(self) -> None:
        self._loop, self._ends, self._connecting = asyncio.get_running_loop(), asyncio.Event(), asyncio.Lock()
        self._session: aiohttp.ClientSession | None = None
        self._socket: aiohttp.ClientWebSocketResponse | None = None
        self._reading: asyncio.Task[None] | None = None
        self._dropping = set[asyncio.Task[bool]]()
        self._numbers, self._waiting = itertools.count(UNASKED + 1), dict[int, asyncio.Future[RelayAnswer]]()
        # Until when nothing is appended, and why.
        self._full_until, self._full = 0.0, ""
        self._begun.set()
        await self._ends.wait()
        if self._reading:
            self._reading.cancel()
        if self._socket:
            await asyncio.wait([asyncio.ensure_future(self._socket.close())], timeout=END_LINE_SECONDS)
        if self._session:
            await self._session.close()

    def _do(self, work: Coroutine[Any, Any, AskedOfRelay]) -> AskedOfRelay:
        """Has the line's thread do something; says in words what went wrong."""
        try:
            return asyncio.run_coroutine_threadsafe(work, self._loop).result()
        except Misspelled as why:
            raise self._no_relay() from why
        except aiohttp.WSServerHandshakeError as why:
            if why.status in AWAY_STATUSES:
                raise Unreachable(f"{self.url} can't be reached now ({why.status})") from why
            raise self._no_relay() from why
        except (aiohttp.ClientConnectorCertificateError, aiohttp.ClientConnectorSSLError) as why:
            raise Unreachable(f"{self.url} has a certificate that isn't trusted for it: {_words_of(why)}") from why
        except asyncio.TimeoutError as why:
            raise Unreachable(f"{self.url} doesn't answer in time") from why
        except (aiohttp.ClientError, OSError, CancelledError) as why:
            raise Unreachable(f"{self.url}: {_words_of(why)}") from why

    async def _ask(self, spelled: Callable[[int], bytes], most: int) -> RelayAnswer:
        """The answer to a request, which may have so many bytes; raises what it is refused for."""
        socket, number = await self._connected(), next(self._numbers)
        data = spelled(number)
        is_append = data[0] == MessageKind.APPEND
        if is_append and self._loop.time() < self._full_until:
            raise Unreachable(self._full)
        self._waiting[number] = answered = self._loop.create_future()
        try:
            await self._send(socket, data)
            found: RelayAnswer = await asyncio.wait_for(answered, REPLY_SECONDS + (most + len(data)) / SLOWEST)
        except asyncio.TimeoutError:
            self._drop(socket)
            raise
        finally:
            self._waiting.pop(number, None)
        if isinstance(found, Refusal):
            raise self._refused(found)
        if is_append != isinstance(found, int):
            self._drop(socket)
            raise Misspelled
        return found

    def _refused(self, one: Refusal) -> Exception:
        words = f"{self.url}: {printable(one.words)}"
        if one.why in (Why.FULL, Why.NEW):
            self._full_until, self._full = self._loop.time() + FULL_SECONDS, words
        if one.why is Why.LOST:
            return LogLost(f"{self.url} has lost entries.")
        return (Trouble if one.why is Why.WRONG else Unreachable)(words)

    async def _say(self, presence: bytes) -> None:
        await self._send(await self._connected(), presence_message(presence))

    async def _send(self, socket: "aiohttp.ClientWebSocketResponse", data: bytes) -> None:
        """Sends a message. Who takes none, whatever he says meanwhile, is let go."""
        try:
            await asyncio.wait_for(socket.send_bytes(data), REPLY_SECONDS + len(data) / SLOWEST)
        except asyncio.TimeoutError:
            self._drop(socket)
            raise

    async def _connected(self) -> "aiohttp.ClientWebSocketResponse":
        async with self._connecting:
            if not self._socket or self._socket.closed:
                self._socket = await asyncio.wait_for(self._connect(), CONNECT_SECONDS + REPLY_SECONDS)
                self._reading = asyncio.create_task(self._read_on(self._socket))
            return self._socket

    async def _connect(self) -> "aiohttp.ClientWebSocketResponse":
        """Connects, and proves to have the link."""
        if self._session is None:
            # The certificate and the host's name in it are looked at.
            trusts = ssl.create_default_context() if self.url.startswith("https:") else None
            # Nor is one sent elsewhere, as no browser is that opens a WebSocket.
            stays = aiohttp.TraceConfig()
            stays.on_request_redirect.append(_stays)
            self._session = aiohttp.ClientSession(connector=aiohttp.TCPConnector(ssl=trusts), trace_configs=[stays])
        socket = await self._session.ws_connect(self.url + SOCKET_PATH, protocols=[SUBPROTOCOL], heartbeat=PING_SECONDS,
                                                max_msg_size=MOST_ANSWERED)
        try:
            challenge = read_challenge(await _received(socket))
            signature = self._form.proof(challenge, self.url)
            await socket.send_bytes(Proof(self._form.note, self._form.public, signature, self.url).spelled())
            if await _received(socket) != bytes([MessageKind.WELCOME, RELAY_VERSION]):
                raise Misspelled
        except BaseException:
            self._drop(socket)
            raise
        return socket

    async def _read_on(self, socket: "aiohttp.ClientWebSocketResponse") -> None:
        """Hears what comes, until the line breaks."""
        try:
            while True:
                self._take(await _received(socket))
        except (aiohttp.ClientError, OSError, Misspelled) as why:
            for answered in self._waiting.values():
                if not answered.done():
                    answered.set_exception(why)
        finally:
            self._drop(socket)
            for ear in self._now():
                ear.broke()

    def _take(self, data: bytes) -> None:
        """Takes a message of the relay's."""
        match data[0] if data else None:
            case MessageKind.READ:
                page = read_page(data)
                if page.id == UNASKED:
                    for ear in self._now():
                        ear.came(page)
                self._answers(page.id, page)
            case MessageKind.APPEND:
                self._answers(number := read_kept(data), number)
            case MessageKind.REFUSED:
                refusal = read_refusal(data)
                if refusal.id == UNASKED:
                    for ear in self._now():
                        ear.told(f"{self.url}: {printable(refusal.words)}")
                self._answers(refusal.id, refusal)
            case MessageKind.PRESENCE:
                presence = read_presence_message(data)
                for ear in self._now():
                    ear.said(presence)
            case _:
                raise Misspelled

    def _answers(self, number: int, answer: RelayAnswer) -> None:
        if (answered := self._waiting.get(number)) and not answered.done():
            answered.set_result(answer)

    def _now(self) -> list[RelayEar]:
        with self._lock:
            return [*self._ears]

    async def _let_go(self) -> None:
        self._drop()

    def _drop(self, socket: "aiohttp.ClientWebSocketResponse | None" = None) -> None:
        """Lets go of a connection, the one that is there or this one, without a word."""
        socket = socket or self._socket
        if socket is self._socket:
            self._socket = None
        if socket and not socket.closed:
            # It waits for the other end, which may never answer.
            dropping = asyncio.create_task(socket.close())
            self._dropping.add(dropping)
            dropping.add_done_callback(self._dropping.discard)


async def _stays(*_: object) -> None:
    """Goes nowhere else, whatever the answer says."""
    raise Misspelled


async def _received(socket: "aiohttp.ClientWebSocketResponse") -> bytes:
    """The next message."""
    message = await socket.receive()
    if message.type is aiohttp.WSMsgType.BINARY:
        return bytes(message.data)
    if message.type is aiohttp.WSMsgType.CLOSE and message.extra:
        raise aiohttp.ClientError(printable(message.extra))
    if message.type is aiohttp.WSMsgType.TEXT:
        raise Misspelled
    raise aiohttp.ClientError("it closed the connection")


def _words_of(why: BaseException) -> str:
    """What went wrong, as a user is told."""
    fault = getattr(why, "os_error", None) or getattr(why, "certificate_error", None) or why
    words = getattr(fault, "verify_message", None) or getattr(fault, "strerror", None) or str(fault) or type(fault).__name__
    return printable(words)[:MOST_WORDS_OF_REFUSAL]
