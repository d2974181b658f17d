"""The relay's server: one port for all notes, at which each WebSocket is at one note."""
import asyncio
import contextlib
import json
import logging
import signal
import ssl
import time
from collections.abc import AsyncIterator, Callable

from aiohttp import WSCloseCode, WSMsgType, web

from share.log.relay_messages import (ABOUT_PATH, MOST_REQUEST, RELAY_VERSION, SOCKET_PATH, SUBPROTOCOL, Misspelled, challenge_message,
                                      read_proof, welcome_message)
from share.relay.door import Door
from share.relay.front import Answering, add_page
from share.relay.kept import KeptNote
from share.relay.limits import NewNotes, Paces
from share.relay.member import Member, Sending
from share.relay.membership import PROOF_SECONDS, Challenge, NotProved
from share.relay.options import RelayOptions
from share.relay.page_files import PageFiles
from share.relay.page_rules import HEADERS, page_rules
from share.relay.room import NoteRoom
from share.relay.shelf import Shelf
from share.text.errors import Trouble

# How often the door is looked at, and how long a WebSocket may be silent before it is asked whether it is there.
DOOR_SECONDS, SILENT_SOCKET_SECONDS = 5.0, 60.0
CLOSE_SECONDS, KEEPALIVE_SECONDS = 2.0, 5.0
# How often it is seen whether all is closed as it ends, and how long that may take.
CLOSING_SECONDS, MOST_CLOSING_SECONDS = 0.01, 30.0
# The same is told to the operator once in this time, and no more different things than this are remembered.
SAY_AGAIN_SECONDS, MOST_SAID_APART = 60.0, 1_000
LAST_FORWARDED = "X-Forwarded-For"


class RelayServer:
    """Notes' rooms, and who comes to them."""

    def __init__(self, options: RelayOptions, shelf: Shelf, door: Door, says: Callable[[str], None]):
        self._options, self._shelf, self._door, self._tell = options, shelf, door, says
        port, self._files = door.getsockname()[1], PageFiles()
        self.origins, self._lets_in = options.own_origins(port), options.let_in(port)
        self._rules = {**HEADERS, **page_rules(self.origins)}
        self._new_notes, self._paces = NewNotes(options.limits.new_notes_an_hour), Paces(options.limits.entries_a_second)
        self._sending = Sending()
        self._rooms = dict[bytes, NoteRoom]()
        self._sockets, self._closing = set[web.WebSocketResponse](), set[asyncio.Task[None]]()
        self._said = dict[str, float]()

    def application(self) -> web.Application:
        """What answers requests. Nothing of a request but its path, as it is, chooses what."""
        application = web.Application(middlewares=[self._let_in])
        add_page(application.router, self._files, self.origins)
        application.router.add_get(ABOUT_PATH, self._about, allow_head=False)
        application.router.add_get(SOCKET_PATH, self._connect, allow_head=False)
        application.on_response_prepare.append(self._rule)
        application.on_shutdown.append(self._shut)
        return application

    async def show_out_the_silent(self) -> None:
        """Lets go, again and again, of who is connected and has shown nothing."""
        while True:
            await asyncio.sleep(DOOR_SECONDS)
            self._door.show_out_the_silent()

    async def closed(self) -> None:
        """Waits until all logs are closed."""
        while self._rooms or self._closing:
            await asyncio.sleep(CLOSING_SECONDS)

    @web.middleware
    async def _let_in(self, request: web.Request, handler: Answering) -> web.StreamResponse:
        """Answers browsers from pages that may come, who may read the answer then."""
        origins: list[str] = request.headers.getall("Origin", [])
        if not {*origins} <= self._lets_in:
            raise web.HTTPForbidden(text="No page from there is let in (--origin).\n")
        answer = await handler(request)
        if origins and not answer.prepared:
            answer.headers.update({"Access-Control-Allow-Origin": origins[0], "Vary": "Accept-Encoding, Origin"})
        return answer

    async def _about(self, _: web.Request) -> web.Response:
        """Says what this is."""
        limits = self._options.limits
        about = {"relay": RELAY_VERSION, "urls": self.origins, "note_bytes": limits.note_bytes, "entries_a_second": limits.entries_a_second,
                 "new_notes_an_hour": limits.new_notes_an_hour, "connections": limits.connections}
        return web.Response(text=json.dumps(about), content_type="application/json")

    async def _connect(self, request: web.Request) -> web.StreamResponse:
        """Has somebody be at the note to which he proves to have the link."""
        if SUBPROTOCOL not in [one.strip() for one in request.headers.get("Sec-WebSocket-Protocol", "").split(",")]:
            raise web.HTTPBadRequest(text=f"This is a WebSocket of the protocol {SUBPROTOCOL}.\n")
        socket = web.WebSocketResponse(max_msg_size=MOST_REQUEST, compress=False, autoping=False, timeout=CLOSE_SECONDS,
                                       heartbeat=SILENT_SOCKET_SECONDS, protocols=[SUBPROTOCOL])
        await socket.prepare(request)
        self._sockets.add(socket)
        try:
            await self._serve(request, socket)
        except (NotProved, Misspelled) as why:
            await socket.close(code=WSCloseCode.POLICY_VIOLATION, message=(str(why) or "That is no proof.").encode()[:120])
        except ConnectionError:
            pass
        finally:
            self._sockets.discard(socket)
            # What he hasn't taken by now isn't kept for him.
            if request.transport and (not socket.closed or request.transport.get_write_buffer_size()):
                request.transport.abort()
        return socket

    async def _serve(self, request: web.Request, socket: web.WebSocketResponse) -> None:
        challenge = Challenge(self.origins)
        await socket.send_bytes(challenge_message(challenge.random))
        try:
            message = await socket.receive(PROOF_SECONDS)
        except asyncio.TimeoutError as why:
            raise NotProved("No proof came in time.") from why
        if message.type is not WSMsgType.BINARY:
            raise Misspelled
        note = challenge.member_of(read_proof(message.data))
        if request.transport:
            self._door.knows(request.transport.get_extra_info("socket").fileno())
        async with self._room(note) as room:
            await socket.send_bytes(welcome_message())
            await Member(socket, self._address(request), room, self._sending).run()

    @contextlib.asynccontextmanager
    async def _room(self, note: bytes) -> AsyncIterator[NoteRoom]:
        """A note's room, which is closed as the last leaves it."""
        if not (room := self._rooms.get(note)):
            limits = self._options.limits
            kept, pace = KeptNote(self._shelf, note, limits.note_bytes), self._paces.enter(note)
            room = self._rooms[note] = NoteRoom(note, kept, limits, self._new_notes, pace, self._says)
        room.users += 1
        try:
            yield room
        finally:
            room.users -= 1
            if not room.users:
                del self._rooms[note]
                self._paces.leave(note, room.pace)
                self._closing.add(closing := asyncio.create_task(room.close()))
                closing.add_done_callback(self._closing.discard)

    def _address(self, request: web.Request) -> str:
        """From where somebody comes; behind a reverse proxy the last one it was forwarded for, which it says itself."""
        forwarded: list[str] = request.headers.getall(LAST_FORWARDED, []) if self._options.is_forwarded else []
        return forwarded[-1].rpartition(",")[2].strip() if forwarded else request.remote or ""

    def _says(self, words: str) -> None:
        """Tells the operator something, but not again and again."""
        now = time.monotonic()
        if now - self._said.get(words, -SAY_AGAIN_SECONDS) >= SAY_AGAIN_SECONDS:
            if len(self._said) >= MOST_SAID_APART:
                self._said.clear()
            self._said[words] = now
            self._tell(words)

    async def _rule(self, _: web.BaseRequest, response: web.StreamResponse) -> None:
        response.headers.update({**self._rules, **response.headers, "Server": "vialshoal"})

    async def _shut(self, _: web.Application) -> None:
        await asyncio.gather(*(socket.close(code=WSCloseCode.GOING_AWAY) for socket in [*self._sockets]), return_exceptions=True)


def tls_of(options: RelayOptions) -> ssl.SSLContext | None:
    """The certificate with which it is served; None where a reverse proxy has it, or nobody else comes."""
    if not options.certificate:
        return None
    context = ssl.SSLContext(ssl.PROTOCOL_TLS_SERVER)
    try:
        context.load_cert_chain(options.certificate, options.key)
    except (OSError, ssl.SSLError) as why:
        raise Trouble(f"The certificate {options.certificate} can't be used ({why.strerror or why}).") from why
    return context


async def serve_relay(options: RelayOptions, shelf: Shelf, door: Door, ready: Callable[[RelayServer], None], says: Callable[[str], None],
                      ends: asyncio.Event | None = None) -> None:
    """Serves until the process is told to end, or this is; calls when it can be reached."""
    relay, context = RelayServer(options, shelf, door, says), tls_of(options)
    # Whatever strangers send, the operator's log isn't filled with it.
    quiet = logging.getLogger(__name__)
    quiet.setLevel(logging.CRITICAL)
    logging.getLogger("aiohttp.websocket").setLevel(logging.CRITICAL)
    runner = web.AppRunner(relay.application(), access_log=None, logger=quiet, keepalive_timeout=KEEPALIVE_SECONDS)
    await runner.setup()
    looking = asyncio.create_task(relay.show_out_the_silent())
    try:
        await web.SockSite(runner, door, ssl_context=context).start()
        if ends is None:
            ends = asyncio.Event()
            for number in signal.SIGINT, signal.SIGTERM, signal.SIGHUP:
                asyncio.get_running_loop().add_signal_handler(number, ends.set)
        ready(relay)
        await ends.wait()
    finally:
        looking.cancel()
        await runner.cleanup()
        with contextlib.suppress(asyncio.TimeoutError):
            await asyncio.wait_for(relay.closed(), MOST_CLOSING_SECONDS)
