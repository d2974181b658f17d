"""The server of a note's page, on a port of the loopback."""
import asyncio
import contextlib
import logging
import pathlib
import re
import signal
import socket as sockets
import weakref
from collections.abc import Awaitable, Callable, Mapping, Sequence
from dataclasses import dataclass, field

from aiohttp import WSCloseCode, WSMsgType, web

from share.editors.web import guard, listing
from share.editors.web.bridge import MOST_MESSAGE, bridged
from share.editors.web.loopback import BACKLOG, OwnSocket
from share.engine.protocol import serialize
from share.relay.page_files import CODEMIRROR
from share.text.errors import Trouble

HERE = pathlib.Path(__file__).absolute().parent
PAGE_FILES = ["secret.js", "page.js", "page.css", "text.css", "review.css", "aloud.js", "card.js", "cards.js", "client.js",
              "composing.js", "connection.js", "digest.js", "drafts.js", "edited.js", "editor.js", "finding.js", "formatted.js", "forms.js",
              "gathered.js", "graphemes.js", "keys.js", "links.js", "local.js", "margin.js", "markdown.js", "notes.js",
              "others.js", "past.js", "people.js", "places.js", "present.js", "printing.js", "refused.js", "review.js", "said.js",
              "shown.js", "since.js", "state.js", "stretches.js", "suggesting.js", "threads.js", "unkept.js",
              "writers.js"]
LIBRARY = ["lib/codemirror.js", "lib/codemirror.css", "addon/search/searchcursor.js"]
# What one view needs alone: its address, its file, and the package of Debian's that has it.
MARKDOWN = "/markdownit.js", pathlib.Path("/usr/share/javascript/markdown-it/markdown-it.js"), "libjs-markdown-it"
TYPES = {".html": "text/html", ".js": "text/javascript", ".css": "text/css"}
SOCKET = "/socket"
AGAIN = re.compile(b"again ([0-9a-f]{64})")
Handler = Callable[[web.Request], Awaitable[web.StreamResponse]]
# By a note's name: the command of its engine, and what its environment is.
Commands = Callable[[str], tuple[Sequence[str], Mapping[str, str]]]
# The time to say the secret after connecting, which a page on a busy machine may need, and the most who may be about to; one more takes the
# place of the first of them.
SECRET_SECONDS, MOST_STRANGERS = 120, 16


def files() -> dict[str, pathlib.Path]:
    """The files that the page is made of, by their addresses."""
    found = {"/": HERE / "page.html"}
    found |= {f"/{name}": HERE / name for name in PAGE_FILES}
    found |= {f"/codemirror/{name}": CODEMIRROR / name for name in LIBRARY}
    for path in found.values():
        if not path.is_file():
            raise Trouble(f"The page needs {path}, which isn't here: install Debian's libjs-codemirror.")
    address, path, _ = MARKDOWN
    return found | {address: path}


def missing_package() -> str:
    """The package that the formatted view lacks."""
    _, path, package = MARKDOWN
    return "" if path.is_file() else package


@dataclass
class Page:
    """A note's page: where it is, what opens it, by which key a page that was open before knows it, the commands of the engines of
    this and other notes, and how the user is called at first."""

    note: str
    port: int
    secret: str
    key: str
    commands: Commands
    name: str
    open: "weakref.WeakSet[web.WebSocketResponse]" = field(default_factory=weakref.WeakSet)
    # Those who haven't said the secret yet, the first one first, and what they are reached by.
    strangers: dict[web.WebSocketResponse, asyncio.Transport | None] = field(default_factory=dict)

    def application(self) -> web.Application:
        """What answers requests."""
        application = web.Application(middlewares=[self._guard])
        for address, path in files().items():
            application.router.add_get(address, _handler(path), allow_head=False)
        application.router.add_get(SOCKET, self._connect, allow_head=False)
        application.on_response_prepare.append(self._rule)
        application.on_shutdown.append(self._shut)
        return application

    @web.middleware
    async def _guard(self, request: web.Request, handler: Handler) -> web.StreamResponse:
        if not guard.allows(request.headers, self.port, request.path == "/", request.path == SOCKET):
            raise web.HTTPForbidden(text="")
        return await handler(request)

    async def _rule(self, _: web.BaseRequest, response: web.StreamResponse) -> None:
        response.headers.update(guard.rules(self.port))
        response.headers["Server"] = "vialshoal"

    async def _shut(self, _: web.Application) -> None:
        await asyncio.gather(*(socket.close(code=WSCloseCode.GOING_AWAY) for socket in self.open))

    async def _connect(self, request: web.Request) -> web.StreamResponse:
        socket = web.WebSocketResponse(max_msg_size=MOST_MESSAGE, compress=False)
        await socket.prepare(request)
        self.strangers[socket] = request.transport
        self._push_out()
        try:
            if not await self._is_known(socket):
                await socket.close(code=WSCloseCode.POLICY_VIOLATION)
                return socket
        finally:
            self.strangers.pop(socket, None)
        self.open.add(socket)
        note = request.query.get("note", self.note)
        if note != self.note and not listing.is_listed(note):
            await socket.close(code=WSCloseCode.INTERNAL_ERROR, message=b"There is no such note here.")
            return socket
        welcome = {"notice": "welcome", "note": note, "name": self.name, "missing": missing_package(), "secret": self.secret,
                   "key": self.key}
        await socket.send_str(serialize(welcome).decode())
        await bridged(socket, *self.commands(note))
        return socket

    def _push_out(self) -> None:
        """Leaves room for whoever came last."""
        while len(self.strangers) > MOST_STRANGERS:
            first = next(iter(self.strangers))
            if transport := self.strangers.pop(first):
                transport.abort()

    async def _is_known(self, socket: web.WebSocketResponse) -> bool:
        """Whether a page says the secret, or shows that it has the key after the server has."""
        with contextlib.suppress(asyncio.TimeoutError):
            said = await self._said(socket)
            if not (again := AGAIN.fullmatch(said)):
                return guard.is_secret(said, self.secret)
            nonces = again[1].decode(), guard.new_page_key()
            shown = guard.proof(self.key, "server", self.port, *nonces)
            await socket.send_str(serialize({"notice": "known", "nonce": nonces[1], "proof": shown}).decode())
            return guard.is_secret(await self._said(socket), guard.proof(self.key, "page", self.port, *nonces))
        return False

    async def _said(self, socket: web.WebSocketResponse) -> bytes:
        """What a stranger says."""
        message = await asyncio.wait_for(socket.receive(), SECRET_SECONDS)
        return bytes(message.data) if message.type == WSMsgType.BINARY else b""


def _handler(path: pathlib.Path) -> Handler:
    async def handler(_: web.Request) -> web.StreamResponse:
        if not path.is_file():
            raise web.HTTPNotFound(text="")
        return web.Response(body=path.read_bytes(), content_type=TYPES[path.suffix], charset="utf-8")
    return handler


def listening(port: int) -> sockets.socket:
    """A socket on a port of the loopback, or with 0 on one that nobody has, for this account."""
    socket = OwnSocket(sockets.AF_INET, sockets.SOCK_STREAM)
    try:
        # Connections of the server of before may not be forgotten yet.
        socket.setsockopt(sockets.SOL_SOCKET, sockets.SO_REUSEADDR, 1)
        socket.bind((guard.ADDRESS, port))
        socket.listen(BACKLOG)
    except OSError:
        socket.close()
        raise
    socket.setblocking(False)
    return socket


async def serve_page(page: Page, socket: sockets.socket, ready: Callable[[], None]) -> None:
    """Serves a page until the process is told to end; calls when it can be opened."""
    # Whatever strangers send, the user's terminal isn't filled with it.
    quiet = logging.getLogger(__name__)
    quiet.setLevel(logging.CRITICAL)
    runner = web.AppRunner(page.application(), access_log=None, logger=quiet)
    await runner.setup()
    try:
        await web.SockSite(runner, socket).start()
        ends = asyncio.Event()
        for number in signal.SIGINT, signal.SIGTERM, signal.SIGHUP:
            asyncio.get_running_loop().add_signal_handler(number, ends.set)
        await asyncio.to_thread(ready)
        await ends.wait()
    finally:
        await runner.cleanup()
