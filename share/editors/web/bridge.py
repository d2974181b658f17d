"""The way between a page's WebSocket and the note's engine: each WebSocket is one editor.

Lines are handed on as they are, in pieces; of those that come from a page only those that a page may send.
"""
import asyncio
import contextlib
from asyncio.subprocess import PIPE, Process
from collections.abc import AsyncIterator, Mapping, Sequence

from aiohttp import WSCloseCode, WSMsgType, web

from share.editors.web import listing
from share.engine.protocol import Wrong, parse, serialize
from share.text.line import PIECE, Assembler, Line

# What a page may ask for. It names no file: who has the secret alone is to reach notes and nothing else. `notes` is the bridge's own.
LIST = "notes"
REQUESTS = {"open", "edit", "undo", "redo", "looks", "cursor", "seen", "text", "on", "who", "history", "past", "close", "remarks", "remark",
            "suggest", "reply", "resolve", "reopen", "reject", "revise", "withdraw", "accept", "changed", LIST}
NO_FIELDS = {"path", "replace", "link", "log", "url"}
# The most bytes of a page's message, so that who hasn't said the secret can't fill the memory.
MOST_MESSAGE = 1 << 18
# The most bytes of a request for notes.
MOST_LIST_BYTES = 4_096
# What the engine's command says at its end, and how much of that a WebSocket's last words may be.
MOST_STDERR, MOST_REASON = 4_096, 120
# How long an engine's command may take to hand on what a page sent and end by itself, before it is killed.
END_SECONDS = 60


def page_refusal(data: bytes | None) -> Line | None:
    """What a page is answered whose line isn't handed on; None where it is. None is a line that was too long."""
    try:
        request = parse(data)
    except Wrong as why:
        return {"answer": "", "error": why.code, "words": str(why)}
    what = request.get("do")
    if isinstance(what, str) and what in REQUESTS and not NO_FIELDS & set(request):
        return None
    line: Line = {"answer": "", "error": "unknown", "words": "A page can't ask for that."}
    if type(request.get("id")) is int:
        line["id"] = request["id"]
    return line


def asked_words(line: bytes) -> Line | None:
    """A page's request for a list of notes; None where a line is another one."""
    request = parse(line) if len(line) < MOST_LIST_BYTES else {}
    return request if request.get("do") == LIST else None


def listed(request: Line) -> Line:
    """The answer to a request for notes, which takes a while where texts are searched."""
    words = request.get("words")
    return {"answer": LIST, "id": request.get("id"), "notes": listing.search_notes(words if isinstance(words, str) else "")}


async def messages(socket: web.WebSocketResponse) -> AsyncIterator[bytes]:
    """What a page sends, until it is something else than bytes."""
    async for message in socket:
        if message.type != WSMsgType.BINARY:
            break
        yield message.data


class Bridge:
    """One WebSocket, whose page has said the secret, with an engine's command for it alone.

    What the engine says goes to the page as it comes, in binary messages; a text message is a line of the bridge's own.
    """

    def __init__(self, socket: web.WebSocketResponse, engine: Process):
        self._socket, self._engine = socket, engine
        self._said = b""
        # Lists of notes that are to be made, one after the other.
        self._asked: asyncio.Queue[Line] = asyncio.Queue()

    async def run(self) -> None:
        """Hands on until one of both ends."""
        up, down, listening, lists = (asyncio.create_task(one) for one in (self._up(), self._down(), self._listen(), self._list()))
        try:
            await asyncio.wait([up, down], return_when=asyncio.FIRST_COMPLETED)
        finally:
            down.cancel()
            lists.cancel()
            await self._end_engine()
            await asyncio.wait([listening], timeout=1)
            up.cancel()
            listening.cancel()
            await asyncio.gather(up, down, listening, lists, return_exceptions=True)
        await self._close()

    async def _end_engine(self) -> None:
        """Ends the engine's command, after it has handed on what it has."""
        assert self._engine.stdin
        self._engine.stdin.close()
        try:
            await asyncio.wait_for(self._rest(), END_SECONDS)
        except asyncio.TimeoutError:
            self._engine.kill()

    async def _rest(self) -> None:
        """Lets what else the engine says go by."""
        assert self._engine.stdout
        while await self._engine.stdout.read(PIECE):
            pass
        await self._engine.wait()

    async def _close(self) -> None:
        """Says why, where the page is still there."""
        words = self._said.decode("utf-8", "replace").strip().rpartition("\n")[2].removeprefix("note: ")
        reason = (words or "The engine has ended.").encode()[:MOST_REASON].decode("utf-8", "ignore")
        with contextlib.suppress(ConnectionError, RuntimeError):
            await self._socket.close(code=WSCloseCode.INTERNAL_ERROR, message=reason.encode())

    async def _up(self) -> None:
        """From the page to the engine."""
        assert self._engine.stdin
        assembler = Assembler()
        async for data in messages(self._socket):
            for line in assembler.lines(data):
                answer = page_refusal(line)
                if answer is not None:
                    await self._socket.send_str(serialize(answer).decode())
                elif line is not None and (request := asked_words(line)):
                    self._asked.put_nowait(request)
                elif line is not None:
                    self._engine.stdin.write(line + b"\n")
            await self._engine.stdin.drain()

    async def _list(self) -> None:
        """Answers requests for notes."""
        while True:
            answer = await asyncio.to_thread(listed, await self._asked.get())
            with contextlib.suppress(ConnectionError, RuntimeError):
                await self._socket.send_str(serialize(answer).decode())

    async def _down(self) -> None:
        """From the engine to the page."""
        assert self._engine.stdout
        while data := await self._engine.stdout.read(PIECE):
            # What a page that is gone has sent before may still be on its way up.
            with contextlib.suppress(ConnectionError, RuntimeError):
                await self._socket.send_bytes(data)

    async def _listen(self) -> None:
        """Keeps what the engine's command says last."""
        assert self._engine.stderr
        while data := await self._engine.stderr.read(MOST_STDERR):
            self._said = (self._said + data)[-MOST_STDERR:]


async def bridged(socket: web.WebSocketResponse, command: Sequence[str], environment: Mapping[str, str]) -> None:
    """Is the way between a page and the engine that a command is the way to."""
    # Of a session of its own, so that Ctrl-C ends it by its line's end, when all has gone through.
    engine = await asyncio.create_subprocess_exec(*command, stdin=PIPE, stdout=PIPE, stderr=PIPE, limit=PIECE,
                                                  start_new_session=True, env=environment)
    await Bridge(socket, engine).run()
