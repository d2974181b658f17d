"""Somebody's WebSocket, who has proved to have a note's link: what he asks is done, and what goes to him waits here, within a bound."""
import asyncio
import contextlib
from collections.abc import Coroutine, Sequence
from typing import Any, NamedTuple

from aiohttp import WSCloseCode, WSMsgType, web

from share.log.relay_messages import (MOST_BYTES_OF_PAGE, MessageKind, Misspelled, Refusal, RelayPage, append_request, kept_message,
                                      read_presence_message, read_request)
from share.log.resp import SLOWEST
from share.relay.limits import Allowance
from share.relay.room import NotDone, NoteRoom

# The most requests that are being done at once, or whose answers wait to be sent; the most messages a second; and what one takes in memory
# beside its bytes.
MOST_REQUESTS, MESSAGES_A_SECOND, OVERHEAD_OF_MESSAGE = 8, 500.0, 100
# The most bytes that wait for somebody who reads slowly, beside what he asked for; and how long he may take for a message, beside the time
# for its bytes.
MOST_UNSENT, SLOWEST_SEND_SECONDS = 2**16, 60.0
# How long one who is let go may take for the word of it.
LET_GO_SECONDS = 5.0
# What waits for all together, before pages get small; and the least bytes of a page then.
MOST_UNSENT_OF_ALL, LEAST_PAGE = 2**26, 2**14


class Sending:
    """How many bytes wait for all who are connected."""

    def __init__(self) -> None:
        self.waiting = 0

    def room(self, asked: int) -> int:
        """The bytes of the page that somebody gets who asks for so many."""
        left = (MOST_UNSENT_OF_ALL - self.waiting) // 8
        return min(asked, max(LEAST_PAGE, min(left, MOST_BYTES_OF_PAGE)))


class Outgoing(NamedTuple):
    """A message that waits to be sent."""

    data: bytes
    is_pong: bool
    is_answer: bool


class Member:
    """Who is at a note by one WebSocket."""

    def __init__(self, socket: web.WebSocketResponse, address: str, room: NoteRoom, sending: Sending):
        self.address = address
        self.told_up_to: str | None = None
        self.knows_full = False
        self._socket, self._room, self._sending = socket, room, sending
        # What is to be sent, and how many bytes that is.
        self._queue, self._bytes = asyncio.Queue[Outgoing](), 0
        self._pace = Allowance(MESSAGES_A_SECOND)
        # What is being done of what was asked, and how much of that he doesn't have yet.
        self._requests, self._unanswered = set[asyncio.Task[None]](), 0

    async def run(self) -> None:
        """Answers until one of both ends."""
        writing, reading = asyncio.create_task(self._write()), asyncio.create_task(self._read())
        self._room.members.add(self)
        try:
            await asyncio.wait([writing, reading], return_when=asyncio.FIRST_COMPLETED)
        finally:
            self._room.members.discard(self)
            for task in writing, reading:
                task.cancel()
            # What he has asked to append goes on, and the others are told of it.
            await asyncio.gather(writing, reading, *self._requests, return_exceptions=True)
            self._sending.waiting -= self._bytes

    def has_room(self) -> bool:
        """Whether little waits for him."""
        return self._bytes <= MOST_UNSENT

    def tell(self, page: RelayPage) -> None:
        """Tells of new entries."""
        self._send(page.spelled())

    def pass_on(self, presence: bytes) -> None:
        """Hands on what somebody says of himself, unless too much waits."""
        if self.has_room():
            self._send(presence)

    def warn(self, refusal: Refusal) -> None:
        """Tells of something that others were refused."""
        self._send(refusal.spelled())

    async def _read(self) -> None:
        """Takes requests. It waits for nothing else, so that what comes doesn't pile up."""
        with contextlib.suppress(Misspelled):
            async for message in self._socket:
                if self._pace.wait(1, 0.0) is None:
                    break
                if message.type is WSMsgType.BINARY:
                    self._take(message.data)
                elif message.type is WSMsgType.PING and self.has_room():
                    self._send(message.data, is_pong=True)
                elif message.type not in (WSMsgType.PING, WSMsgType.PONG):
                    return
        closing = self._socket.close(code=WSCloseCode.POLICY_VIOLATION, message=b"That is no request, or there are too many.")
        with contextlib.suppress(asyncio.TimeoutError):
            await asyncio.wait_for(closing, LET_GO_SECONDS)

    def _take(self, data: bytes) -> None:
        match data[0] if data else None:
            case MessageKind.PRESENCE:
                self._room.pass_on(read_presence_message(data))
            case MessageKind.READ:
                asked = read_request(data)
                self._begin(asked.id, self._page(asked.id, asked.after, asked.most))
            case MessageKind.APPEND:
                appended = append_request(data)
                self._begin(appended.id, self._append(appended.id, appended.raws))
            case _:
                raise Misspelled

    def _begin(self, number: int, answering: Coroutine[Any, Any, bytes]) -> None:
        if self._unanswered >= MOST_REQUESTS:
            answering.close()
            raise Misspelled
        self._unanswered += 1
        task = asyncio.create_task(self._answer(number, answering))
        self._requests.add(task)
        task.add_done_callback(self._requests.discard)

    async def _answer(self, number: int, answering: Coroutine[Any, Any, bytes]) -> None:
        try:
            answer = await answering
        except NotDone as why:
            answer = Refusal(number, why.why, why.words).spelled()
        self._send(answer, is_answer=True)

    async def _page(self, number: int, after: str, most: int) -> bytes:
        if not most:
            return (await self._room.size(number, after)).spelled()
        # What it may get counts from now on: of many who ask at once each is answered later.
        granted = self._sending.room(most)
        self._sending.waiting += granted
        try:
            return (await self._room.read(self, number, after, granted)).spelled()
        finally:
            self._sending.waiting -= granted

    async def _append(self, number: int, raws: Sequence[bytes]) -> bytes:
        await self._room.append(self, raws)
        return kept_message(number)

    def _send(self, data: bytes, is_pong: bool = False, is_answer: bool = False) -> None:
        self._counts(len(data) + OVERHEAD_OF_MESSAGE)
        self._queue.put_nowait(Outgoing(data, is_pong, is_answer))

    def _counts(self, size: int) -> None:
        self._bytes += size
        self._sending.waiting += size

    async def _write(self) -> None:
        """Sends what waits; who takes it too slowly is let go."""
        with contextlib.suppress(ConnectionError, asyncio.TimeoutError):
            while True:
                one = await self._queue.get()
                sending = self._socket.pong(one.data) if one.is_pong else self._socket.send_bytes(one.data)
                await asyncio.wait_for(sending, SLOWEST_SEND_SECONDS + len(one.data) / SLOWEST)
                self._counts(-len(one.data) - OVERHEAD_OF_MESSAGE)
                self._unanswered -= one.is_answer
