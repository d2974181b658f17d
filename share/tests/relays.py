"""Relays for tests: in this process, in one of its own by the real command, or before a Redis server; and who speaks to one by hand."""
import asyncio
import os
import pathlib
import shutil
import signal
import subprocess
import sys
import threading
import unittest
from collections.abc import AsyncIterator, Sequence
from contextlib import asynccontextmanager
from functools import lru_cache
from unittest import mock

import aiohttp

from share.format.second.form import SealedRecords
from share.log.polling import can_read
from share.log.relay_messages import SOCKET_PATH, SUBPROTOCOL, MessageKind, Proof, read_challenge
from share.relay.door import Door
from share.relay.limits import Limits
from share.relay.options import RelayOptions
from share.relay.page_files import CORE_VARIABLE, PAGE_FOLDER
from share.relay.server import RelayServer, serve_relay
from share.relay.shelf import shelf_at
from share.tests.servers import RedisServer, held_port, port_of
from share.tests.support import NOTE, TOP
from share.tests.waiting import PATIENCE

# What bin/note does, whose page is that of a folder which its first word names.
WITH_PAGE = f"""import pathlib, sys
sys.path.insert(0, {str(TOP)!r})
from share.relay import page_files, server
page = pathlib.Path(sys.argv.pop(1))
server.PageFiles = lambda: page_files.PageFiles(page)
from share.cli.main import main
sys.exit(main())"""
# Keys of notes, with which their logs are opened.
KEY, OTHER_KEY = bytes(range(32)), bytes(32)


@lru_cache
def form_of(key: bytes = KEY) -> SealedRecords:
    """The records of the note of a key."""
    return SealedRecords(key, 0)


def record(number: int, key: bytes = KEY) -> bytes:
    """A right record of a note: a claim, whose number costs nothing."""
    form = form_of(key)
    return form.claim(number % 65_000 + 1, AUTHORS[key], number).raw


AUTHORS = {key: form_of(key).new_author() for key in (KEY, OTHER_KEY)}


def with_core(test: unittest.TestCase, core: str = "") -> None:
    """Relays of a test serve pages with this core, or the front page alone, which then shows what is known of a note."""
    here = mock.patch.dict(os.environ, {CORE_VARIABLE: core})
    here.start()
    test.addCleanup(here.stop)


def page_of_free_claims(folder: pathlib.Path) -> str:
    """Where the files are of a page for which a claim costs nothing, below a folder."""
    page = folder / "share" / "relay" / "site"
    shutil.copytree(PAGE_FOLDER, page)
    rank = page / "rank.js"
    rank.write_text(rank.read_text().replace("[65_528, 20]", "[65_528, 0]"))
    for beside in "share/editors", "library":
        (folder / beside).symlink_to(TOP / beside)
    return str(page)


class RelayHere:
    """A relay in a thread of this process, with a port of its own, which ends and begins again."""

    def __init__(self, folder: pathlib.Path, limits: Limits = Limits(), log: str = "", **options: object):
        self.folder, self._log = folder, log or str(folder)
        self._held = held_port()
        self.port = port_of(self._held)
        self.url = f"http://127.0.0.1:{self.port}"
        self._options = RelayOptions(f"127.0.0.1:{self.port}", limits=limits, **options)  # type: ignore[arg-type]
        # What the operator was told.
        self.said: list[str] = []
        self.relay: RelayServer
        self.start()

    def start(self) -> None:
        """Begins to serve what its folder has."""
        ready = threading.Event()
        self._thread = threading.Thread(target=lambda: asyncio.run(self._serve(ready)), daemon=True)
        self._thread.start()
        assert ready.wait(PATIENCE), "the relay doesn't begin"

    def stop(self) -> None:
        """Ends it, as somebody who ends its process does; all that it does first ends."""
        if self._thread.is_alive():
            self.loop.call_soon_threadsafe(self._ends.set)
            self._thread.join()

    def close(self) -> None:
        """Ends it for good."""
        self.stop()
        self._held.close()

    async def _serve(self, ready: threading.Event) -> None:
        self.loop, self._ends = asyncio.get_running_loop(), asyncio.Event()
        with shelf_at(self._log) as shelf, Door("127.0.0.1", self.port, self._options.limits.connections) as self.door:

            def begins(relay: RelayServer) -> None:
                self.relay = relay
                ready.set()

            await serve_relay(self._options, shelf, self.door, begins, self.said.append, self._ends)


class RelayProcess:
    """A relay by the real command, or with another page, which is killed and begins again."""

    def __init__(self, folder: pathlib.Path, *words: str, url: str = "", page: str = "", **environment: str):
        self.folder, self._words, self._environment = folder, words, environment
        self._command: Sequence[str] = [sys.executable, "-B", "-c", WITH_PAGE, page] if page else [NOTE]
        self._held = held_port()
        self.port = port_of(self._held)
        self.url = url.replace("PORT", str(self.port)) or f"http://127.0.0.1:{self.port}"
        self.start()

    def start(self) -> None:
        """Starts it."""
        own = ["--url", self.url] if self.url.startswith("https") else []
        words = ["relay", "--listen", f"127.0.0.1:{self.port}", "--log", str(self.folder), *own, *self._words]
        self.process = subprocess.Popen([*self._command, *words], env={**os.environ, **self._environment}, stdin=subprocess.DEVNULL,
                                        stdout=subprocess.PIPE, stderr=subprocess.PIPE, text=True)
        assert self.process.stdout and can_read(self.process.stdout, PATIENCE), "the relay says nothing"
        self.said = self.process.stdout.readline()

    def kill(self) -> None:
        """Kills it without a word."""
        self.process.kill()
        self.process.communicate()

    def end(self) -> str:
        """Ends it as a service is ended; what it told the operator."""
        self.process.send_signal(signal.SIGTERM)
        return self.process.communicate(timeout=PATIENCE)[1]

    def close(self) -> None:
        """Kills it for good."""
        self.kill()
        self._held.close()


class BehindRelay(RedisServer):
    """A Redis server that people reach by a relay alone, and its operator by himself."""

    def __init__(self, folder: pathlib.Path, *options: str):
        super().__init__(folder, *options)
        self.relay = RelayHere(folder / "relay", log=self.url)
        self.url = self.relay.url

    def close(self) -> None:
        self.relay.close()
        super().close()


@asynccontextmanager
async def talking(url: str, **options: object) -> AsyncIterator[aiohttp.ClientWebSocketResponse]:
    """A WebSocket to a relay, of which nothing was read yet."""
    async with aiohttp.ClientSession() as session:
        words = {"protocols": [SUBPROTOCOL], "max_msg_size": 2**22, **options}
        async with session.ws_connect(url + SOCKET_PATH, **words) as socket:  # type: ignore[arg-type]
            yield socket


async def proved(socket: aiohttp.ClientWebSocketResponse, url: str, form: SealedRecords | None = None) -> bytes:
    """What a relay says to whoever shows that he has a note's link."""
    form = form or form_of()
    challenge = read_challenge(await socket.receive_bytes())
    await socket.send_bytes(Proof(form.note, form.public, form.proof(challenge, url), url).spelled())
    return await socket.receive_bytes()


async def next_of(socket: aiohttp.ClientWebSocketResponse, kind: MessageKind) -> bytes:
    """The next message of a kind."""
    while True:
        if (data := await asyncio.wait_for(socket.receive_bytes(), PATIENCE))[0] == kind:
            return data
