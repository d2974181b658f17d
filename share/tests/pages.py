"""What tests of the page stand on: its server, by the real command, and who talks to it."""
import asyncio
import json
import os
import pathlib
import re
import signal
import socket
import subprocess
from collections.abc import AsyncIterator
from contextlib import asynccontextmanager
from typing import TYPE_CHECKING, Any

import aiohttp

from share.log.polling import can_read
from share.tests.servers import held_port, port_of
from share.tests.support import NOTE, Case, Person, wait_for
from share.tests.waiting import PATIENCE
from share.text.rope import swapped

if TYPE_CHECKING:
    from share.tests.browser import Window

Line = dict[str, Any]
# What is too small for a finger, wider than the page, or hard to read.
FAULTS_OF_LOOKS = """((isPhone) => {
  const faults = [];
  const isSeen = (one) => one.checkVisibility() && one.getBoundingClientRect().width > 1;
  const shown = [...document.querySelectorAll('body *')].filter(isSeen);
  if (document.documentElement.scrollWidth > innerWidth) faults.push('wide');
  const touched = 'button, select, input:not([type=checkbox]), #finding label, #follow';
  for (const one of isPhone ? shown.filter((it) => it.matches(touched)) : []) {
    const { width, height } = one.getBoundingClientRect();
    if (width < 43.9 || height < 43.9) faults.push(`${one.id} ${width}x${height}`);
  }
  const canvas = document.createElement('canvas').getContext('2d', { willReadFrequently: true });
  const over = (below, colour) => {
    canvas.fillStyle = `rgb(${below.join(',')})`;
    canvas.fillRect(0, 0, 1, 1);
    canvas.fillStyle = colour;
    canvas.fillRect(0, 0, 1, 1);
    return [...canvas.getImageData(0, 0, 1, 1).data.slice(0, 3)];
  };
  const below = (one) => over(one.parentElement ? below(one.parentElement) : [255, 255, 255], getComputedStyle(one).backgroundColor);
  const light = (rgb) => rgb.map((one) => one / 255).map((one) => (one <= 0.03928 ? one / 12.92 : ((one + 0.055) / 1.055) ** 2.4))
    .reduce((sum, one, at) => sum + one * [0.2126, 0.7152, 0.0722][at], 0);
  for (const one of shown.filter((it) => [...it.childNodes].some((node) => node.nodeType === 3 && node.data.trim()))) {
    if (one.closest('.caret, .unseen, select') || one.disabled) continue;
    const paper = below(one);
    const [dark, pale] = [light(paper), light(over(paper, getComputedStyle(one).color))].sort();
    const contrast = (Math.max(dark, pale) + 0.05) / (Math.min(dark, pale) + 0.05);
    if (contrast < 4.5) faults.push(`${one.id || one.className || one.tagName} ${contrast}`);
  }
  const lines = document.querySelector('main .CodeMirror-lines');
  const measure = lines ? lines.getBoundingClientRect().width / parseFloat(getComputedStyle(lines).fontSize) : 0;
  if (measure > 46.01) faults.push(`${measure} em`);
  return faults;
})(arguments[0])"""
# Whether a window has a width, and light or dark colours.
LOOKS_SO = "innerWidth === words[0] && matchMedia(`(prefers-color-scheme: ${words[1]})`).matches"
FOUND = re.compile(r'url=(http://127\.0\.0\.1:(\d+)/#([0-9a-f]+))"')


def looks_well(window: "Window", is_phone: bool) -> None:
    """Waits until all of a page is laid out so that it can be read and touched."""
    faults = list[str]()

    def are_none() -> bool:
        faults[:] = window.run(FAULTS_OF_LOOKS, is_phone)
        return not faults
    try:
        wait_for(are_none, "nothing of the page to be too small, too wide or hard to read")
    except AssertionError as why:
        raise AssertionError(f"{why}: {faults}") from why


class Server:
    """The server of a note's page."""

    def __init__(self, data: pathlib.Path, *words: str, name: str = "note", command: str = NOTE,
                 **environment: str):
        variables = {**os.environ, "VIALSHOAL_DATA": str(data), **environment}
        self.process = subprocess.Popen([command, "web", name, "--new", *words], env=variables, stdin=subprocess.DEVNULL,
                                        stdout=subprocess.PIPE, text=True)
        assert self.process.stdout
        assert can_read(self.process.stdout, PATIENCE), "the server says nothing"
        self.said = self.process.stdout.readline()
        self.process.stdout.readline()
        shown = re.search(r"(/\S+\.html)", self.said)
        assert shown, self.said
        self.path = pathlib.Path(shown[1])
        found = FOUND.search(self.path.read_text(encoding="utf-8"))
        assert found
        self.address, port, self.secret = found.groups()
        self.port = int(port)
        self.host = f"127.0.0.1:{port}"

    def close(self, number: int = signal.SIGTERM) -> int:
        """Ends it; the status."""
        if self.process.poll() is None:
            self.process.send_signal(number)
        if self.process.stdout:
            self.process.stdout.close()
        return self.process.wait(PATIENCE)

    def get(self, path: str = "/", *headers: str, host: str | None = "") -> tuple[int, bytes, bytes]:
        """What is answered to a request with these header lines: the status, the headers and the rest."""
        lines = [f"GET {path} HTTP/1.1", *([] if host is None else [f"Host: {host or self.host}"]), *headers]
        return self.raw("\r\n".join([*lines, "Connection: close", "", ""]).encode())

    def raw(self, data: bytes, ends: bool = False) -> tuple[int, bytes, bytes]:
        """What is answered to these bytes, perhaps the last ones; the status is 0 where that is nothing."""
        with socket.create_connection(("127.0.0.1", self.port), PATIENCE) as line:
            line.sendall(data)
            if ends:
                line.shutdown(socket.SHUT_WR)
            answer = b""
            while part := line.recv(1 << 16):
                answer += part
        head, _, body = answer.partition(b"\r\n\r\n")
        return int(head.split()[1]) if head else 0, head, body


def is_fault(line: str) -> bool:
    """Whether what the browser says of a page is a fault of the page's, and no end of a server or an engine."""
    return "favicon" not in line and "WebSocket connection to" not in line


def kept(data: pathlib.Path) -> str:
    """What the note's file says."""
    return swapped(Person(data).text()).decode()


def keep_place(case: Case, data: pathlib.Path) -> int:
    """Has the server of a note's page find a port kept that nobody else gets while the test runs, also while no server is at it; which."""
    held = held_port()
    case.addCleanup(held.close)
    kept_at = data / "run" / "note.web"
    kept_at.parent.mkdir(parents=True, exist_ok=True)
    key = json.loads(kept_at.read_bytes())["key"] if kept_at.exists() else "5" * 64
    kept_at.write_text(json.dumps({"port": port_of(held), "key": key}))
    return port_of(held)


class Pages(Case):
    """A test of pages."""

    def assert_kept(self, data: pathlib.Path, *windows: "Window") -> None:
        """That windows show the same, which is what the note's file says."""
        def texts() -> list[str]:
            return [kept(data), *(window.text() for window in windows)]
        try:
            wait_for(lambda: len(set(texts())) == 1, "all to be the same")
        except AssertionError as why:
            raise AssertionError(f"{why}: {texts()}") from why

    def assert_no_faults(self, *windows: "Window") -> None:
        """That nothing of these pages broke their own rules, or failed."""
        self.assertEqual([line for window in windows for line in window.told() if is_fault(line)], [])


class Talk:
    """A WebSocket to a page's server, as lines."""

    def __init__(self, socket_: aiohttp.ClientWebSocketResponse):
        self.socket = socket_
        self.lines: list[Line] = []
        self._coming = b""
        self._asked = 0

    async def say(self, secret: str) -> None:
        """Says the secret."""
        await self.socket.send_bytes(secret.encode())

    async def send(self, line: Line) -> None:
        """Sends a line."""
        await self.socket.send_bytes(json.dumps(line).encode() + b"\n")

    async def receive(self) -> bool:
        """Takes in a message; whether there was one."""
        message = await asyncio.wait_for(self.socket.receive(), PATIENCE)
        if message.type == aiohttp.WSMsgType.TEXT:
            self.lines.append(message.json())
        elif message.type == aiohttp.WSMsgType.BINARY:
            *lines, self._coming = (self._coming + message.data).split(b"\n")
            self.lines += map(json.loads, lines)
        else:
            return False
        return True

    async def ask(self, what: str, **more: object) -> Line:
        """What a request is answered."""
        self._asked += 1
        await self.send({"do": what, "id": self._asked, **more})
        return await self.line(id=self._asked)

    async def line(self, **fields: object) -> Line:
        """The first line that has these fields, once it is there."""
        while True:
            for line in self.lines:
                if fields.items() <= line.items():
                    return line
            assert await self.receive(), f"the WebSocket has ended: {self.socket.close_code}; {self.lines}"

    async def code(self) -> int | None:
        """With which code it ends."""
        while await self.receive():
            pass
        return self.socket.close_code


@asynccontextmanager
async def talking(server: Server, secret: str | None = None, opens: bool = False, note: str | None = None,
                  **headers: str) -> AsyncIterator[Talk]:
    """A WebSocket with a page's headers, or these, on which the secret is said, or another; to another note, where one is named."""
    told = {"Host": server.host, "Origin": f"http://{server.host}", **headers}
    async with aiohttp.ClientSession() as session:
        async with session.ws_connect(f"http://{server.host}/socket", headers=told, max_msg_size=0,
                                      params={} if note is None else {"note": note}) as socket_:
            talk = Talk(socket_)
            if secret != "":
                await talk.say(server.secret if secret is None else secret)
            if opens:
                assert "error" not in await talk.ask("open", protocol=1, units=["utf-16"])
            yield talk
