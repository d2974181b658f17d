"""Firefox without a screen, which is spoken to by WebDriver BiDi, as it brings it."""
import asyncio
import contextlib
import itertools
import json
import pathlib
import re
import shutil
import threading
import time
from collections.abc import AsyncIterator, Coroutine, Sequence
from contextlib import AsyncExitStack, asynccontextmanager
from typing import Any

import aiohttp

from share.tests.waiting import PATIENCE

FIREFOX = shutil.which("firefox-esr") or shutil.which("firefox") or ""
# Keys that no character names.
CONTROL, ENTER = "\ue009", "\ue007"
HELD = CONTROL
# One that was killed begins without its tabs of before, however often that was so, and without asking.
PREFERENCES = """user_pref("browser.sessionstore.resume_from_crash", false);
user_pref("toolkit.startup.max_resumed_crashes", -1);
"""
LISTENING = re.compile(rb"WebDriver BiDi listening on (ws://\S+)")


class Firefox:
    """A tab of it."""

    def __init__(self, line: aiohttp.ClientWebSocketResponse, process: int):
        self._line, self._numbers, self._tab = line, itertools.count(1), ""
        # By whose end the browser ends.
        self.process = process

    async def begin(self) -> None:
        """Opens the tab."""
        await self.ask("session.new", capabilities={})
        await self._open_tab()

    async def _open_tab(self) -> None:
        self._tab = (await self.ask("browsingContext.create", type="tab"))["context"]

    async def open_another(self) -> None:
        """Closes the tab, and opens another one."""
        closed = self._tab
        await self._open_tab()
        await self.ask("browsingContext.close", context=closed)

    async def cut_off(self, is_offline: bool) -> None:
        """Has the tab reach nobody, or all."""
        conditions = {"type": "offline"} if is_offline else None
        await self.ask("emulation.setNetworkConditions", contexts=[self._tab], networkConditions=conditions)

    async def ask(self, method: str, **words: object) -> Any:
        """What a command answers."""
        number = next(self._numbers)
        await self._line.send_json({"id": number, "method": method, "params": words})
        while True:
            message = await asyncio.wait_for(self._line.receive(), PATIENCE)
            if message.type is not aiohttp.WSMsgType.TEXT:
                raise ConnectionError("Firefox has ended")
            if (answer := message.json()).get("id") == number:
                assert answer["type"] == "success", answer
                return answer["result"]

    async def goes_to(self, address: str) -> None:
        """Has the tab show an address."""
        await self.ask("browsingContext.navigate", context=self._tab, url=address, wait="complete")

    async def run(self, script: str) -> Any:
        """What an expression of the page's gives, or a promise."""
        found = await self.ask("script.evaluate", expression=f"(async () => JSON.stringify(await ({script})))()", awaitPromise=True,
                               target={"context": self._tab})
        assert found["type"] == "success", found
        return json.loads(found["result"].get("value", "null"))

    async def wait_for(self, condition: str) -> None:
        """Waits until a condition of the page's holds."""
        end = time.monotonic() + PATIENCE
        while not await self.run(f"Promise.resolve({condition}).then(Boolean)"):
            assert time.monotonic() < end, f"{condition}; the page: {await self.run('document.body.innerText')!r}"
            await asyncio.sleep(0.05)

    async def type(self, keys: str) -> None:
        """Presses keys where the cursor is. One that only others make use of is held until the end."""
        held = [key for key in keys if key in HELD]
        presses = [{"type": kind, "value": key} for key in keys.replace("\n", ENTER)
                   for kind in (("keyDown",) if key in HELD else ("keyDown", "keyUp"))]
        actions = [*presses, *({"type": "keyUp", "value": key} for key in held)]
        await self.ask("input.performActions", context=self._tab, actions=[{"type": "key", "id": "keys", "actions": actions}])


@asynccontextmanager
async def firefox(profile: pathlib.Path) -> AsyncIterator[Firefox]:
    """One that runs meanwhile, with a profile of its own, and is killed then."""
    profile.mkdir(exist_ok=True)
    (profile / "user.js").write_text(PREFERENCES)
    words = ["--headless", "--no-remote", "--profile", str(profile), "--remote-debugging-port", "0"]
    process = await asyncio.create_subprocess_exec(FIREFOX, *words, stdout=asyncio.subprocess.DEVNULL, stderr=asyncio.subprocess.PIPE)
    try:
        assert process.stderr
        while not (found := LISTENING.search(line := await asyncio.wait_for(process.stderr.readline(), PATIENCE))):
            assert line, "Firefox has ended"
        async with aiohttp.ClientSession() as session, session.ws_connect(f"{found[1].decode()}/session", max_msg_size=0) as line_:
            one = Firefox(line_, process.pid)
            await one.begin()
            yield one
    finally:
        with contextlib.suppress(ProcessLookupError):
            process.kill()
        await process.wait()


class FirefoxHere:
    """One whose calls wait for their ends, with a profile of its own."""

    def __init__(self, profile: pathlib.Path):
        self._loop, self._opened = asyncio.new_event_loop(), AsyncExitStack()
        self._thread = threading.Thread(target=self._loop.run_forever, daemon=True)
        self._thread.start()
        try:
            self._tab: Firefox = self._ended(self._opened.enter_async_context(firefox(profile)))
        except BaseException:
            self._end_loop()
            raise

    def _ended(self, work: Coroutine[Any, Any, Any]) -> Any:
        """What comes of something."""
        return asyncio.run_coroutine_threadsafe(work, self._loop).result(2 * PATIENCE)

    def goes_to(self, address: str) -> None:
        """Has its tab show an address."""
        self._ended(self._tab.goes_to(address))

    def open_another(self) -> None:
        """Closes its tab, and opens another one."""
        self._ended(self._tab.open_another())

    def cut_off(self, is_offline: bool) -> None:
        """Has its tab reach nobody, or all."""
        self._ended(self._tab.cut_off(is_offline))

    def run(self, script: str, *words: object) -> Any:
        """What an expression of the page's gives, in which `words`, or `arguments`, are these."""
        return self._ended(self._tab.run(_given(script, words)))

    def wait_for(self, condition: str, *words: object) -> None:
        """Waits until a condition of the page's holds, in which `words` are these. What it looks at may not be there yet."""
        self._ended(self._tab.wait_for(f"(async () => {_given(condition, words)})().catch(() => false)"))

    def type(self, *keys: str) -> None:
        """Presses keys where the cursor is; one that only others make use of is held until the end."""
        self._ended(self._tab.type("".join(keys)))

    type_over = type

    @property
    def process(self) -> int:
        """By whose end it ends."""
        return self._tab.process

    def close(self) -> None:
        """Kills it, if that wasn't done."""
        if not self._loop.is_closed():
            self._ended(self._opened.aclose())
            self._end_loop()

    def _end_loop(self) -> None:
        self._loop.call_soon_threadsafe(self._loop.stop)
        self._thread.join()
        self._loop.close()


def _given(script: str, words: Sequence[object]) -> str:
    """An expression in which words are given."""
    return f"(function (...words) {{ return ({script}); }})(...{json.dumps(words)})"
