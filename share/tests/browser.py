"""Chromium, with pages of a note in windows of its own."""
import asyncio
import contextlib
import json
import pathlib
import shutil
from typing import Any

import aiohttp
from selenium import webdriver
from selenium.common.exceptions import (ElementClickInterceptedException, ElementNotInteractableException, JavascriptException,
                                        StaleElementReferenceException, WebDriverException)
from selenium.webdriver.chrome.service import Service
from selenium.webdriver.common.action_chains import ActionChains
from selenium.webdriver.common.by import By
from selenium.webdriver.common.keys import Keys
from selenium.webdriver.remote.remote_connection import RemoteConnection
from selenium.webdriver.remote.webelement import WebElement

from share.tests.waiting import PATIENCE, wait_for

CHROMIUM, DRIVER = shutil.which("chromium") or "", shutil.which("chromedriver") or ""
# As root there is no sandbox; windows behind others are to be as quick as the one in front.
WORDS = ["--headless=new", "--no-sandbox", "--disable-gpu", "--disable-dev-shm-usage", "--no-first-run",
         "--disable-background-timer-throttling", "--disable-renderer-backgrounding", "--disable-extensions",
         "--disable-backgrounding-occluded-windows", "--no-proxy-server"]
# What a condition looks at may not be there yet.
WAITING = """const [done, end] = [arguments[arguments.length - 1], Date.now() + 1000 * arguments[0]];
const words = arguments;
let why = "it isn't so";
const holds = () => {
  try {
    return CONDITION;
  } catch (wrong) {
    why = String(wrong);
    return false;
  }
};
let pause = 5;
(function look() {
  if (holds()) done(true);
  else if (Date.now() > end) done(why);
  else setTimeout(look, pause = Math.min(1.2 * pause, 100));
})();"""
# An element, once two frames in a row show it at the same place; a window that is behind others may draw none.
STILL = """const [done, end] = [arguments[arguments.length - 1], Date.now() + 1000 * arguments[0]];
const words = arguments;
const frame = () => new Promise((yes) => { requestAnimationFrame(yes); setTimeout(yes, 500); });
const place = (one) => ((box) => [box.x, box.y, box.width, box.height].join())(one.getBoundingClientRect());
(async () => {
  for (let before = [null, ""]; Date.now() < end;) {
    await frame();
    const found = FOUND;
    const now = [found ?? null, found ? place(found) : ""];
    if (found && before[0] === now[0] && before[1] === now[1]) return found;
    before = now;
  }
  return null;
})().then(done, (wrong) => done(String(wrong)));"""
# The page's clock stands still, and goes on: on a busy machine it could take what is composed for forgotten.
CLOCK_STANDS = "(performance.now = ((now) => () => now)(performance.now()))"
CLOCK_GOES_ON = "delete performance.now"
# Timers of these lengths, in ms, go by a clock of the test's own, and others by the browser's.
HOLDS_TIMERS = """((lengths) => {
  const { setTimeout, clearTimeout } = window;
  const { later, clear, held } = window.timers ??= { later: setTimeout, clear: clearTimeout, held: new Map(), now: 0, last: 0 };
  window.setTimeout = (call, length, ...words) => {
    if (!lengths.includes(length)) return later(call, length, ...words);
    window.timers.last -= 1;
    held.set(window.timers.last, { at: window.timers.now + length, call: () => call(...words) });
    return window.timers.last;
  };
  window.clearTimeout = (id) => { if (!held.delete(id)) clear(id); };
})(arguments[0])"""
TIMERS_RUN = """(({ later, clear, held }) => {
  Object.assign(window, { setTimeout: later, clearTimeout: clear });
  for (const { call } of held.values()) later(call, 0);
  held.clear();
})(window.timers)"""
TIME_GOES_ON = """((ms) => {
  const { held } = window.timers;
  window.timers.now += ms;
  for (const [id, { at, call }] of [...held]) if (at <= window.timers.now && held.delete(id)) call();
})(arguments[0])"""
IS_CLICKED = """((one) => {
  window.isClicked = false;
  one.addEventListener("click", () => { window.isClicked = true; }, { capture: true, once: true });
})(arguments[0])"""
# How often it is tried to start one: on a busy machine the driver gives up waiting for it, or somebody else gets the driver's port.
STARTS = 5
# So much is shown of a text where something is wrong.
MOST_SHOWN = 2_000
MIRROR = "document.querySelector('#text .CodeMirror').CodeMirror"
# The page has read what the browser has of its keys, and each edit is answered: it is on the disk. Whoever leaves it is asked before that.
IS_SETTLED = f"""(({{ composing, readDOMTimeout }}) => !composing && readDOMTimeout === null
  && dispatchEvent(new Event("beforeunload", {{ cancelable: true }})))({MIRROR}.display.input)"""


class Browser:
    """A Chromium without a screen."""

    def __init__(self, width: int = 640, height: int = 400, profile: pathlib.Path | None = None):
        options: Any = webdriver.ChromeOptions()
        options.binary_location = CHROMIUM
        for word in [*WORDS, f"--window-size={width},{height}", *([f"--user-data-dir={profile}"] if profile else [])]:
            options.add_argument(word)
        options.set_capability("goog:loggingPrefs", {"browser": "ALL"})
        # A driver that hangs would be waited for without end; a script may take twice the patience.
        connection: Any = RemoteConnection
        connection.set_timeout(3 * PATIENCE)
        self.driver: Any = _started(options)
        self.driver.set_script_timeout(2 * PATIENCE)
        self.size = width, height

    def window(self) -> "Window":
        """A new window."""
        self.driver.switch_to.new_window("window")
        self.driver.set_window_size(*self.size)
        return Window(self, self.driver.current_window_handle)

    def window_apart(self) -> "Window":
        """A new window of a user of its own: what the browser keeps for others it doesn't have."""
        target = asyncio.run(_opened_apart(self.driver.capabilities["goog:chromeOptions"]["debuggerAddress"]))
        window = Window(self, wait_for(lambda: next((one for one in self.driver.window_handles if target in one), ""), "the window"))
        window.driver.set_window_size(*self.size)
        return window

    def open(self, path: pathlib.Path) -> "Window":
        """A page that a file leads to, in a window of its own."""
        window = self.window()
        self.driver.get(path.as_uri())
        window.wait_for("typeof CodeMirror === 'function' && document.title !== 'Note' && !%s.getOption('readOnly')" % MIRROR)
        return window

    def close(self) -> None:
        """Ends it."""
        self.driver.quit()


def _started(options: Any) -> Any:
    """The driver of a browser that was started."""
    for _ in range(1, STARTS):
        with contextlib.suppress(WebDriverException):
            return webdriver.Chrome(service=Service(DRIVER), options=options)
    return webdriver.Chrome(service=Service(DRIVER), options=options)


async def _opened_apart(address: str) -> str:
    """The number of a window that a browser is told at this address to open for a user of its own."""
    async with aiohttp.ClientSession() as session:
        async with session.get(f"http://{address}/json/version") as about:
            way = (await about.json(content_type=None))["webSocketDebuggerUrl"]
        async with session.ws_connect(way) as line:

            async def asked(method: str, **words: object) -> Any:
                await line.send_json({"id": 1, "method": method, "params": words})
                while (answer := await line.receive_json()).get("id") != 1:
                    pass
                return answer["result"]

            user = await asked("Target.createBrowserContext")
            opened = await asked("Target.createTarget", url="about:blank", newWindow=True, browserContextId=user["browserContextId"])
            return str(opened["targetId"])


class Window:
    """A window, with a note's page."""

    def __init__(self, browser: Browser, handle: str):
        self._browser, self.handle = browser, handle

    @property
    def driver(self) -> Any:
        """The browser, with this window in front."""
        if self._browser.driver.current_window_handle != self.handle:
            self._browser.driver.switch_to.window(self.handle)
        return self._browser.driver

    def goes_to(self, address: str) -> None:
        """Has it show an address."""
        self.driver.get(address)

    def run(self, script: str, *words: object) -> Any:
        """What a script of the page gives."""
        return self.driver.execute_script(f"return {script}", *words)

    def wait_for(self, condition: str, *words: object) -> None:
        """Waits until a condition of the page's holds, in which `words` are these."""
        why = self._answered(WAITING.replace("CONDITION", condition.replace("words[", "words[1 + ")), *words)
        if why is not True:
            shown = self.run("document.body.innerText")[:MOST_SHOWN]
            raise AssertionError(f"waited {PATIENCE} seconds for {condition}, {str(words)[:MOST_SHOWN]}; {why}; the page: {shown!r}; "
                                 f"{self.told()}")

    def gives(self, script: str, value: object) -> None:
        """Waits until a script of the page's gives a value."""
        self.wait_for(f"JSON.stringify({script}) === JSON.stringify(words[0])", value)

    def _answered(self, script: str, *words: object) -> Any:
        """What a script answers at last, which is begun again where another page comes meanwhile."""
        while True:
            try:
                return self.driver.execute_async_script(script, PATIENCE, *words)
            except JavascriptException as why:
                if "unloaded" not in str(why):
                    raise

    def element(self, selector: str) -> WebElement:
        """An element."""
        return self.driver.find_element(By.CSS_SELECTOR, selector)

    def command(self, name: str, **words: object) -> Any:
        """What a command of the browser's developer tools answers."""
        return self.driver.execute_cdp_cmd(name, words)

    def type(self, *keys: str) -> None:
        """Presses keys where the cursor is."""
        self.driver.switch_to.active_element.send_keys(*keys)

    def type_over(self, *keys: str) -> None:
        """Presses keys where something is selected, which `type` gives up where the page wasn't in front."""
        actions: Any = ActionChains
        actions(self.driver).send_keys(*keys).perform()

    def chord(self, *keys: str) -> None:
        """Presses the last of these keys while the others are held."""
        actions: Any = ActionChains
        chord = actions(self.driver)
        for held in keys[:-1]:
            chord.key_down(held)
        chord.send_keys(keys[-1])
        for held in keys[:-1]:
            chord.key_up(held)
        chord.perform()

    def paste(self, text: str) -> None:
        """Pastes a text, as it would come from another program."""
        self.run("""((text) => {
            const clipboardData = new DataTransfer();
            clipboardData.setData("text/plain", text);
            document.activeElement.dispatchEvent(new ClipboardEvent("paste", { clipboardData, bubbles: true, cancelable: true }));
        })(arguments[0])""", text)

    def still(self, found: str, *words: object) -> WebElement:
        """The element that a script finds, in which `words` are these, once it is there and stands still."""
        one = self._answered(STILL.replace("FOUND", found.replace("words[", "words[1 + ")), *words)
        assert isinstance(one, WebElement), (found, words, one)
        return one

    def click(self, found: str, *words: object) -> None:
        """Clicks on what a script finds; once more where that was drawn anew, or moved away before the click was there."""
        def is_clicked() -> bool:
            with contextlib.suppress(StaleElementReferenceException, ElementClickInterceptedException, ElementNotInteractableException):
                one = self.still(found, *words)
                self.run(IS_CLICKED, one)
                one.click()
                # Where another page has come it was.
                return self.run("window.isClicked") is not False
            return False
        wait_for(is_clicked, f"a click on {found} {words}")

    def press(self, button: str) -> None:
        """Presses a button of the page."""
        self.click("document.getElementById(words[0])", button)

    def click_on(self, selector: str) -> None:
        """Clicks on an element."""
        self.click("document.querySelector(words[0])", selector)

    def click_with_control(self, selector: str) -> None:
        """Clicks on an element while Ctrl is held."""
        self.still("document.querySelector(words[0])", selector)
        actions: Any = ActionChains
        actions(self.driver).key_down(Keys.CONTROL).click(self.element(selector)).key_up(Keys.CONTROL).perform()

    def text(self) -> str:
        """The text. Half a surrogate pair, which the driver can't hand on, is spelled as in JSON meanwhile."""
        found: str = json.loads(self.run(f"JSON.stringify({MIRROR}.getValue())"))
        return found

    def shows(self, text: str) -> None:
        """Waits until the page shows a text."""
        self.wait_for(f"{MIRROR}.getValue() === words[0]", text)

    def settles(self) -> None:
        """Waits until all that was typed is in the text and on the disk."""
        self.wait_for(IS_SETTLED)

    def holds_timers(self, *lengths: int) -> None:
        """Has the page's timers of these lengths, in ms, go by a clock of the test's own, until it is loaded anew."""
        self.run(HOLDS_TIMERS, lengths)

    def time_goes_on(self, ms: int) -> None:
        """Has that clock go on, and call whose time has come."""
        self.run(TIME_GOES_ON, ms)

    def lets_timers_run(self) -> None:
        """Has all of the page's timers go by the browser's clock again; those that were held end at once."""
        self.run(TIMERS_RUN)

    def to(self, index: int) -> None:
        """Moves the cursor, as a click does."""
        self.run(f"{MIRROR}.setCursor({MIRROR}.posFromIndex(arguments[0]))", index)

    def select(self, begin: int, end: int) -> None:
        """Selects a stretch, as the mouse does."""
        places = ", ".join(f"{MIRROR}.posFromIndex(arguments[{number}])" for number in range(2))
        self.run(f"{MIRROR}.setSelection({places})", begin, end)

    def state(self, part: str) -> None:
        """Waits until the line of the page's state has some words."""
        self.wait_for("document.getElementById('state').textContent.includes(words[0])", part)

    def rename(self, name: str) -> None:
        """Gives the page's user this name."""
        self.run("document.getElementById('name').value = arguments[0]", name)
        self.run("document.getElementById('name').dispatchEvent(new Event('change'))")
        self.wait_for("[...document.querySelectorAll('#people li')].some((one) => one.textContent === words[0])", name)
        self.wait_for(f"!{MIRROR}.getOption('readOnly')")
        self.run(f"{MIRROR}.focus()")

    def told(self) -> list[str]:
        """What the browser says of the page's faults."""
        return [entry["message"] for entry in self.driver.get_log("browser")]

    def close(self) -> None:
        """Closes the window."""
        self.driver.close()
        self._browser.driver.switch_to.window(self._browser.driver.window_handles[0])
