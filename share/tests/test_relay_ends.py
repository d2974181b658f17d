"""A text in a relay's page whose browser is killed as two of its tabs type, or whose clock is set back."""
import contextlib
import os
import pathlib
import re
import signal
import tempfile
import unittest

from share.tests.processes import children
from share.tests.support import alive
from share.tests.test_relay_front import IS_HERE
from share.tests.test_relay_text import MESSAGES_KEPT, READY, SINCE, AtText
from share.tests.waiting import wait_for

if IS_HERE:
    from selenium.common.exceptions import WebDriverException

    from share.tests.browser import MIRROR, Browser

# Types words that nobody else types at the end, one after the other, without waiting for anything.
TYPES_WORDS = """void ((name) => {
  const cm = document.querySelector("#text .CodeMirror").CodeMirror;
  let many = 0;
  setInterval(() => {
    cm.replaceRange(`${name}${many}.`, { line: cm.lastLine() });
    many += 1;
  }, 15);
})(arguments[0])"""
# How much was kept as they are killed.
LEAST_KEPT = 100
# A clock that is an hour behind.
BEHIND = """window.Date = class extends Date {
  constructor(...given) {
    super(...(given.length ? given : [Date.now()]));
  }

  static now() {
    return super.now() - 3_600_000;
  }
};"""


class Killed(AtText):
    """Two tabs of a browser, which is killed."""

    def test_each_word_that_was_kept_is_there_once(self) -> None:
        with tempfile.TemporaryDirectory(prefix="share-profile-", ignore_cleanup_errors=True) as profile:
            browser = Browser(800, 600, pathlib.Path(profile))
            window = browser.window()
            window.driver.get(self.relay.url)
            window.wait_for("!document.getElementById('front').hidden")
            link = self.made(window, "killed")
            window.press("text")
            window.wait_for(READY)
            other = browser.window()
            other.driver.get(link)
            other.wait_for(READY)
            for name, tab in ("a", window), ("b", other):
                tab.run(TYPES_WORDS, name)
            kept = wait_for(lambda: max(0, window.run(MESSAGES_KEPT) - LEAST_KEPT), "words to be kept") + LEAST_KEPT
            killed = children(browser.driver.service.process.pid)
            for process in killed:
                os.kill(process, signal.SIGKILL)
            with contextlib.suppress(WebDriverException):
                browser.close()
            wait_for(lambda: not any(map(alive, killed)), "the browser to end")
            browser = Browser(800, 600, pathlib.Path(profile))
            self.addCleanup(browser.close)
            tabs = [browser.window() for _ in range(2)]
            for tab in tabs:
                tab.driver.get(link)
                tab.wait_for(READY)
                self.sent(tab)
            text = tabs[0].text()
            words = re.findall(r"([ab])([0-9]+)\.", text)
            self.assertEqual("".join(f"{name}{number}." for name, number in words), text)
            for who in "a", "b":
                numbers = [int(number) for name, number in words if name == who]
                self.assertEqual(numbers, [*range(len(numbers))])
                self.assertGreater(len(numbers), 0)
            self.assertGreaterEqual(len(words), kept)
            tabs[1].shows(text)
            self.assertEqual(self.in_terminal("cat", "killed", link=link).stdout, text)
            # Both go on.
            for name, tab in zip("ab", tabs):
                tab.run(f"{MIRROR}.replaceRange(arguments[0], {{ line: {MIRROR}.lastLine() }})", f"{name}!")
            wait_for(lambda: tabs[0].text() == tabs[1].text() and len(tabs[0].text()) == len(text) + 4, "both tabs to show the same")


class SetBack(AtText):
    """A browser's clock that is set back."""

    def test_what_is_typed_then_is_kept_and_shown_as_ever(self) -> None:
        window, link = self.made_text()
        window.paste("before. ")
        self.sent(window)
        window.press("changed")
        window.wait_for(f"{SINCE}.startsWith('1 change')")
        window.press("unchanged")
        behind = self.browser.window()
        self.addCleanup(self.leave, behind)
        behind.command("Page.enable")
        behind.command("Page.addScriptToEvaluateOnNewDocument", source=BEHIND)
        behind.driver.get(link)
        behind.wait_for(READY)
        behind.shows("before. ")
        behind.run(f"{MIRROR}.focus()")
        self.at_end(behind)
        behind.type("behind. ")
        self.sent(behind)
        window.shows("before. behind. ")
        window.run(f"{MIRROR}.focus()")
        self.at_end(window)
        window.type("again. ")
        behind.shows("before. behind. again. ")
        behind.press("history")
        behind.gives("document.getElementById('step').textContent", "step 3 of 3: you, 7 typed")
        behind.press("back")
        # Both are opened anew, also where the last look is an hour ahead.
        for tab in window, behind:
            tab.driver.refresh()
            tab.wait_for(READY)
            tab.shows("before. behind. again. ")
            tab.press("changed")
            tab.wait_for(f"{SINCE}.includes('since')")
            tab.press("unchanged")
        self.assertEqual(self.in_terminal("cat", "picnic", link=link).stdout, "before. behind. again. ")
        self.assert_right(window, behind)


if __name__ == "__main__":
    unittest.main()
