"""A page of a local engine is closed, or its process ends, while the engine is held up: each key that was shown is there afterwards,
once."""
import contextlib
import hashlib
import os
import signal
import unittest
from typing import TYPE_CHECKING

from share.tests.pages import Pages, Server
from share.tests.support import engine_of
from share.tests.test_relay_front import IS_HERE
from share.tests.test_tab_closed import ASKS
from share.tests.waiting import wait_for

if TYPE_CHECKING:
    from share.tests.browser import Window
if IS_HERE:
    from selenium.common.exceptions import WebDriverException

    from share.tests.browser import MIRROR, Browser

KEYS = "abcdef"
# More keys than edits may be unanswered: the last ones are gathered.
MANY = "all of these keys, the last ones too"
UNKEPT = "Object.keys(localStorage).filter((name) => name.startsWith('vialshoal unkept'))"
DIGEST = """import("/digest.js").then(({ sha256 }) => { document.title = words.map(sha256).join(); })"""
WORDS = "document.getElementById('words').textContent"


@unittest.skipUnless(IS_HERE, "there is no Chromium here")
class PageClosed(Pages):
    """A tab that ends amid typing."""

    browser: "Browser"

    @classmethod
    def setUpClass(cls) -> None:
        cls.browser = Browser()
        cls.addClassCleanup(cls.browser.close)

    def setUp(self) -> None:
        super().setUp()
        self.data = self.folder / "data"
        self.server = Server(self.data)
        self.addCleanup(self.server.close)

    def page(self) -> "Window":
        """Return a window at the note, with the cursor at the end of the text."""
        window = self.browser.open(self.server.path)
        window.run(f"{MIRROR}.focus()")
        window.run(f"{MIRROR}.execCommand('goDocEnd')")
        return window

    def end(self, window: "Window", is_killed: bool) -> None:
        """Close a window, or kill its process."""
        if is_killed:
            with contextlib.suppress(WebDriverException):
                window.command("Page.crash")
        window.close()

    def ends_amid(self, window: "Window", keys: str, is_killed: bool) -> None:
        """Type keys while the engine doesn't answer. Whoever closes the page is asked. Then the tab ends."""
        before = window.text()
        window.type(keys)
        window.shows(before + keys)
        self.assertTrue(window.run(ASKS))
        self.end(window, is_killed)

    def test_each_key_is_there_after_its_tab_was_closed_or_killed(self) -> None:
        window, text = self.page(), ""
        for number, key in enumerate(KEYS):
            engine = engine_of(self.data)
            os.kill(engine, signal.SIGSTOP)
            self.ends_amid(window, key, is_killed=number % 2 == 1)
            text += key
            os.kill(engine, signal.SIGKILL if number % 3 == 2 else signal.SIGCONT)
            window = self.page()
            window.shows(text)
            window.run(f"{MIRROR}.execCommand('goDocEnd')")
        self.is_whole(window)

    def test_keys_of_two_tabs_are_taken_once_by_two(self) -> None:
        tabs = self.page(), self.page()
        tabs[0].type("1\n")
        tabs[1].shows("1\n")
        engine = engine_of(self.data)
        os.kill(engine, signal.SIGSTOP)
        for window, keys in zip(tabs, (MANY, MANY.upper())):
            window.run(f"{MIRROR}.focus()")
            window.run(f"{MIRROR}.execCommand('goDocEnd')")
            self.ends_amid(window, keys, is_killed=keys != MANY)
        os.kill(engine, signal.SIGCONT)
        tabs = self.page(), self.page()
        for window in tabs:
            window.wait_for(f"[{len(MANY) * 2 + 2}].includes({MIRROR}.getValue().length)")
        self.assertIn(tabs[0].text(), [f"1\n{MANY}{MANY.upper()}", f"1\n{MANY.upper()}{MANY}"])
        self.is_whole(*tabs)

    def test_a_tab_that_lives_hands_on_its_own(self) -> None:
        window = self.page()
        engine = engine_of(self.data)
        os.kill(engine, signal.SIGSTOP)
        window.type("own")
        self.assertEqual(len(window.run(UNKEPT)), 1)
        other = self.browser.window()
        other.goes_to(self.server.path.as_uri())
        os.kill(engine, signal.SIGCONT)
        for one in window, other:
            one.wait_for(f"{MIRROR}.getValue() === 'own'")
        self.is_whole(window, other)

    def test_what_cannot_be_read_is_set_aside(self) -> None:
        window = self.page()
        engine = engine_of(self.data)
        os.kill(engine, signal.SIGSTOP)
        window.run("localStorage.setItem('vialshoal unkept edits note 0-damaged', '{')")
        self.ends_amid(window, "kept", is_killed=False)
        os.kill(engine, signal.SIGCONT)
        window = self.page()
        window.shows("kept")
        window.wait_for(f"{WORDS}.includes('set aside')")
        self.is_whole(window)
        self.assertEqual(window.run("localStorage.getItem('vialshoal damaged edits vialshoal unkept edits note 0-damaged')"), "{")

    def test_the_digest_is_sha_256(self) -> None:
        window = self.page()
        words = ["a\u00e9\U0001f370x"[:1 + size % 4] * size for size in range(140)]
        window.run(f"void ((words) => {DIGEST})(arguments[0])", words)
        wanted = ",".join(hashlib.sha256(word.encode()).hexdigest() for word in words)
        window.wait_for("document.title === words[0]", wanted)

    def is_whole(self, *windows: "Window") -> None:
        """That nothing waits, windows show what the note's file has, and nothing failed."""
        for window in windows:
            window.settles()
            self.assertFalse(window.run(ASKS))
        wait_for(lambda: not windows[0].run(UNKEPT), "nothing to be unkept")
        self.assert_kept(self.data, *windows)
        self.assert_no_faults(*windows)


if __name__ == "__main__":
    unittest.main()
