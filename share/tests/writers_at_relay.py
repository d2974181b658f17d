"""Pages of a note's relay, in Chromium and in Firefox, that somebody writes in. Each has the note by itself, is typed into offline, too,
and can be closed or killed at any moment."""
import pathlib

from share.format.second.key_link import read_key_link
from share.tests.browser import CLOCK_STANDS, MIRROR, Browser
from share.tests.firefox import FirefoxHere
from share.tests.processes import descendants
from share.tests.support import alive
from share.tests.writers import PageInChromium

TYPES_AT_RELAY = f"document.title !== 'Note' && !{MIRROR}.getOption('readOnly')"
IS_KEPT_OFFLINE = "navigator.serviceWorker.controller !== null"
# What can be seen of an error that nothing has caught.
HEARS_ERRORS = "void (window.errors = [], ['error', 'unhandledrejection'].forEach((kind) => " \
               "addEventListener(kind, (one) => window.errors.push(String(one.reason ?? one.message)))))"


class PageAtRelay(PageInChromium):
    """The page of the note's relay in a Chromium that has the same disk whenever it begins, and whose own clock ends no edit."""

    tag = "q"
    is_offline = False

    def start(self) -> None:
        self.is_offline = False
        self.begin_browser(self.data)
        self.open_page()

    def open_page(self) -> None:
        """Opens the note. A relay that is away keeps nobody from the page, once that is kept."""
        with self._driven():
            self._window.goes_to(read_key_link(self.link).page())
            self._window.wait_for(TYPES_AT_RELAY)
            self._window.wait_for(IS_KEPT_OFFLINE)
            self._window.run(HEARS_ERRORS)
            self._window.run(f"void {CLOCK_STANDS}")
            self._window.run(f"{MIRROR}.focus()")

    def close_tab(self) -> None:
        """Closes the page, whatever it is at, and opens the note in another tab."""
        with self._driven():
            self.take_another_tab()
        self.is_offline = False
        self.open_page()
        self._wait_until_it_types()

    def go_offline(self, is_offline: bool) -> None:
        """Has the page be offline, or no more."""
        with self._driven():
            self.cut_off(is_offline)
        self.is_offline = is_offline

    def errors(self) -> list[str]:
        """What went wrong in the page since it was opened."""
        found: list[str] = self._run("window.errors")
        return found

    def begin_browser(self, profile: pathlib.Path) -> None:
        """Begins it, with the profile of before."""
        self._browser = Browser(1100, 700, profile)
        self.case.addCleanup(self.close)
        self._window = self._browser.window()

    def take_another_tab(self) -> None:
        """Closes its tab, and has another one."""
        assert self._browser
        closed, self._window = self._window, self._browser.window()
        closed.close()

    def cut_off(self, is_offline: bool) -> None:
        """Has the browser's tab reach nobody, or all."""
        self._window.command("Network.enable")
        self._window.command("Network.emulateNetworkConditions", offline=is_offline, latency=0, downloadThroughput=-1, uploadThroughput=-1)


class FirefoxAtRelay(PageAtRelay):
    """The same in Firefox."""

    tag = "f"
    _firefox: FirefoxHere | None = None

    def begin_browser(self, profile: pathlib.Path) -> None:
        self._window = self._firefox = FirefoxHere(profile)
        self.case.addCleanup(self.close)

    def take_another_tab(self) -> None:
        self._window.open_another()

    def cut_off(self, is_offline: bool) -> None:
        self._window.cut_off(is_offline)

    def processes(self) -> list[int]:
        assert self._firefox
        return [self._firefox.process, *descendants(self._firefox.process)]

    def goes_on(self) -> bool:
        assert self._firefox
        return alive(self._firefox.process)

    def close(self) -> None:
        if browser := self._firefox:
            self._firefox = None
            browser.close()
