"""A note's text in a relay's page in Firefox: shown by its link, beside an engine and an Emacs, and typed into offline."""
import os
import unittest
from unittest import mock

from share.format.second.key_link import read_key_link
from share.relay.page_files import CORE_VARIABLE
from share.tests.browser import CLOCK_STANDS, IS_SETTLED, MIRROR
from share.tests.editors import Engines
from share.tests.firefox import CONTROL, FIREFOX, FirefoxHere
from share.tests.relays import RelayProcess, page_of_free_claims
from share.tests.test_relay_text import CORE, MISSING, READY
from share.tests.writers import Emacs
from share.tests.writers_at_relay import HEARS_ERRORS, IS_KEPT_OFFLINE


@unittest.skipIf(MISSING, f"texts aren't shown here: {MISSING} is missing")
@unittest.skipUnless(FIREFOX, "there is no Firefox here")
class InFirefox(Engines):
    """A page, and others by the same relay."""

    def setUp(self) -> None:
        super().setUp()
        # How long a search for a number takes is chance.
        environment = mock.patch.dict(os.environ, {CORE_VARIABLE: CORE, "VIALSHOAL_ZERO_BITS": "0"})
        environment.start()
        self.addCleanup(environment.stop)
        self.relay = RelayProcess(self.folder / "kept", page=page_of_free_claims(self.folder / "served"))
        self.addCleanup(self.relay.close)

    def firefox(self) -> FirefoxHere:
        """A browser, which has the profile of the one before it."""
        browser = FirefoxHere(self.folder / "profile")
        self.addCleanup(browser.close)
        return browser

    def opens(self, browser: FirefoxHere, address: str) -> None:
        """Has a browser open a note's text, and goes to its end."""
        browser.goes_to(address)
        self.types_at_end(browser)

    @staticmethod
    def types_at_end(browser: FirefoxHere) -> None:
        """Goes to the end of the text, once one can type there; keys are one step of an undo however late they come."""
        browser.wait_for(READY)
        browser.run(HEARS_ERRORS)
        browser.run(f"void {CLOCK_STANDS}")
        browser.run(f"({MIRROR}.focus(), {MIRROR}.execCommand('goDocEnd'))")

    def shows(self, browser: FirefoxHere, text: str) -> None:
        """Waits until the page shows a text; nothing of it has failed."""
        browser.wait_for(f"{MIRROR}.getValue() === words[0]", text)
        self.assertEqual(browser.run("window.errors"), [])

    def state(self, browser: FirefoxHere, part: str) -> None:
        """Waits until the line of the page's state has some words."""
        browser.wait_for("document.getElementById('state').textContent.includes(words[0])", part)

    def test_a_link_shows_the_note_and_what_was_typed_offline_others_get(self) -> None:
        ann = self.editor("ann", log=self.relay.url)
        ann.gets_number()
        ann.type("By an engine. ")
        link = self.person("ann").link()
        browser = self.firefox()
        self.opens(browser, read_key_link(link).page())
        self.shows(browser, "By an engine. ")
        browser.type("By a page. ")
        ann.shows("By an engine. By a page. ")
        ann.edit((0, 2, "From"))
        self.shows(browser, "From an engine. By a page. ")
        browser.type(CONTROL, "z")
        ann.shows("From an engine. ")
        self.state(browser, "all sent")
        browser.wait_for(IS_KEPT_OFFLINE)
        self.relay.kill()
        self.state(browser, "offline")
        browser.type("Offline. ")
        browser.wait_for(IS_SETTLED)
        self.state(browser, "kept")
        # The tab is closed; the page itself is kept, too.
        browser.open_another()
        browser.goes_to(self.relay.url)
        browser.wait_for("document.querySelector('#list button')")
        browser.run("document.querySelector('#list button').click()")
        browser.wait_for("!document.getElementById('note').hidden")
        browser.run("document.getElementById('text').click()")
        self.types_at_end(browser)
        self.shows(browser, "From an engine. Offline. ")
        browser.type("Again. ")
        self.relay.start()
        ann.shows("From an engine. Offline. Again. ")
        self.state(browser, "all sent")
        # Somebody who joins by Emacs sees it, and is seen.
        emacs = Emacs(self, "bo", link)
        emacs.wait_for(lambda state: state.text == "From an engine. Offline. Again. ", "what was typed offline")
        emacs.go_to(1)
        emacs.type("An Emacs. ")
        self.shows(browser, "An Emacs. From an engine. Offline. Again. ")

    def test_what_was_answered_is_there_after_the_browser_was_killed(self) -> None:
        ann = self.editor("ann", log=self.relay.url)
        ann.gets_number()
        browser = self.firefox()
        address = read_key_link(self.person("ann").link()).page()
        self.opens(browser, address)
        self.relay.kill()
        self.state(browser, "offline")
        browser.type("typed and kept")
        browser.wait_for(IS_SETTLED)
        self.shows(browser, "typed and kept")
        browser.close()
        self.relay.start()
        browser = self.firefox()
        self.opens(browser, address)
        self.shows(browser, "typed and kept")
        ann.shows("typed and kept")


if __name__ == "__main__":
    unittest.main()
