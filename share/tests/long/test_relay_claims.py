"""Numbers of pages and terminals that cost what all pay: how long one is searched for is chance."""
import os
import unittest
from contextlib import closing

from share.format.second.form import SealedRecords
from share.format.second.key_link import link_of
from share.log.opening import opener_of
from share.tests.relays import RelayProcess
from share.tests.support import raws_of
from share.tests.test_relay_front import IS_HERE
from share.tests.test_relay_text import READY, AtText

if IS_HERE:
    from share.tests.browser import MIRROR


class Searched(AtText):
    """A relay's own page."""

    def setUp(self) -> None:
        super().setUp()
        self.relay.close()
        os.environ.pop("VIALSHOAL_ZERO_BITS", None)
        self.relay = RelayProcess(self.folder / "dear")
        self.addCleanup(self.relay.close)

    def test_two_browsers_and_a_terminal_type_under_numbers_that_were_searched_for(self) -> None:
        window, link = self.made_text()
        window.type("here")
        self.sent(window)
        other = self.browser.window_apart()
        self.addCleanup(self.leave, other)
        other.driver.get(link)
        other.wait_for(READY)
        other.shows("here")
        other.run(f"{MIRROR}.focus()")
        self.at_end(other)
        other.type(" and there")
        window.shows("here and there")
        self.sent(other)
        run = self.in_terminal("append", "picnic", ", too", link=link)
        self.assertEqual(run.returncode, 0, run.stderr)
        window.shows("here and there, too\n")
        form = SealedRecords(link_of(link).secret)
        with closing(opener_of(self.relay.url, form)()) as log:
            kinds = [form.open(raw or b"").kind.name for raw in raws_of(log)]
        self.assertEqual(kinds.count("CLAIM"), 2)
        self.assert_right(window, other)


if __name__ == "__main__":
    unittest.main()
