"""A relay's page is closed, or its process ends, while the browser's disk is held up: each key that was shown is there afterwards."""
import contextlib
import unittest
from typing import TYPE_CHECKING

from share.tests.test_relay_front import IS_HERE
from share.tests.test_relay_text import READY, AtText

if TYPE_CHECKING:
    from share.tests.browser import Window
if IS_HERE:
    from selenium.common.exceptions import WebDriverException

    from share.tests.browser import MIRROR

# A transaction of what the browser keeps that doesn't end until `goesOn` is called: all others wait for it.
DISK_IS_HELD = """new Promise((done) => { indexedDB.open("vialshoal").onsuccess = ({ target: { result } }) => {
  const one = result.transaction(["notes", "entries", "you"], "readwrite").objectStore("you");
  let isHeld = true;
  window.goesOn = () => { isHeld = false; };
  (function goes() { one.get("none").onsuccess = () => { done(true); if (isHeld) goes(); }; })();
}; })"""
ASKS = """((event) => {
  dispatchEvent(event);
  return event.defaultPrevented;
})(new Event("beforeunload", { cancelable: true }))"""
KEYS = "abcd"


class TabClosed(AtText):
    """A tab that ends amid typing."""

    def page_of(self, link: str) -> "Window":
        """A window at the note, with the cursor at the end of the text."""
        window = self.at(link, READY)
        window.run(f"{MIRROR}.focus()")
        self.at_end(window)
        return window

    def held(self, window: "Window", keys: str) -> None:
        """Types keys while the disk is held up: the state says that they aren't kept, and whoever closes the page is asked."""
        window.run(DISK_IS_HELD)
        for key in keys:
            window.type(key)
        window.state(f"{len(keys)} edit{'s' if keys[1:] else ''} not kept yet")
        self.assertTrue(window.run(ASKS))

    def end(self, window: "Window", is_killed: bool) -> None:
        """Closes a window, or kills its process."""
        if is_killed:
            with contextlib.suppress(WebDriverException):
                window.command("Page.crash")
        window.close()

    def test_each_key_is_there_after_its_tab_was_closed_or_killed(self) -> None:
        window, link = self.made_text()
        window.state("all sent")
        text = ""
        for number, key in enumerate(KEYS):
            self.held(window, key)
            text += key
            self.end(window, is_killed=number % 2 == 1)
            window = self.page_of(link)
            window.shows(text)
        window.state("all sent")
        self.assertFalse(window.run(ASKS))
        self.assertEqual(window.run("Object.keys(localStorage).length"), 0)
        self.assertEqual(self.in_terminal("cat", "picnic", link=link).stdout, text)
        self.assert_right(window)

    def test_many_keys_are_there_in_their_order_and_once(self) -> None:
        window, link = self.made_text()
        window.state("all sent")
        for number, keys in enumerate(("the first words", " and others")):
            self.held(window, keys)
            self.end(window, is_killed=number == 1)
            window = self.page_of(link)
        window.shows("the first words and others")
        # What is held up and goes on is kept once.
        self.held(window, "!")
        window.run("void window.goesOn()")
        window.state("all sent")
        self.assertFalse(window.run(ASKS))
        other = self.page_of(link)
        other.shows("the first words and others!")
        self.assertEqual(self.in_terminal("cat", "picnic", link=link).stdout, "the first words and others!")
        self.assert_right(window, other)


if __name__ == "__main__":
    unittest.main()
