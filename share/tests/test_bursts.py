"""Bursts of keys, as key repeat, an input method or a macro makes them, in a note with looks: all that was typed stays. What is refused all
the same is kept beside the text."""
import os
import random
import unittest
from typing import TYPE_CHECKING
from unittest import mock

from share.tests.bursting import PLANTS, Bursts
from share.tests.editors import Editor
from share.tests.pages import Pages, Server, is_fault
from share.tests.test_relay_front import IS_HERE, NO_ROOM
from share.tests.test_relay_text import KEEPING_IS_HELD, NO_ROOM_TOLD, AtText

if TYPE_CHECKING:
    from share.tests.browser import Window
if IS_HERE:
    from share.tests.browser import MIRROR, Browser

# Types characters one by one, in one task, each of which the page has taken over before the next one comes.
BURST = "(async (keys) => { for (const key of keys) await %s.replaceSelection(key, 'end', '+input'); })(arguments[0])"
ROUNDS = 3
KEYS = "abcdefghijklmnopqrst"
WORDS = "document.getElementById('words').textContent"
PUT_BACK = "[...document.querySelectorAll('#words button')].find((one) => one.textContent === 'Put it back')"
IS_BOLD = "document.querySelector('#text .CodeMirror-line [style*=bold]') !== null"
# The page doesn't say where the cursor is, as where it is so busy that it doesn't come to that: with that it would hand on what waits.
CURSOR_IS_HELD = """void ((begin) => {
  window.setTimeout = (does, ms, ...more) => (ms === 50 ? 0 : begin(does, ms, ...more));
})(window.setTimeout.bind(window))"""
# The next edit names a version that never was.
NAMES_NO_VERSION = """void ((send) => {
  WebSocket.prototype.send = function (data) {
    const words = new TextDecoder().decode(data);
    const isEdit = words.startsWith('{"do":"edit"');
    if (isEdit) WebSocket.prototype.send = send;
    send.call(this, isEdit ? new TextEncoder().encode(words.replace(/"version":\\d+/, '"version":1000000')) : data);
  };
})(WebSocket.prototype.send)"""


def types_at_once(window: "Window", keys: str) -> None:
    """Types all keys in one task."""
    window.run(BURST % MIRROR, keys)


def holds_keeping(window: "Window", is_held: bool) -> None:
    """Has nothing that is typed be kept in a relay's page, until that goes on."""
    window.run(KEEPING_IS_HELD if is_held else "void (window.keeps?.())")


def rounds_and_plants(bursts: Bursts) -> None:
    """Some rounds of bursts in which nothing is wrong, and some in which something is."""
    for _ in range(ROUNDS):
        bursts.round()
    for plant in PLANTS:
        try:
            bursts.round(plant)
        except AssertionError as why:
            assert "lacks" in str(why), why
        else:
            raise AssertionError(f"what was planted isn't seen: {plant}")
        bursts.begin_again()


def has_bold_word(window: "Window") -> None:
    """Has the text be "plain bold", of which the second word is bold, with the cursor at its begin."""
    window.paste("plain bold")
    window.shows("plain bold")
    window.select(6, 10)
    window.press("bold")
    window.wait_for(IS_BOLD)
    window.run(f"{MIRROR}.focus()")
    window.to(0)


class AtRelay(AtText):
    """In a relay's page."""

    seed = 91

    def rounds(self, bursts: Bursts) -> None:
        """Does some rounds."""
        rounds_and_plants(bursts)

    def test_keys_are_kept_that_wait_while_it_is_told_where_looks_are(self) -> None:
        window, link = self.made_text()
        has_bold_word(window)
        window.state("all sent")
        window.run(f"void (window.before = {MIRROR}.getAllMarks().find((one) => one.looks))")
        window.run(CURSOR_IS_HELD)
        window.run(KEEPING_IS_HELD)
        types_at_once(window, KEYS)
        # It is told, or something was refused.
        window.wait_for(f"!window.before.find() || {WORDS}")
        window.run("void window.keeps()")
        window.shows(f"{KEYS}plain bold")
        window.state("all sent")
        self.assertEqual((window.text(), window.run(WORDS)), (f"{KEYS}plain bold", ""))
        self.assertEqual(self.in_terminal("cat", "picnic", link=link).stdout, f"{KEYS}plain bold")
        self.assert_right(window)

    def test_what_a_full_disk_did_not_take_is_put_back(self) -> None:
        window, link = self.made_text()
        window.paste("one two")
        window.state("all sent")
        window.to(4)
        window.run("void (window.adds = IDBObjectStore.prototype.add)")
        window.run(NO_ROOM)
        types_at_once(window, "lost ")
        window.wait_for(NO_ROOM_TOLD)
        window.shows("one two")
        window.run("void (IDBObjectStore.prototype.add = window.adds)")
        window.wait_for(f"!{MIRROR}.getOption('readOnly')")
        self.at_end(window)
        window.paste(" three")
        window.click(PUT_BACK)
        window.shows("one lost two three")
        window.state("all sent")
        self.assertEqual(window.run(WORDS), "")
        self.assertEqual(self.in_terminal("cat", "picnic", link=link).stdout, "one lost two three")
        self.assert_right(window)

    def test_bursts_at_random_while_another_types(self) -> None:
        window, link = self.made_text()
        other = self.engine_of("Ann", link)
        other.gets_number()
        self.rounds(Bursts(window, other, random.Random(self.seed), lambda is_held: holds_keeping(window, is_held)))
        self.assert_right(window)


@unittest.skipUnless(IS_HERE, "there is no Chromium here")
class AtEngine(Pages):
    """In a local engine's page."""

    browser: "Browser"
    seed = 91

    def rounds(self, bursts: Bursts) -> None:
        """Does some rounds."""
        rounds_and_plants(bursts)

    @classmethod
    def setUpClass(cls) -> None:
        cls.browser = Browser()
        cls.addClassCleanup(cls.browser.close)

    def test_what_an_engine_refused_is_put_back(self) -> None:
        server = Server(self.folder / "data")
        self.addCleanup(server.close)
        window = self.browser.open(server.path)
        has_bold_word(window)
        window.run(NAMES_NO_VERSION)
        types_at_once(window, KEYS)
        window.wait_for(PUT_BACK)
        window.shows("plain bold")
        self.assertIn(KEYS, window.run(WORDS))
        window.to(10)
        window.type("er")
        window.click(PUT_BACK)
        window.shows(f"{KEYS}plain bolder")
        self.assertEqual(window.run(WORDS), "")
        self.assert_kept(self.folder / "data", window)
        self.assertEqual([line for line in window.told() if is_fault(line)], [])

    def test_keys_that_are_refused_one_by_one_stay_in_order(self) -> None:
        server = Server(self.folder / "data")
        self.addCleanup(server.close)
        window = self.browser.open(server.path)
        has_bold_word(window)
        for typed in "o", "on", "one":
            window.run(NAMES_NO_VERSION)
            types_at_once(window, typed[-1])
            window.wait_for(f"{WORDS}.includes('\u201c{typed}\u201d')")
            window.shows("plain bold")
        window.click(PUT_BACK)
        window.shows("oneplain bold")
        self.assertEqual(window.run(WORDS), "")
        self.assert_kept(self.folder / "data", window)

    def test_bursts_at_random_while_another_types(self) -> None:
        with mock.patch.dict(os.environ, VIALSHOAL_FORM="2", VIALSHOAL_ZERO_BITS="0"):
            server = Server(self.folder / "data")
            self.addCleanup(server.close)
            window, other = self.browser.open(server.path), Editor(self.folder / "data")
        self.addCleanup(other.close)
        self.rounds(Bursts(window, other, random.Random(self.seed)))
        self.assert_kept(self.folder / "data", window)


if __name__ == "__main__":
    unittest.main()
