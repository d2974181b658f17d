"""Input methods in the page in Chromium: however a composition ends, what was composed is there once, and what others typed comes in."""
from __future__ import annotations

import os
import pathlib
import signal
import tempfile
import unittest
from typing import Any

from share.tests.pages import Pages, Server, kept
from share.tests.proved_files import give_up
from share.tests.support import engine_of, wait_for

try:
    from selenium.webdriver.common.action_chains import ActionChains
    from selenium.webdriver.common.keys import Keys

    from share.tests.browser import CHROMIUM, DRIVER, MIRROR, Browser, Window
    IS_HERE = bool(CHROMIUM and DRIVER)
except ModuleNotFoundError:
    IS_HERE = False

BROWSER: Browser
FIELD = f"{MIRROR}.getInputField()"
TOLD = "document.getElementById('told').textContent === words[0]"
# The browser that says of no composition that it has ended.
NO_END = """(window.noEnd = (event) => event.stopImmediatePropagation(),
  addEventListener("compositionend", noEnd, true))"""
WITH_END = "removeEventListener('compositionend', noEnd, true)"
# The clock that the page sees stands, on a busy machine too, and goes on by a minute.
NOW = "(window.clock ??= ((now) => () => now)(performance.now()), performance.now = () => clock())"
LATER = "(performance.now = () => clock() + 60000)"
# The page looks at the clock, as it does while others' text waits for what is composed.
LOOKS = "(window.looked = 0, performance.now = () => (looked += 1, clock()))"
LOOKS_LATER = LOOKS.replace("clock()", "clock() + 60000")
LOOKED = "window.looked > 2"
# CodeMirror knows that it was scrolled, and the browser's cursor is where CodeMirror has put it.
SCROLLED, IS_CURSOR_THERE = f"{MIRROR}.getScrollInfo().top === words[0]", f"!{MIRROR}.display.input.selectionChanged()"
# A browser that tells a composition from its midst on, and ends it by the words that it had.
FROM_ITS_MIDST = """((field, words) => {
  const tell = (kind) => field.dispatchEvent(new CompositionEvent(kind, { data: words, bubbles: true }));
  tell("compositionupdate");
  document.execCommand("insertText", false, words);
  tell("compositionend");
})(FIELD, arguments[0])""".replace("FIELD", FIELD)
# Its user goes away from the text and to a button at once.
AWAY_TO = """((button) => {
  document.activeElement.blur();
  document.getElementById(button).click();
})(arguments[0])"""


def setUpModule() -> None:
    """Starts one Chromium for all."""
    global BROWSER
    BROWSER = Browser()
    unittest.addModuleCleanup(BROWSER.close)


def compose(window: Window, *parts: str) -> None:
    """An input method composes, part by part; an empty one takes all back."""
    for part in parts:
        window.command("Input.imeSetComposition", text=part, selectionStart=len(part), selectionEnd=len(part))


def let_end(window: Window) -> None:
    """Has CodeMirror do what it does 20 ms after the focus came: it ends what is composed then. A page's timers end in the order of their
    times, so this one is the later one on however busy a machine."""
    window.driver.execute_async_script("setTimeout(arguments[0], 50)")


def click_on_line(window: Window, number: int) -> None:
    """Clicks on a line of the text, behind its end."""
    line = window.driver.find_elements("css selector", "#text .CodeMirror-line")[number]
    actions: Any = ActionChains
    actions(window.driver).move_to_element(line).click().perform()


class Composed(Pages):
    """Two windows of one person; in the first one an input method composes within `ab`, beside text of the second."""

    data: pathlib.Path
    server: Server
    first: Window
    second: Window

    @classmethod
    def setUpClass(cls) -> None:
        super().setUpClass()
        cls.data = pathlib.Path(tempfile.mkdtemp(prefix="share-"))
        cls.addClassCleanup(give_up, cls.data)
        cls.server = Server(cls.data, "--no-browser")
        cls.addClassCleanup(cls.server.close)
        cls.first, cls.second = BROWSER.open(cls.server.path), BROWSER.open(cls.server.path)
        cls.addClassCleanup(cls.second.close)
        cls.addClassCleanup(cls.first.close)

    def setUp(self) -> None:
        super().setUp()
        self.first.run(NOW)
        # The test before may have ended with this text, of which the other window would see too late that it is put anew.
        for text in "", "ab\ncd":
            self.first.run(f"{MIRROR}.setValue(arguments[0])", text)
            self.second.shows(text)
        self.first.run(f"{MIRROR}.focus()")
        self.first.to(1)
        let_end(self.first)

    def tearDown(self) -> None:
        self.assert_kept(self.data, self.first, self.second)
        self.assert_no_faults(self.first, self.second)

    def compose_beside_others(self, *parts: str) -> None:
        """The first window composes, and others' text waits for it."""
        compose(self.first, *parts)
        self.second.run(f"{MIRROR}.replaceRange('before ', {{ line: 0, ch: 0 }})")
        wait_for(lambda: kept(self.data).startswith("before "), "the other's text")
        self.assertEqual(self.first.text(), "ab\ncd")

    def show(self, text: str) -> None:
        """Both show a text, and what is typed then."""
        for window in self.first, self.second:
            window.shows(text)
        self.first.run(f"{MIRROR}.focus()")
        self.first.type(Keys.CONTROL, Keys.END, Keys.NULL, "!")
        self.second.shows(f"{text}!")

    def test_what_is_taken_back_leaves_nothing(self) -> None:
        self.compose_beside_others("k", "ka")
        compose(self.first, "")
        self.show("before ab\ncd")

    def test_what_is_typed_after_it_was_taken_back_is_there(self) -> None:
        compose(self.first, "k", "ka", "")
        self.first.type("xy")
        self.second.shows("axyb\ncd")

    def test_escape_ends_it(self) -> None:
        self.compose_beside_others("k", "ka")
        self.first.type(Keys.ESCAPE)
        self.show("before akab\ncd")

    def test_the_focus_goes(self) -> None:
        for goes in ("document.activeElement.blur()", "document.getElementById('name').focus()",
                     "(document.getElementById('text').hidden = true)"):
            with self.subTest(goes):
                self.compose_beside_others("k", "ka")
                self.first.run(goes)
                self.second.shows("before akab\ncd")
                self.first.run("(document.getElementById('text').hidden = false)")
                self.show("before akab\ncd")
                self.setUp()

    def test_a_click_elsewhere(self) -> None:
        self.compose_beside_others("k", "ka")
        self.first.click_on("header")
        self.show("before akab\ncd")

    def test_a_click_elsewhere_in_the_text(self) -> None:
        self.compose_beside_others("k", "ka")
        click_on_line(self.first, 1)
        self.show("before akab\ncd")

    def test_one_after_the_other(self) -> None:
        self.compose_beside_others("k", "ka")
        self.first.command("Input.insertText", text="\u6f22")
        compose(self.first, "j", "ji", "")
        self.show("before a\u6f22b\ncd")

    def test_one_that_is_told_from_its_midst(self) -> None:
        self.first.run(FROM_ITS_MIDST, "\u6f22")
        self.second.run(f"{MIRROR}.replaceRange('before ', {{ line: 0, ch: 0 }})")
        self.show("before a\u6f22b\ncd")

    def test_no_end_is_told(self) -> None:
        self.first.run(NO_END)
        self.addCleanup(self.first.run, WITH_END)
        # The next key isn't the input method's.
        self.compose_beside_others("k", "ka")
        self.first.command("Input.insertText", text="\u6f22")
        self.first.type(Keys.SHIFT)
        self.show("before a\u6f22b\ncd")

    def test_no_end_is_told_and_nothing_comes_after_it(self) -> None:
        self.first.run(NO_END)
        self.addCleanup(self.first.run, WITH_END)
        for parts, text in (("k", "ka", "\u6f22"), "before a\u6f22b\ncd"), (("k", "ka", ""), "before ab\ncd"):
            self.compose_beside_others(*parts[:2])
            if parts[2]:
                self.first.command("Input.insertText", text=parts[2])
            else:
                compose(self.first, "")
            self.first.run(LATER)
            self.addCleanup(self.first.run, NOW)
            self.show(text)
            self.first.run(NOW)
            self.setUp()

    def test_one_that_rests_for_long_is_ended_as_it_stands(self) -> None:
        self.compose_beside_others("k", "ka")
        self.first.run(LATER)
        self.addCleanup(self.first.run, NOW)
        self.first.shows("before akab\ncd")
        let_end(self.first)
        self.go_on_behind_it()

    def go_on_behind_it(self) -> None:
        """The input method goes on behind what was ended."""
        compose(self.first, "n")
        self.first.command("Input.insertText", text="\u6f22")
        self.show("before aka\u6f22b\ncd")

    def test_the_cursor_is_behind_what_is_ended_whenever_the_engine_answers(self) -> None:
        self.compose_beside_others("k", "ka")
        self.first.run(LOOKS)
        self.addCleanup(self.first.run, NOW)
        self.first.wait_for(LOOKED)
        # What comes from the engine has the page draw the cursor, and CodeMirror looks where the browser has it 20 ms after the focus came.
        engine = engine_of(self.data)
        os.kill(engine, signal.SIGSTOP)
        try:
            self.first.run(LATER)
            self.first.shows("akab\ncd")
            let_end(self.first)
        finally:
            os.kill(engine, signal.SIGCONT)
        self.first.shows("before akab\ncd")
        self.go_on_behind_it()

    def test_it_goes_on_while_there_are_signs_of_it(self) -> None:
        self.first.run(LATER)
        self.addCleanup(self.first.run, NOW)
        self.compose_beside_others("k", "ka", "kan")
        self.first.run(LOOKS_LATER)
        self.first.wait_for(LOOKED)
        self.assertEqual(self.first.text(), "ab\ncd")
        self.first.command("Input.insertText", text="\u6f22")
        self.show("before a\u6f22b\ncd")

    def test_what_is_told_of_others_text_leaves_it_there(self) -> None:
        self.second.run(f"{MIRROR}.replaceRange('before ', {{ line: 0, ch: 0 }})")
        self.first.shows("before ab\ncd")
        compose(self.first, "k", "ka")
        self.first.wait_for(TOLD, "Others changed line 1: before ab")
        self.second.run(f"{MIRROR}.replaceRange('too ', {{ line: 0, ch: 0 }})")
        self.first.command("Input.insertText", text="\u6f22")
        self.show("too before a\u6f22b\ncd")

    def test_a_button_is_pressed_at_once(self) -> None:
        for button, back in ("find", "found"), ("writers", "writers"), ("bold", ""), ("undo", "redo"):
            with self.subTest(button):
                compose(self.first, "k", "ka")
                self.first.run(AWAY_TO, button)
                if back:
                    self.first.press(back)
                self.first.shows("akab\ncd")
                self.second.shows("akab\ncd")
                self.setUp()

    def test_something_is_pasted(self) -> None:
        compose(self.first, "k", "ka")
        self.first.paste("pasted\n")
        self.show("akapasted\nb\ncd")

    def test_it_is_scrolled_away_in_a_text_that_isnt_all_in_the_page(self) -> None:
        lines = "\n".join(f"line {number}" for number in range(1_500))
        for scrolled in "scroll", "vscrollbar":
            with self.subTest(scrolled):
                self.first.run(f"{MIRROR}.setValue(arguments[0])", f"ab\n{lines}")
                self.second.shows(f"ab\n{lines}")
                self.first.run(f"{MIRROR}.scrollTo(null, 0)")
                self.first.to(1)
                self.first.wait_for(f"{SCROLLED} && {IS_CURSOR_THERE}", 0)
                let_end(self.first)
                compose(self.first, "k", "ka")
                # What is composed goes on where it is seen.
                self.first.run(f"{MIRROR}.getScrollerElement().scrollTop = 5")
                self.first.wait_for(SCROLLED, 5)
                compose(self.first, "kan")
                self.assertTrue(self.first.run(f"{MIRROR}.getValue().startsWith('ab')"))
                self.first.run(f"document.querySelector('#text .CodeMirror-{scrolled}').scrollTop = 9000")
                self.second.shows(f"akanb\n{lines}")
                self.first.shows(f"akanb\n{lines}")
                self.assertGreater(self.first.run(f"{MIRROR}.getScrollInfo().top"), 8000)

    def test_signs_that_stand_for_a_character(self) -> None:
        for text, at in ("x\ty", 2), ("x\t", 2), ("a\r", 2):
            self.first.run(f"{MIRROR}.setValue(arguments[0])", text)
            self.second.shows(text)
            self.first.to(at)
            compose(self.first, "k", "ka")
            self.first.run(LATER)
            self.addCleanup(self.first.run, NOW)
            self.second.run(f"{MIRROR}.replaceRange('before ', {{ line: 0, ch: 0 }})")
            for window in self.first, self.second:
                window.shows(f"before {text[:at]}ka{text[at:]}")
            self.first.run(NOW)


class CutOff(Pages):
    """One window, with a server of its own."""

    def test_what_was_composed_as_the_engine_ended_is_taken_over_by_the_next_one(self) -> None:
        data = self.folder / "data"
        server = Server(data, "--no-browser")
        self.addCleanup(server.close)
        window = BROWSER.open(server.path)
        self.addCleanup(window.close)
        self.addCleanup(window.run, "window.onbeforeunload = null")
        window.type("answered")
        wait_for(lambda: kept(data) == "answered", "the text to be kept")
        compose(window, " o", " or not")
        os.kill(engine_of(data), signal.SIGKILL)
        wait_for(lambda: kept(data) == "answered or not", "what was composed to be kept")
        window.type(" again")
        window.shows("answered or not again")
        self.assert_kept(data, window)
        self.assert_no_faults(window)


def load_tests(loader: unittest.TestLoader, tests: unittest.TestSuite, _: object) -> unittest.TestSuite:
    """The tests, where there is a browser."""
    if IS_HERE:
        return tests
    print("Chromium, its driver or python3-selenium isn't installed: tests of input methods in a browser are skipped.", flush=True)
    return loader.suiteClass([])


if __name__ == "__main__":
    unittest.main()
