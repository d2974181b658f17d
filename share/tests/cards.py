"""Remarks and suggestions in a page, by its cards, as somebody in Chromium makes and answers them."""
from __future__ import annotations

from contextlib import suppress

from share.tests.waiting import wait_for

try:
    from selenium.common.exceptions import StaleElementReferenceException
    from selenium.webdriver.common.keys import Keys

    from share.tests.browser import MIRROR, Window
except ModuleNotFoundError:
    pass

# What the cards say, one after the other.
CARDS = "[...document.querySelectorAll('.card')].map((one) => one.textContent)"
BUTTONS = "[...document.querySelectorAll('.card.active button')].filter((one) => one.checkVisibility())"
IS_IN_TEXT = "document.activeElement.getAttribute('role') === 'textbox'"
IS_WRITTEN = "document.activeElement.tagName === 'TEXTAREA'"
MARKED = """JSON.stringify([...document.querySelectorAll('main .remarked')].map((one) => one.textContent)) === JSON.stringify(words[0])"""
STATE = "document.querySelector('.card.active .state')?.textContent === words[0]"
# After how long, in ms, what is suggested is sent because one rests.
REST_MS = 4_000


class Cards:
    """What is done with cards."""

    def remark(self, window: Window, words: str, body: str) -> None:
        """Remarks on the first of these words."""
        at = window.text().index(words)
        window.run(f"{MIRROR}.focus()")
        window.select(at, at + len(words))
        window.chord(Keys.CONTROL, Keys.ALT, "m")
        window.wait_for(IS_WRITTEN)
        window.type(body, Keys.CONTROL, Keys.ENTER)
        window.wait_for(f"{IS_IN_TEXT} && !document.querySelector('.draft')")

    def suggest(self, window: Window, words: str, put: str, body: str = "") -> None:
        """Suggests something in the place of the first of these words."""
        at = window.text().index(words)
        window.run(f"{MIRROR}.focus()")
        window.select(at, at + len(words))
        window.chord(Keys.CONTROL, Keys.ALT, "s")
        window.wait_for("document.activeElement.tagName === 'TEXTAREA' && document.activeElement.value === words[0]", words)
        # What is typed replaces the passage, which is selected.
        window.type_over(put or Keys.DELETE)
        window.type(Keys.TAB)
        window.type(body, Keys.CONTROL, Keys.ENTER)
        window.wait_for(f"{IS_IN_TEXT} && !document.querySelector('.draft')")

    def card(self, window: Window, words: str) -> None:
        """Has a window's card be looked at that has these words, once it is there."""
        window.wait_for(f"{CARDS}.some((one) => one.includes(words[0]))", words)
        card = "[...document.querySelectorAll('.card')].find((one) => one.textContent.includes(words[0]))"
        window.click(f"{card}?.firstChild.firstChild", words)
        window.wait_for("document.querySelector('.card.active')?.textContent.includes(words[0])", words)

    @staticmethod
    def press(window: Window, what: str) -> None:
        """Presses a button of the card that is looked at."""
        window.click(f"{BUTTONS}.find((one) => one.textContent === words[0])", what)

    def write(self, window: Window, what: str) -> None:
        """Presses a button of the card that is looked at, by which one writes."""
        self.press(window, what)
        window.wait_for(IS_WRITTEN)

    def begin_reply(self, window: Window, words: str) -> None:
        """Has a reply begin to the card that has these words: where cards are just being moved to another width a click falls beside."""
        def is_begun() -> bool:
            if window.run("Boolean(document.querySelector('.card.active textarea'))"):
                return True
            self.card(window, words)
            reply = window.run(f"{BUTTONS}.find((one) => one.textContent === 'Reply')")
            with suppress(StaleElementReferenceException):
                if reply:
                    reply.click()
            return False
        wait_for(is_begun, "a reply that can be written")
