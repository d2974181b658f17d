"""What of a text in a relay's page is left out since another copy of its number holds the place: whoever typed it, or built on it, is told
and types it again, once."""
import itertools
import unittest
from contextlib import closing
from typing import TYPE_CHECKING

from share.format.chunk import packed
from share.format.entry import NO_HASH, Author
from share.format.second.form import SealedRecords
from share.format.second.key_link import link_of
from share.format.second.record import RecordKind
from share.format.second.signature import public_of
from share.log.opening import opener_of
from share.tests.naive import inserting
from share.tests.pages import is_fault
from share.tests.support import raws_of
from share.tests.test_relay_front import IS_HERE
from share.tests.test_relay_text import NUMBERS, PAST, READY, STEP, AtText
from share.tests.waiting import wait_for

if TYPE_CHECKING:
    from share.tests.browser import Window
if IS_HERE:
    from share.tests.browser import MIRROR

# The secret of who founded a note in this browser.
FOUNDER = NUMBERS.replace("(found.result[0].numbers ?? []).map(({ site, counter, secret }) => [site, String(counter), [...secret]])",
                          "[...found.result[0].author.secret]")
IS_LEFT_OUT = "document.getElementById('state').textContent.includes('left out')"


class Forked(AtText):
    """Two copies of a browser's numbers, of which the other one says what holds."""

    def outdoes(self, form: SealedRecords, window: "Window", seq: int) -> None:
        """Has the other copy of whoever founded a note in a browser say something else in the place of a message, by a lesser hash."""
        secret = bytes(window.run(FOUNDER))
        author = Author(public_of(secret), secret)
        with closing(opener_of(self.relay.url, form)()) as log:
            opened = [form.open(raw) for raw in raws_of(log) if raw]
            said = {message.seq: (one, message) for one in opened if one.kind is RecordKind.MESSAGES and one.author == author.name
                    for message in one.messages}
            record, message = said[seq]
            before = said[seq - 1][0].name_of(seq - 1) if seq > 1 else NO_HASH
            for number in itertools.count():
                cause, data = (message.site, message.at - 1), b"there%d" % number
                part = packed([inserting(message.site, seq, message.stamp, cause, message.at, data)], message.at)
                assert part
                other = form.messages(part, before, author)
                if other.name < record.name_of(seq):
                    log.append([other.raw])
                    return

    def types_again(self, window: "Window", told: str) -> None:
        """Has what a window's user typed be typed again, after the history was asked what that is."""
        window.press("history")
        window.press("later")
        window.gives(STEP, f"left out, since others hold its place: {told}")
        window.press("recover")
        window.wait_for(f"!{IS_LEFT_OUT}")
        window.wait_for("document.getElementById('past').hidden")
        self.sent(window)

    def test_who_typed_it_is_told_and_types_it_again(self) -> None:
        window, link = self.made_text()
        self.types_each(window, "both here")
        self.sent(window)
        # What was deleted again isn't told.
        self.types_each(window, "e\ue003")
        self.sent(window)
        self.outdoes(SealedRecords(link_of(link).secret, 0), window, len("both h"))
        window.wait_for(f"{MIRROR}.getValue().startsWith('both there')")
        other = window.text()
        window.state("left out: 4 of you")
        window.wait_for("document.getElementById('words').textContent.includes('4 characters of you. History shows')")
        # Under this number more could be lost.
        wait_for(lambda: window.run(NUMBERS), "another number")
        window.wait_for(READY)
        window.press("history")
        window.press("later")
        window.gives(PAST, "here\n")
        window.press("back")
        self.types_again(window, "4 characters of you")
        wanted = other.replace("both ", "both here")
        window.shows(wanted)
        window.run(f"{MIRROR}.focus()")
        self.at_end(window)
        window.type("!")
        self.sent(window)
        for words in ("cat", "picnic"), ("log", "picnic"):
            run = self.in_terminal(*words, link=link)
            self.assertEqual(run.returncode, 0, run.stderr)
            self.assertNotIn("left out", (run.stdout + run.stderr).lower())
        self.assertEqual(self.in_terminal("cat", "picnic", link=link).stdout, wanted + "!")
        # It is said once, and by another number from then on.
        window.driver.refresh()
        window.wait_for(READY)
        window.shows(wanted + "!")
        self.sent(window)
        self.assertFalse(window.run(IS_LEFT_OUT))
        self.assertEqual(len(window.run(NUMBERS)), 1)
        self.assertEqual([line for line in window.told() if is_fault(line)], [])

    def test_what_somebody_else_types_again_is_told_no_more(self) -> None:
        window, link = self.made_text()
        self.types_each(window, "both here")
        self.sent(window)
        self.outdoes(SealedRecords(link_of(link).secret, 0), window, len("both h"))
        window.state("left out: 4 of you")
        window.wait_for(f"{MIRROR}.getValue().startsWith('both there')")
        other = window.text()
        self.assertEqual(self.in_terminal("append", "picnic", "!", link=link).returncode, 0)
        run = self.in_terminal("recover", "--lost", "picnic")
        self.assertIn("Typed again: 4 characters", run.stdout + run.stderr)
        window.shows(other.replace("both ", "both here") + "!\n")
        window.wait_for(f"!{IS_LEFT_OUT}")
        self.sent(window)
        self.assertEqual([line for line in window.told() if is_fault(line)], [])

    def test_who_built_on_it_too(self) -> None:
        window, link = self.made_text()
        self.types_each(window, "both here")
        other = self.browser.window_apart()
        self.addCleanup(self.leave, other)
        other.driver.get(link)
        other.wait_for(READY)
        other.shows("both here")
        other.run(f"{MIRROR}.focus()")
        self.at_end(other)
        other.type(" and Ann")
        window.shows("both here and Ann")
        self.outdoes(SealedRecords(link_of(link).secret, 0), window, len("both h"))
        other.state("8 of you")
        window.state("4 of you")
        wait_for(lambda: len(other.run(NUMBERS)) == 2, "another number")
        other.wait_for(READY)
        text = other.text()
        self.assertRegex(text, r"\Aboth there\d+\Z")
        other.run(f"{MIRROR}.focus()")
        self.at_end(other)
        # What is typed under that stays.
        other.type("x")
        window.shows(f"{text}x")
        other.press("history")
        other.press("later")
        other.gives(PAST, "here\n and Ann\n")
        other.press("recover")
        window.shows(f"{text}x and Ann")
        wait_for(lambda: window.run(NUMBERS), "another number")
        window.wait_for(READY)
        window.wait_for("document.getElementById('state').textContent.endsWith('left out: 4 of you')")
        self.types_again(window, "4 characters of you")
        other.shows(f"{text}x and Ann".replace("both ", "both here"))
        other.wait_for(f"!{IS_LEFT_OUT}")
        self.assert_right(window, other)


if __name__ == "__main__":
    unittest.main()
