"""A note's text in a relay's page, as a whole site in Chromium: beside others' engines, offline, killed, in two tabs, with a full disk."""
import base64
import contextlib
import http.server
import itertools
import os
import pathlib
import signal
import struct
import tempfile
import threading
import unittest
from collections.abc import Mapping
from contextlib import closing
from functools import partial
from typing import TYPE_CHECKING
from unittest import mock

from share.format.chunk import packed
from share.format.entry import NO_HASH
from share.format.second.claim import CLAIMED_BYTES, rank_of
from share.format.second.form import SealedRecords
from share.format.second.key_link import KeyLink, link_of, read_key_link
from share.format.second.keys import new_founding
from share.format.second.record import RecordKind
from share.format.second.signature import public_of
from share.log.opening import opener_of
from share.relay.page_files import core_path, missing_for_texts
from share.tests.pages import LOOKS_SO, Server, looks_well
from share.tests.processes import children
from share.tests.naive import inserting
from share.tests.relays import RelayHere, RelayProcess
from share.tests.support import alive, raws_of
from share.tests.test_relay_front import ALL_SENT, IS_HERE, NO_ROOM, Silent
from share.tests.test_relay_offline import REFUSED
from share.tests.test_relay_page import headers_in
from share.tests.test_relay_people import AtPage
from share.tests.test_relay_security import TappedLines, messages_of
from share.tests.waiting import wait_for
from share.tests.writers_at_relay import IS_KEPT_OFFLINE

if TYPE_CHECKING:
    from share.tests.browser import Window
if IS_HERE:
    from selenium.common.exceptions import WebDriverException

    from share.tests.browser import MIRROR, Browser

MISSING, CORE = missing_for_texts(), str(core_path() or "")
READY = ("typeof CodeMirror === 'function' && document.title !== 'Note' "
         "&& !document.querySelector('#text .CodeMirror').CodeMirror.getOption('readOnly')")
# How many messages the browser keeps, by the heads of its entries.
MESSAGES_KEPT = """new Promise((done) => { indexedDB.open("vialshoal").onsuccess = ({ target }) => {
  target.result.transaction("entries").objectStore("entries").getAll().onsuccess = ({ target: found }) => {
    target.result.close();
    done(found.result.filter(({ raw }) => raw[1] === 4).reduce((sum, { raw }) => sum + raw[57] * 256 + raw[58], 0));
  };
}; })"""
# The numbers that the browser has taken, with their claims' counters and their secrets.
NUMBERS = """new Promise((done) => { indexedDB.open("vialshoal").onsuccess = ({ target }) => {
  target.result.transaction("notes").objectStore("notes").getAll().onsuccess = ({ target: found }) => {
    target.result.close();
    done((found.result[0].numbers ?? []).map(({ site, counter, secret }) => [site, String(counter), [...secret]]));
  };
}; })"""
# How many entries it keeps that the relay may lack.
UNSENT = """new Promise((done) => { indexedDB.open("vialshoal").onsuccess = ({ target }) => {
  target.result.transaction("entries").objectStore("entries").index("unsent").count().onsuccess = ({ target: found }) => {
    target.result.close();
    done(found.result);
  };
}; })"""
HEADINGS = "[...document.querySelectorAll('#formatted h1, #formatted h2')].map((one) => one.textContent).join()"
PAST = "document.querySelector('#past-text .CodeMirror').CodeMirror.getValue()"
STEP, SINCE = (f"document.getElementById('{name}').textContent" for name in ("step", "since-words"))
NO_ROOM_TOLD = "document.getElementById('words').textContent.includes('no room left')"
# What the browser has kept isn't read any more until `reads` is called.
READING_IS_HELD = """void ((decrypt) => {
  const held = new Promise((done) => { window.reads = done; });
  SubtleCrypto.prototype.decrypt = async function (...given) {
    await held;
    return decrypt.apply(this, given);
  };
})(SubtleCrypto.prototype.decrypt)"""
# What is typed isn't kept any more until `keeps` is called.
KEEPING_IS_HELD = """void ((sign) => {
  const held = new Promise((done) => { window.keeps = done; });
  SubtleCrypto.prototype.sign = async function (...given) {
    await held;
    return sign.apply(this, given);
  };
})(SubtleCrypto.prototype.sign)"""
# How often all entries are read of what the browser has kept.
READS_ALL = """void ((getAll) => {
  window.readsAll = 0;
  IDBIndex.prototype.getAll = function (...given) {
    window.readsAll += Number(this.name === 'of');
    return getAll.apply(this, given);
  };
})(IDBIndex.prototype.getAll)"""
NEVER_ANSWERED = "StorageManager.prototype.persist = () => new Promise(() => {});"
ON = "[...document.querySelectorAll('#people li')].map((one) => one.textContent).sort().join()"
CARETS = "[...document.querySelectorAll('.caret b')].map((one) => one.textContent)"
# The first byte behind the number in a rank that isn't low.
LEAST_RANK = 64
# What a page has for its user to do.
CONTROLS = "button", "textbox", "combobox", "searchbox", "checkbox"
# What would do something if a page, or a program of it, read it as more than text.
HOSTILE = ("<img src=x onerror=\"document.title='obeyed'\"><script>document.title='obeyed'</script>\u202e\0\x1b[31m\r\n"
           "${document.title='obeyed'} javascript:alert(1) \U0001f44d\U0001f3fd \u00e9 \ufffe\n")


@unittest.skipIf(MISSING, f"texts aren't shown here: {MISSING} is missing")
class AtText(AtPage):
    """Pages of a note's text."""

    core = CORE

    def text_of(self, link: str) -> "Window":
        """A window that a link opened, once one can type there."""
        window = self.at(link, READY)
        window.run(f"{MIRROR}.focus()")
        return window

    def made_text(self, name: str = "picnic") -> tuple["Window", str]:
        """A window with the text of a note that was made there, and its link."""
        window = self.at()
        link = self.made(window, name)
        window.wait_for(ALL_SENT)
        window.press("text")
        window.wait_for(READY)
        window.run(f"{MIRROR}.focus()")
        return window, link

    @staticmethod
    def at_end(window: "Window") -> None:
        """Moves the cursor to the end."""
        window.run(f"{MIRROR}.execCommand('goDocEnd')")

    @staticmethod
    def types_each(window: "Window", keys: str) -> None:
        """Presses keys one after the other, each of which is a message of its own. Of several at once a page makes one where it is slow."""
        for key in keys:
            window.type(key)
            window.settles()

    @staticmethod
    def sent(window: "Window") -> None:
        """Waits until all that was typed is on the disk, and at the relay. The words for that are shown before it, too."""
        window.settles()
        wait_for(lambda: window.run(UNSENT) == 0, "all to be sent")
        window.state("all sent")


class Typed(AtText):
    """What is typed."""

    def test_a_page_and_an_engine_have_one_text(self) -> None:
        window, link = self.made_text()
        window.rename("Bea")
        ann = self.engine_of("Ann", link, colour="#123456")
        ann.gets_number()
        ann.type("from an engine\n")
        window.shows("from an engine\n")
        self.at_end(window)
        window.paste("from a page")
        ann.shows("from an engine\nfrom a page")
        self.sent(window)
        # Both see where the other one is, and are called as they say.
        ann.send({"do": "cursor", "version": ann.mirror.version, "at": 4})
        window.gives(CARETS, ["Ann"])
        window.gives(ON, "Ann,Bea")
        window.run(f"{MIRROR}.focus()")
        window.to(7)
        ann.wait_for(lambda: [(one["name"], one["at"]) for one in ann.mirror.cursors] == [("Bea", 7)], "the page's cursor")
        # An undo takes back what was typed here, and nobody else's text.
        ann.edit((0, 0, "More "))
        window.shows("More from an engine\nfrom a page")
        window.run(f"{MIRROR}.execCommand('undo')")
        ann.shows("More from an engine\n")
        window.run(f"{MIRROR}.execCommand('redo')")
        ann.shows("More from an engine\nfrom a page")
        window.press("writers")
        window.wait_for("document.getElementById('legend').textContent === 'AnnBea'")
        window.run(f"{MIRROR}.focus()")
        # A rewritten passage keeps what another put before it at the same time.
        window.select(5, 19)
        window.type_over("by an engine")
        ann.shows("More by an engine\nfrom a page")
        ann.close()
        window.gives(ON, "Bea")
        self.assert_right(window)

    def test_who_opens_a_link_sees_the_text_and_types_under_another_number(self) -> None:
        window, link = self.made_text()
        window.type("one")
        self.sent(window)
        other = self.text_of(link)
        other.shows("one")
        self.assertEqual(other.run("[location.hash.length, document.title]"), [33, "picnic"])
        self.at_end(other)
        other.type(" two")
        window.shows("one two")
        for _ in range(10):
            window.type("a")
            other.type("b")
        wait_for(lambda: window.text() == other.text() and len(window.text()) == 27, "both tabs to show the same")
        self.assertEqual(sorted(window.text()), sorted("one two" + "ab" * 10))
        for one in window, other:
            self.sent(one)
        # What each typed is by a number of its own, though the browser is one.
        self.assertEqual(self.engine_text(link), window.text())
        other.driver.refresh()
        other.wait_for(READY)
        other.shows(window.text())
        self.assert_right(window, other)

    def engine_text(self, link: str) -> str:
        """What an engine shows that reads all from the relay."""
        return self.in_terminal("cat", "picnic", link=link).stdout

    def test_what_is_undone_while_something_is_kept_is_kept_too(self) -> None:
        window, link = self.made_text()
        window.paste("kept")
        self.sent(window)
        window.run(KEEPING_IS_HELD)
        window.to(0)
        window.paste("more ")
        window.state("to be sent")
        window.run(f"{MIRROR}.execCommand('undo')")
        window.shows("kept")
        window.run("void window.keeps()")
        self.sent(window)
        self.assertEqual(self.engine_text(link), "kept")
        # So are looks.
        window.run(KEEPING_IS_HELD)
        self.at_end(window)
        window.paste(".")
        window.select(0, 4)
        window.press("bold")
        window.run("void window.keeps()")
        self.sent(window)
        other = self.at(link, "document.querySelectorAll('#text [style*=bold]').length === 1")
        self.assert_right(window, other)

    def test_a_renewed_note_shows_what_was_copied(self) -> None:
        window, link = self.made_text()
        window.paste("copied")
        self.sent(window)
        self.assertEqual(self.in_terminal("append", "picnic", ", too", link=link).returncode, 0)
        window.shows("copied, too\n")
        renewed = self.in_terminal("renew", "picnic", "--yes", "--form", "2", "--log", self.relay.url)
        self.assertEqual(renewed.returncode, 0, renewed.stderr)
        key_link = read_key_link(self.in_terminal("link", "picnic").stdout.strip())
        # Whoever has the link can make what looks like more of it.
        form, stray = SealedRecords(key_link.secret, 0), packed([inserting(9, 1, 1, None, 0, b"stray")])
        assert stray
        with closing(opener_of(self.relay.url, form)()) as log:
            log.append([form.base(stray, os.urandom(32)).raw])
        other = self.text_of(key_link.page())
        other.shows("copied, too\n")
        self.at_end(other)
        other.paste("and more")
        self.sent(other)
        self.assertEqual(self.in_terminal("cat", "picnic").stdout, "copied, too\nand more")
        # The page of before is told of it.
        window.state("renewed by")

    def test_what_a_note_begins_with_and_is_not_here_is_told(self) -> None:
        founding = new_founding(SealedRecords.author_of_any_note().name, 1, os.urandom(32))
        form = SealedRecords(founding.key(), 0)
        with closing(opener_of(self.relay.url, form)()) as log:
            log.append([form.opening(founding).raw])
        window = self.at(KeyLink("sealed", founding.key(), self.relay.url).page(),
                         "document.getElementById('words')?.textContent.includes('lacks some of what this note begins with')")
        self.assert_right(window)

    def test_in_another_browser_the_text_is_typed_into(self) -> None:
        """Of which nothing is here but the link."""
        window, link = self.made_text()
        window.type("here")
        self.sent(window)
        other = self.browser.window_apart()
        self.addCleanup(self.leave, other)
        other.driver.get(link)
        other.wait_for(READY)
        other.shows("here")
        other.run(f"{MIRROR}.focus()")
        self.at_end(other)
        other.type(" and there")
        window.shows("here and there")
        self.sent(other)
        self.assertEqual(other.run("document.title"), "Note 1")

    def test_hostile_text_is_text(self) -> None:
        window, link = self.made_text()
        ann = self.engine_of("<b>Ann</b>\u202e", link)
        ann.gets_number()
        ann.type(HOSTILE)
        window.wait_for(f"{MIRROR}.getValue().length === words[0]", len(HOSTILE.encode("utf-16-le")) // 2)
        self.assertEqual(window.text(), ann.text)
        self.at_end(window)
        window.paste("<b onclick='x'>pasted</b>\r\n")
        ann.shows(HOSTILE + "<b onclick='x'>pasted</b>\r\n")
        window.press("writers")
        window.wait_for("document.getElementById('legend').textContent.includes('<b>Ann</b>')")
        made = "document.querySelectorAll('#text img, #text script, #legend b').length"
        self.assertEqual(window.run(f"[document.title, {made}]"), ["picnic", 0])
        self.assert_right(window)


class Formatted(AtText):
    """The text as Markdown, formatted."""

    def test_the_text_is_formatted_also_offline_and_loads_nothing(self) -> None:
        window, _ = self.made_text()
        window.wait_for(IS_KEPT_OFFLINE)
        window.paste("# Picnic\n\n- tea\n- <img src=x onerror=\"document.title='obeyed'\">\n\n"
                     "![a picture](https://example.org/one.png)\n\n")
        window.press("format")
        window.wait_for(f"{HEADINGS} === 'Picnic'")
        self.assertEqual(window.run("['li', 'img', 'a'].map((one) => document.querySelectorAll(`#formatted ${one}`).length)"), [2, 0, 0])
        window.run(f"{MIRROR}.focus()")
        self.at_end(window)
        window.type("## More")
        window.wait_for(f"{HEADINGS} === 'Picnic,More'")
        window.settles()
        # What it is read by is kept once it was used.
        self.relay.kill()
        window.state("offline")
        window.driver.refresh()
        window.wait_for(READY)
        window.press("format")
        window.wait_for(f"{HEADINGS} === 'Picnic,More'")
        self.assertEqual(window.run("[document.title, performance.getEntriesByType('resource').map(({ name }) => new URL(name).origin)"
                                    ".filter((one) => one !== location.origin)]"), ["picnic", []])
        self.assert_right(window)


class Before(AtText):
    """The text as it was, and what has changed since."""

    def test_the_history_shows_each_step_and_who_wrote_what(self) -> None:
        window, link = self.made_text()
        window.rename("Bea")
        window.type("mine")
        self.sent(window)
        ann = self.engine_of("Ann", link, colour="#123456")
        ann.gets_number()
        ann.wait_for(lambda: ann.text == "mine", "the page's text")
        ann.edit((0, 0, "Theirs \U0001f44d\n"))
        window.shows("Theirs \U0001f44d\nmine")
        window.select(0, 1)
        window.type_over("t")
        window.shows("theirs \U0001f44d\nmine")
        ann.shows("theirs \U0001f44d\nmine")
        window.press("history")
        window.gives(PAST, "theirs \U0001f44d\nmine")
        window.gives(STEP, "step 4 of 4: Bea, 1 typed")
        for step, past in (("step 3 of 4: Bea, 1 deleted", "heirs \U0001f44d\nmine"),
                           ("step 2 of 4: Ann, 12 typed", "Theirs \U0001f44d\nmine"), ("step 1 of 4: Bea, 4 typed", "mine"),
                           ("at the beginning, of 4 steps", "")):
            window.press("earlier")
            window.gives(PAST, past)
            window.gives(STEP, step)
        window.press("later")
        window.press("later")
        # Of two writers, in two colours.
        window.gives("[0, 1].map((one) => [...document.querySelectorAll(`#past-text .of-${one}`)].map((it) => it.textContent).join('|'))",
                     ["mine", "Theirs \U0001f44d"])
        window.gives("[...document.querySelectorAll('#authors li')].map((one) => one.textContent)", ["Ann", "Bea"])
        # What has changed since then.
        window.press("since-here")
        window.gives(SINCE, "2 changes since that place of the history")
        window.gives("[...document.querySelectorAll('#text .went')].map((one) => one.dataset.went)", ["T"])
        window.gives("[...document.querySelectorAll('#text .came')].map((one) => one.textContent)", ["t"])
        # Others' text comes meanwhile.
        ann.edit((0, 0, "More "))
        window.shows("More theirs \U0001f44d\nmine")
        window.press("unchanged")
        self.assert_right(window)

    def test_what_does_not_count_is_told_and_shown(self) -> None:
        window, link = self.made_text()
        window.type("counts")
        self.sent(window)
        form = SealedRecords(link_of(link).secret, 0)
        with closing(opener_of(self.relay.url, form)()) as log:
            opened = (form.open(raw) for raw in raws_of(log) if raw)
            site = next(one.site for one in opened if one.kind is RecordKind.MESSAGES)
            # Somebody types under the founder's number.
            author, parts = form.new_author(), [packed([inserting(site, 1, 1, None, 0, b"not ")]),
                                                packed([inserting(site, 2, 2, (site, 3), 4, b"his\r")], 4)]
            assert parts[0] and parts[1]
            first = form.messages(parts[0], NO_HASH, author)
            log.append([first.raw])
            window.state(f"left out: 4 of site {site}")
            window.run(READS_ALL)
            log.append([form.messages(parts[1], first.name, author).raw])
        window.state(f"left out: 8 of site {site}")
        # What was read before isn't read again.
        self.assertEqual(window.run("window.readsAll"), 0)
        window.shows("counts")
        window.press("history")
        window.gives(STEP, "step 1 of 1: you, 6 typed")
        window.press("later")
        window.gives(STEP, f"left out, since others hold its place: 8 characters of site {site}")
        window.gives(PAST, "not his\n")
        self.assert_right(window)

    def test_what_has_changed_since_the_user_looked(self) -> None:
        window, link = self.made_text()
        window.paste("one two three")
        self.sent(window)
        looked = "new Promise((done) => { indexedDB.open('vialshoal').onsuccess = ({ target }) => { " \
            "target.result.transaction('notes').objectStore('notes').getAll().onsuccess = ({ target: found }) => { " \
            "target.result.close(); done(found.result.map(({ looked }) => looked?.fronts.flat()[1] ?? 0)[0]); }; }; })"
        # What is pasted is one message.
        wait_for(lambda: window.run(looked) == 1, "the look to be kept")
        window.press("changed")
        window.gives(SINCE, "1 change since the note began")
        window.close()
        ann = self.engine_of("Ann", link)
        ann.gets_number()
        ann.wait_for(lambda: ann.text == "one two three", "the page's text")
        ann.edit((4, 7, "2"))
        ann.edit((0, 0, "From Ann: "))
        window = self.text_of(link)
        window.shows("From Ann: one 2 three")
        window.press("changed")
        window.wait_for(f"{SINCE}.startsWith('3 changes since you looked, ')")
        window.gives("[...document.querySelectorAll('#text .came')].map((one) => one.textContent)", ["From Ann: ", "2"])
        window.gives("[...document.querySelectorAll('#text .went')].map((one) => one.dataset.went)", ["two"])
        window.gives("[...document.querySelectorAll('#changers li')].map((one) => one.textContent).sort()", ["Ann", "you"])
        # They move with the text.
        ann.edit((0, 0, "x\n"))
        window.shows("x\nFrom Ann: one 2 three")
        window.gives("[...document.querySelectorAll('#text .came')].map((one) => one.textContent)", ["From Ann: ", "2"])
        self.assert_right(window)


class Kept(AtText):
    """What a browser's disk has."""

    def test_typed_offline_closed_and_opened_it_is_sent(self) -> None:
        window, link = self.made_text()
        window.wait_for(IS_KEPT_OFFLINE)
        window.type("before. ")
        self.sent(window)
        self.relay.kill()
        window.state("offline")
        window.type("offline. ")
        window.settles()
        window.state("kept")
        window.close()
        # The page itself is kept, too.
        window = self.at()
        window.click_on("#list button")
        window.wait_for("!document.getElementById('note').hidden")
        window.press("text")
        window.wait_for(READY)
        window.shows("before. offline. ")
        window.run(f"{MIRROR}.focus()")
        self.at_end(window)
        window.type("again. ")
        self.relay.start()
        self.sent(window)
        self.assertEqual(self.in_terminal("cat", "picnic", link=link).stdout, "before. offline. again. ")

    def test_what_was_answered_is_there_after_the_browser_was_killed(self) -> None:
        with tempfile.TemporaryDirectory(prefix="share-profile-", ignore_cleanup_errors=True) as profile:
            browser = Browser(800, 600, pathlib.Path(profile))
            window = browser.window()
            window.driver.get(self.relay.url)
            window.wait_for("!document.getElementById('front').hidden")
            link = self.made(window, "killed")
            window.wait_for(ALL_SENT)
            window.press("text")
            window.wait_for(READY)
            window.run(f"{MIRROR}.focus()")
            self.relay.kill()
            window.state("offline")
            window.type("typed and kept")
            # All of it is on the disk, and nothing is sent.
            window.settles()
            killed = children(browser.driver.service.process.pid)
            for process in killed:
                os.kill(process, signal.SIGKILL)
            with contextlib.suppress(WebDriverException):
                browser.close()
            wait_for(lambda: not any(map(alive, killed)), "the browser to end")
            self.relay.start()
            browser = Browser(800, 600, pathlib.Path(profile))
            self.addCleanup(browser.close)
            window = browser.window()
            window.driver.get(link)
            window.wait_for(READY)
            window.shows("typed and kept")
            self.sent(window)
            self.assertEqual(self.in_terminal("cat", "killed", link=link).stdout, "typed and kept")

    def test_what_a_full_disk_did_not_take_is_taken_out_in_words(self) -> None:
        window, _ = self.made_text()
        # (pasted, so that each is one message)
        window.paste("kept")
        self.sent(window)
        window.run("void (window.adds = IDBObjectStore.prototype.add)")
        window.run(NO_ROOM)
        self.at_end(window)
        window.paste(" lost")
        window.wait_for(NO_ROOM_TOLD)
        window.shows("kept")
        window.run("void (IDBObjectStore.prototype.add = window.adds)")
        # There is room again.
        window.wait_for(f"!{MIRROR}.getOption('readOnly')")
        self.at_end(window)
        window.paste(" on")
        wait_for(lambda: window.run(MESSAGES_KEPT) == 2 and window.run(UNSENT) == 0, "what was pasted to be kept and sent")
        window.state("all sent")
        window.shows("kept on")
        self.assert_right(window)

    def test_the_page_goes_on_while_its_text_is_begun_anew(self) -> None:
        window, _ = self.made_text()
        window.type("kept")
        self.sent(window)
        window.run(NO_ROOM)
        window.run(READING_IS_HELD)
        window.type("x")
        window.wait_for(NO_ROOM_TOLD)
        # The page's timer that tells where the cursor is ends before this one.
        window.to(2)
        window.run("new Promise((done) => setTimeout(done, 100))")
        window.run("void window.reads()")
        window.shows("kept")
        window.wait_for(f"!{MIRROR}.getOption('readOnly')")
        self.assertEqual(window.run(f"{MIRROR}.getCursor().ch"), 2)
        self.assertEqual(window.run("document.getElementById('words').children.length"), 1)
        self.assert_right(window)

    def test_who_is_asked_whether_to_keep_it_need_not_answer(self) -> None:
        """Firefox asks its user, and its page gets no answer as long as he gives none."""
        _, link = self.made_text()
        window = self.browser.window_apart()
        self.addCleanup(self.leave, window)
        window.command("Page.enable")
        window.command("Page.addScriptToEvaluateOnNewDocument", source=NEVER_ANSWERED)
        window.driver.get(link)
        window.wait_for("document.title === 'Note 1'")

    def test_a_saved_note_opens_though_the_relay_has_lost_it(self) -> None:
        saved = self.folder / "typed.vialshoal-note"
        appends, exports = ["append", "typed", "by another", "--new", "--log", self.relay.url], ["export", "typed", str(saved)]
        for words in appends, [*exports, "--format", "note"]:
            run = self.in_terminal(*words)
            self.assertEqual(run.returncode, 0, run.stderr)
        self.relay.kill()
        for path in (self.folder / "kept").glob("*.log*"):
            path.unlink()
        self.relay.start()
        window = self.at()
        window.element("#saved-note").send_keys(str(saved))
        window.wait_for("document.getElementById('title').textContent === 'typed'")
        window.wait_for(ALL_SENT)
        window.press("text")
        window.wait_for(READY)
        window.shows("by another\n")
        self.assert_right(window)

    def test_a_note_that_is_not_here_is_told(self) -> None:
        window, _ = self.made_text()
        address = window.run("location.href.slice(0, -32)")
        window = self.at(address + "0" * 32, "document.getElementById('state').textContent.includes('Its link opens it again')")


class Claimed(AtText):
    """Numbers of pages that somebody else claims."""

    def test_who_types_under_anothers_number_is_told_and_types_on_under_the_next(self) -> None:
        window = self.at()
        link = self.made(window, "picnic")
        other = self.browser.window_apart()
        self.addCleanup(self.leave, other)
        other.driver.get(link)
        other.wait_for(READY)
        other.run(f"{MIRROR}.focus()")
        form, claimed = SealedRecords(link_of(link).secret, 0), list[int]()
        # Nothing was typed under these yet. A claim of lower rank than one that is low is searched for long.
        while not claimed or self.last_number(form, other)[1][CLAIMED_BYTES] < LEAST_RANK:
            claimed.append(self.claims_last(form, other, False))
            wait_for(lambda: len(other.run(NUMBERS)) > len(claimed), "another number")
            other.wait_for(READY)
        other.type("lost")
        self.sent(other)
        claimed.append(self.claims_last(form, other, True))
        other.state("left out: 4 of you")
        other.shows("")
        other.wait_for(f"!{MIRROR}.getOption('readOnly')")
        other.type("kept")
        self.sent(other)
        self.assertEqual([site for site, *_ in other.run(NUMBERS)][:-1], claimed)
        self.assertNotIn(self.last_number(form, other)[0], claimed)
        window.press("text")
        window.wait_for(READY)
        window.shows("kept")
        other.press("history")
        other.press("later")
        other.gives(PAST, "lost\n")
        self.assert_right(window, other)

    @staticmethod
    def last_number(form: SealedRecords, window: "Window") -> tuple[int, bytes]:
        """The number that a browser took last, and the rank of its claim."""
        site, counter, secret = window.run(NUMBERS)[-1]
        return int(site), rank_of(form.note, public_of(bytes(secret)), int(counter))

    def claims_last(self, form: SealedRecords, window: "Window", is_lower: bool) -> int:
        """Has somebody claim that number, by a lower rank or by any; which it is."""
        author, (site, rank) = form.new_author(), self.last_number(form, window)
        ranks = ((one, rank_of(form.note, author.name, one)) for one in itertools.count())
        counter = next(one for one, of in ranks if of[:CLAIMED_BYTES] == rank[:CLAIMED_BYTES] and (of < rank or not is_lower))
        with closing(opener_of(self.relay.url, form)()) as log:
            log.append([form.claim(site, author, counter).raw])
        return site


class BySaid(Silent):
    """Serves files as a page's list of headers says."""

    # By the address.
    said: Mapping[str, Mapping[str, str]] = {}

    def end_headers(self) -> None:
        for name, value in self.said.get(self.path, {}).items():
            # It says that one itself.
            if name != "Content-Type":
                self.send_header(name, value)
        super().end_headers()


class Elsewhere(AtText):
    """A page that another server has."""

    def test_it_runs_by_the_headers_that_are_written_beside_it(self) -> None:
        folder = self.folder / "page"
        with http.server.ThreadingHTTPServer(("127.0.0.1", 0), partial(BySaid, directory=str(folder))) as server:
            thread = threading.Thread(target=server.serve_forever)
            thread.start()
            try:
                self.from_elsewhere(folder, f"http://127.0.0.1:{server.server_address[1]}")
            finally:
                server.shutdown()
                thread.join()

    def from_elsewhere(self, folder: pathlib.Path, elsewhere: str) -> None:
        """A text is typed into a page at this address, whose rules hold."""
        relay = RelayProcess(self.folder / "other", "--origin", elsewhere)
        self.addCleanup(relay.close)
        run = self.in_terminal("relay", "--write-page", str(folder), "--url", relay.url)
        self.assertEqual((run.returncode, run.stderr), (0, ""))
        with mock.patch.object(BySaid, "said", headers_in((folder / "headers").read_text())):
            window = self.at(elsewhere)
            self.made(window, "picnic")
            window.wait_for(ALL_SENT)
            window.press("text")
            window.wait_for(READY)
            window.run(f"{MIRROR}.focus()")
            window.type("typed elsewhere")
            self.sent(window)
            self.assert_right(window)
            self.assertEqual(window.run(REFUSED), ["img-src", "enforce"])


class Seen(AtText):
    """What others see of it."""

    def test_the_operator_gets_nothing_of_text_names_or_cursors(self) -> None:
        relay = RelayHere(self.folder / "tapped")
        self.addCleanup(relay.close)
        tapped = TappedLines(relay.port)
        self.addCleanup(tapped.close)
        url = tapped.url.replace("redis:", "http:")
        relay.relay.origins.append(url)
        relay.relay._lets_in.add(url)
        window = self.at(url)
        self.says(window, "marzipan")
        link = self.made(window, "gooseberry")
        window.wait_for(ALL_SENT)
        other = self.text_of(link)
        # (pasted, so that words go as wholes)
        other.paste("strawberry jam")
        self.sent(other)
        other.rename("frangipane")
        other.paste(", raspberry")
        self.sent(other)
        ann = self.engine_of("Ann", link)
        ann.shows("strawberry jam, raspberry")
        other.to(7)
        ann.wait_for(lambda: [(one["name"], one["at"]) for one in ann.mirror.cursors] == [("frangipane", 7)], "the page's cursor")
        ann.close()
        lines = [bytes(line) for line in tapped.lines]
        messages = [message for line in lines for message in (messages_of(line) if b"Upgrade: websocket" in line else [line])]
        kept = [path.read_bytes() for path in (self.folder / "tapped").rglob("*") if path.is_file()]
        key = link_of(link).secret
        form = SealedRecords(key, 0)
        with closing(opener_of(relay.url, form)()) as log:
            [site] = {one.site for raw in raws_of(log) if raw and (one := form.open(raw)).kind is RecordKind.MESSAGES}
        cursor = struct.pack(">HI", site, 6)
        self.assertTrue(any(form.note in one for one in messages) and len(kept) > 1)
        for unseen in (key, key.hex().encode(), base64.urlsafe_b64encode(key)[:20], b"vialshoal:2:", b"gooseberry", b"marzipan",
                       b"frangipane", b"strawberry", b"raspberry", cursor):
            for data in [*messages, *kept, *map(str.encode, relay.said)]:
                self.assertNotIn(unseen, data)

    def test_it_fits_a_phone_and_can_be_read(self) -> None:
        window, _ = self.made_text()
        window.type("a line of text")
        for width, scheme in (1_280, "light"), (390, "light"), (390, "dark"):
            window.command("Emulation.setDeviceMetricsOverride", width=width, height=800, deviceScaleFactor=1, mobile=width < 600)
            window.command("Emulation.setEmulatedMedia", features=[{"name": "prefers-color-scheme", "value": scheme}])
            window.wait_for(LOOKS_SO, width, scheme)
            looks_well(window, width < 600)

    def test_what_is_read_aloud_is_what_a_local_page_has_to_say(self) -> None:
        lines = [f"line {number} of it" for number in range(300)]
        window, _ = self.made_text("note")
        window.paste("\n".join(lines))
        self.sent(window)
        local = Server(self.folder / "local", "--no-browser")
        self.addCleanup(local.close)
        other = self.browser.open(local.path)
        self.addCleanup(self.leave, other)
        # Lines are in the page once they are drawn.
        window.wait_for(f"{MIRROR}.getViewport().to === words[0]", len(lines))
        here, there = self.said_aloud(window), self.said_aloud(other)
        self.assertEqual([words for role, words in here if role == "StaticText" and words.startswith("line ")], lines)
        self.assertEqual([role for role, name in here if role in (*CONTROLS, "heading") and not name], [])
        # What a page has to do is called the same.
        called, elsewhere = ({one for one in said if one[0] in CONTROLS} for said in (here, there))
        self.assertEqual(called, elsewhere)

    @staticmethod
    def said_aloud(window: "Window") -> list[tuple[str, str]]:
        """The roles and the names of what a screen reader has of a page, in their order."""
        window.command("Accessibility.enable")
        nodes = [node for node in window.command("Accessibility.getFullAXTree")["nodes"] if not node.get("ignored")]
        return [(node["role"]["value"], node.get("name", {}).get("value", "").replace("\u00a0", " ")) for node in nodes]


if __name__ == "__main__":
    unittest.main()
