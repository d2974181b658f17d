"""The front page of a relay in Chromium: notes are made and opened there, and what comes of it people in terminals see, and the other way
round."""
import base64
import contextlib
import http.server
import json
import os
import pathlib
import re
import signal
import subprocess
import tempfile
import threading
import unittest
from contextlib import closing
from functools import partial
from typing import Any
from unittest import mock

from share.format.second.claim import number_of_rank, rank_of
from share.format.second.form import SealedRecords
from share.format.second.key_link import KeyLink, link_of
from share.format.second.saved import saved_note
from share.format.second.signature import REFUSED_POINTS
from share.log.base import Unreachable
from share.log.opening import opener_of
from share.log.relay_messages import RelayPage
from share.relay.kept import KeptNote, NoSuchPlace, NoteIsFull, Reading
from share.relay.limits import Limits
from share.relay.page_files import PageFiles
from share.tests.pages import LOOKS_SO, is_fault, looks_well
from share.tests.relays import AUTHORS, RelayHere, RelayProcess, form_of, page_of_free_claims, record, with_core
from share.tests.processes import children
from share.tests.support import NOTE, Case, alive, raws_of
from share.tests.terminals import Terminal
from share.tests.test_relay_security import TappedLines, messages_of
from share.tests.test_site_modules import VECTORS, beside_modules, searches
from share.tests.waiting import PATIENCE, wait_for

try:
    from selenium.common.exceptions import WebDriverException

    from share.tests.browser import CHROMIUM, DRIVER, Browser, Window
    IS_HERE = bool(CHROMIUM and DRIVER)
except ModuleNotFoundError:
    IS_HERE = False

STANDING, FACTS, WORDS = (f"document.getElementById('{name}').textContent" for name in ("standing", "facts", "words"))
ALL_SENT = f"{STANDING} === 'all sent, and all read'"
NO_ROOM = "void (IDBObjectStore.prototype.add = () => { throw new DOMException('', 'QuotaExceededError'); })"
NEWER_VERSION = """void (indexedDB.open("vialshoal", 2).onsuccess = ({ target }) => {
  target.result.close();
  document.title = "newer";
})"""
ORIGIN = re.compile(r"https?://[^/:\s]+:[0-9]+")
NO_ED25519 = "SubtleCrypto.prototype.generateKey = async () => { throw new DOMException('', 'NotSupportedError'); };"


class Silent(http.server.SimpleHTTPRequestHandler):
    """Serves files, and says nothing of it."""

    def log_message(self, format: str, *args: object) -> None:  # pylint: disable=redefined-builtin
        """Nothing."""


BROWSERS = list["Browser"]()


def browser_of_module() -> "Browser":
    """The browser that the tests of a module share, which ends after them."""
    if not BROWSERS:
        BROWSERS.append(Browser(1_280, 900))
        unittest.addModuleCleanup(lambda: BROWSERS.pop().close())
    return BROWSERS[0]


class AtRelay(Case):
    """Windows of a browser at the page of a relay whose numbers cost no search."""

    # One for all tests of a module.
    browser: "Browser"
    # Where the core is that texts need, or nowhere.
    core = ""

    @classmethod
    def setUpClass(cls) -> None:
        if not IS_HERE:
            raise unittest.SkipTest("there is no Chromium here")
        cls.browser = browser_of_module()

    def setUp(self) -> None:
        super().setUp()
        # What the browser still said of an earlier test isn't of this one.
        self.browser.driver.get_log("browser")
        with_core(self, self.core)
        # How long a search for a number takes is chance.
        self.page = page_of_free_claims(self.folder / "served")
        patches = contextlib.ExitStack()
        self.addCleanup(patches.close)
        patches.enter_context(mock.patch.dict(os.environ, VIALSHOAL_ZERO_BITS="0"))
        patches.enter_context(mock.patch("share.relay.server.PageFiles", lambda: PageFiles(pathlib.Path(self.page))))
        # A busy machine's relay isn't one that is gone.
        patches.enter_context(mock.patch("share.log.relay_line.REPLY_SECONDS", PATIENCE))

    @property
    def url(self) -> str:
        """Where the relay is. By a port of its own a test has an origin of its own, of which the browser has kept nothing."""
        raise NotImplementedError

    def at(self, address: str = "", begins: str = "!document.getElementById('front').hidden") -> "Window":
        """A window at the relay's page, or at an address."""
        window = self.browser.window()
        self.addCleanup(self.leave, window)
        window.driver.get(address or self.url)
        window.wait_for(begins)
        return window

    @staticmethod
    def leave(window: "Window") -> None:
        """Closes a window, if it is still there."""
        if window.handle in window._browser.driver.window_handles:
            window.driver.switch_to.window(window.handle)
            window.close()

    def made(self, window: "Window", name: str) -> str:
        """Makes a note in a window; its link."""
        window.element("#name").send_keys(name)
        before = window.run("document.getElementById('address').value")
        window.click_on("#make button")
        window.wait_for("document.getElementById('title').textContent === words[0] && ![words[1], ''].includes("
                        "document.getElementById('address').value)", name, before)
        link: str = window.run("document.getElementById('address').value")
        return link

    def in_terminal(self, *words: str, link: str = "") -> subprocess.CompletedProcess[str]:
        """What bin/note does, of somebody in a terminal."""
        environment = {name: value for name, value in os.environ.items() if name != "VIALSHOAL_FORM"}
        environment |= {"VIALSHOAL_DATA": str(self.folder / "terminal"), "VIALSHOAL_LINK": link}
        return subprocess.run([NOTE, *words], env=environment, capture_output=True, text=True, check=False)

    def entries(self, window: "Window", least: int) -> None:
        """Waits until a window counts so many entries."""
        window.wait_for(f"parseInt(({FACTS}.match(/Entries([0-9,]+)/) ?? ['', '0'])[1].replaceAll(',', ''), 10) >= words[0]", least)

    def assert_right(self, *windows: "Window") -> None:
        """That no page broke its own rules, or failed."""
        # Of the relays of other tests the browser may still say that they don't answer its workers.
        own = {self.url, *(window.run("location.origin") for window in windows)}
        told = [line for window in windows for line in window.told() if is_fault(line)]
        self.assertEqual([line for line in told if not (named := {*ORIGIN.findall(line)}) or named & own], [])


class Front(AtRelay):
    """A relay by the real command."""

    def setUp(self) -> None:
        super().setUp()
        self.relay = RelayProcess(self.folder / "kept", page=self.page)
        self.addCleanup(self.relay.close)

    @property
    def url(self) -> str:
        return self.relay.url


class Notes(Front):
    """What a user does."""

    def test_a_note_made_here_is_joined_and_typed_into_in_a_terminal(self) -> None:
        window = self.at()
        link = self.made(window, "picnic")
        window.wait_for(ALL_SENT)
        self.assertEqual(link_of(link).url, self.relay.url)
        self.assertEqual(window.run("[location.hash, document.title]"), ["", "Notes"])
        # The page says what is typed in a terminal.
        command = window.run("document.getElementById('command').textContent").split()
        self.assertEqual(command, ["bin/note", "open", "picnic"])
        terminal = Terminal(self, "terminal", *command[1:], begins="picnic", link=link)
        terminal.sees("site ")
        terminal.type("typed in a terminal")
        terminal.sees("all sent")
        # The page sees the claim and the text come, by an author who isn't the founder.
        self.entries(window, 3)
        rows = "[...document.querySelectorAll('#numbers tbody tr')].map((row) => [...row.cells].map((one) => one.textContent))"
        window.wait_for(f"{rows}.some(([,, messages]) => messages !== '0')")
        # Where numbers cost nothing somebody in a terminal may have more than one.
        found = [(messages != "0", whose == "you, in this browser") for _, whose, messages in window.run(rows)]
        self.assertEqual((found.count((False, True)), found.count((True, False)), found.count((True, True))), (1, 1, 0))
        window.wait_for(f"{FACTS}.includes('Left outnothing')")
        terminal.press("C-q")
        terminal.sees("status 0")
        self.assertEqual(self.in_terminal("cat", "picnic").stdout, "typed in a terminal")
        # In another browser's words: the address opens it, and is gone at once.
        other = self.at(link, ALL_SENT)
        self.assertEqual(other.run("location.href"), self.relay.url + "/")
        self.entries(other, 3)
        self.assert_right(window, other)

    def test_what_is_made_offline_is_sent_after_the_window_was_closed(self) -> None:
        window = self.at()
        self.relay.kill()
        window.wait_for("true")
        link = self.made(window, "early")
        window.wait_for(f"{STANDING}.startsWith('offline, 1 entry kept here and not sent')")
        window.close()
        self.relay.start()
        window = self.at()
        window.click_on("#list button")
        window.wait_for(ALL_SENT)
        self.said_renewed(link, "Ann")
        self.entries(window, 2)
        before = self.at_relay(link)
        # A relay that was away and has lost all is given what it lacks.
        self.relay.kill()
        for path in (self.folder / "kept").glob("*.log*"):
            path.unlink()
        self.relay.start()
        wait_for(lambda: self.at_relay(link) == before, "the relay to have all again")
        window.wait_for(ALL_SENT)

    def test_what_a_relay_refuses_is_not_shown_as_sent(self) -> None:
        relay = RelayHere(self.folder / "full")
        self.addCleanup(relay.close)
        with mock.patch.object(KeptNote, "append", side_effect=NoteIsFull):
            window = self.at(relay.url)
            link = self.made(window, "one")
            for _ in range(2):
                window.wait_for(f"{STANDING}.includes('--note-bytes') && {STANDING}.endsWith(', 1 entry kept here and not sent')")
                window.driver.refresh()
                window.wait_for("document.querySelector('#list button')")
                window.click_on("#list button")
        window.driver.refresh()
        window.wait_for("document.querySelector('#list button')")
        window.click_on("#list button")
        window.wait_for(ALL_SENT)
        with closing(opener_of(relay.url, SealedRecords(link_of(link).secret, 0))()) as log:
            self.assertEqual(log.size(), 1)

    def test_two_tabs_of_which_one_ends(self) -> None:
        first = self.at()
        link = self.made(first, "shared")
        first.wait_for(ALL_SENT)
        second = self.at(link, ALL_SENT)
        self.entries(second, 1)
        self.said_renewed(link, "Ann")
        for window in first, second:
            window.wait_for("document.getElementById('renewed').textContent.startsWith('Ann renewed this note')")
        # The one with the line to the relay ends without a word, and the other takes it over.
        first.close()
        self.said_renewed(link, "Bob")
        second.wait_for("document.getElementById('renewed').textContent.startsWith('Ann, Bob renewed this note')")
        self.assert_right(second)

    def at_relay(self, link: str) -> set[bytes | None]:
        """What the relay has of a note."""
        with closing(opener_of(self.relay.url, SealedRecords(link_of(link).secret, 0))()) as log:
            return {*raws_of(log)}

    def said_renewed(self, link: str, name: str) -> None:
        """Somebody with the link says that the note was renewed."""
        form = SealedRecords(link_of(link).secret, 0)
        with closing(opener_of(self.relay.url, form)()) as log:
            log.append([form.renewed(name, 7, form.new_author()).raw])

    def test_a_browser_that_is_killed_has_what_was_made_offline(self) -> None:
        with tempfile.TemporaryDirectory(prefix="share-profile-", ignore_cleanup_errors=True) as profile:
            browser = Browser(800, 600, pathlib.Path(profile))
            window = browser.window()
            window.driver.get(self.relay.url)
            window.wait_for("!document.getElementById('front').hidden")
            self.relay.kill()
            link = self.made(window, "killed")
            window.wait_for(f"{STANDING}.startsWith('offline, 1 entry kept here and not sent')")
            killed = children(browser.driver.service.process.pid)
            for process in killed:
                os.kill(process, signal.SIGKILL)
            with contextlib.suppress(WebDriverException):
                browser.close()
            # As long as one is there the profile is its own.
            wait_for(lambda: not any(map(alive, killed)), "the browser to end")
            self.relay.start()
            browser = Browser(800, 600, pathlib.Path(profile))
            self.addCleanup(browser.close)
            window = browser.window()
            window.driver.get(self.relay.url)
            window.wait_for("document.querySelector('#list button')")
            window.click_on("#list button")
            window.wait_for(ALL_SENT)
            self.assertEqual(window.run("document.getElementById('address').value"), link)

    def test_links_that_open_nothing_are_told_why(self) -> None:
        window = self.at()
        for given, words in (("vialshoal:1.1:s:AAAA@redis://h:7", "bin/note renew NAME --form 2 --log " + self.relay.url),
                             ("hello", "isn't a note's link"),
                             (KeyLink("sealed", bytes(32), "https://other.example").spelled(), "Open its link there")):
            window.element("#link").send_keys(given)
            window.click_on("#open button")
            window.wait_for(f"{WORDS}.includes(words[0])", words)
        old = self.at(f"{self.relay.url}/#vialshoal:1.1:s:AAAA@redis://h:7", f"{WORDS}.includes('renew')")
        self.assertEqual(old.run("location.hash"), "")
        # A link that comes into the address of an open page.
        link = KeyLink("sealed", bytes(range(32)), self.relay.url)
        window.run(f"void (location.hash = '{link.page().partition('#')[2]}')")
        window.wait_for(ALL_SENT)
        self.assertEqual(window.run("[location.hash, document.getElementById('address').value]"), ["", link.page()])
        self.assert_right(window, old)

    def test_a_browser_without_signatures_is_told_so(self) -> None:
        window = self.browser.window()
        self.addCleanup(self.leave, window)
        window.command("Page.enable")
        window.command("Page.addScriptToEvaluateOnNewDocument", source=NO_ED25519)
        window.driver.get(self.relay.url)
        window.wait_for(f"{WORDS}.includes('lacks Ed25519')")
        self.assertTrue(window.run("document.getElementById('front').hidden"))

    def test_the_operator_gets_nothing_of_key_or_names(self) -> None:
        relay = RelayHere(self.folder / "tapped")
        self.addCleanup(relay.close)
        tapped = TappedLines(relay.port)
        self.addCleanup(tapped.close)
        url = tapped.url.replace("redis:", "http:")
        relay.relay.origins.append(url)
        relay.relay._lets_in.add(url)
        window = self.at(url)
        window.element("#your-name").send_keys("marzipan")
        link = self.made(window, "gooseberry")
        window.wait_for(ALL_SENT)
        # Who opens the address sends no more.
        self.at(link, ALL_SENT)
        lines = [bytes(line) for line in tapped.lines]
        messages = [message for line in lines for message in (messages_of(line) if b"Upgrade: websocket" in line else [line])]
        kept = [path.read_bytes() for path in (self.folder / "tapped").rglob("*") if path.is_file()]
        key = link_of(link).secret
        self.assertTrue(any(SealedRecords(key).note in one for one in messages) and len(kept) > 1)
        for unseen in key, key.hex().encode(), base64.urlsafe_b64encode(key)[:20], b"vialshoal:2:", b"gooseberry", b"marzipan":
            for data in [*messages, *kept, *map(str.encode, relay.said)]:
                self.assertNotIn(unseen, data)

    def test_what_is_no_entry_is_left_out_and_counted(self) -> None:
        link = KeyLink("sealed", bytes(range(32)), self.relay.url)
        window = self.at(link.page(), ALL_SENT)
        right = form_of().renewed("Ann", 7, AUTHORS[link.key]).raw
        damaged = [right[:at] + bytes([right[at] ^ 1]) + right[at + 1:] for at in (1, 60, 100, 110, len(right) - 1)]
        with closing(opener_of(self.relay.url, form_of())()) as log:
            # A claim of a number that isn't its rank's, which tests alone take.
            log.append([*damaged, record(1), right])
        self.entries(window, 1)
        window.wait_for(f"{FACTS}.includes('Left out6, which are no entries of this note')")
        window.wait_for("document.getElementById('renewed').textContent.startsWith('Ann renewed this note')")
        self.assert_right(window)

    def test_a_relay_that_lies_is_told_and_asked_no_more(self) -> None:
        asked = list[str]()

        def loses(_: KeptNote, after: str, most: int) -> Reading:
            # Whether the relay is still there is asked each half a minute, for no entries.
            asked.extend([f"{after} {most}"] * (most > 0))
            raise NoSuchPlace

        link = KeyLink("sealed", bytes(range(32)), "")
        for where, lie in (("share.relay.kept.KeptNote.read", loses),
                           ("share.relay.room.RelayPage", lambda *words: RelayPage(*words)._replace(size=7))):
            relay = RelayHere(self.folder / f"lying{len(asked)}")
            self.addCleanup(relay.close)
            with mock.patch(where, lie):
                window = self.at(link._replace(url=relay.url).page(), f"{STANDING}.includes('has lost entries')")
                # It is asked again as it is reached again, and not before.
                self.assertLessEqual(len(asked), 2)
                self.assertIn("offline", window.run(STANDING))
            relay.stop()
            relay.start()
            window.wait_for(ALL_SENT)

    def test_a_page_of_another_server_comes_where_it_is_let_in(self) -> None:
        for is_let_in in True, False:
            # Each at an address of its own, of whose page the browser keeps no other version.
            folder = self.folder / f"page-{is_let_in}"
            with http.server.ThreadingHTTPServer(("127.0.0.1", 0), partial(Silent, directory=str(folder))) as server:
                thread = threading.Thread(target=server.serve_forever)
                thread.start()
                try:
                    self.from_elsewhere(folder, f"http://127.0.0.1:{server.server_address[1]}", is_let_in)
                finally:
                    server.shutdown()
                    thread.join()

    def from_elsewhere(self, folder: pathlib.Path, elsewhere: str, is_let_in: bool) -> None:
        """A page at this address is the one of a relay that lets it in, or of one that doesn't."""
        relay, standing = self.relay, f"{STANDING}.startsWith('offline, 1 entry kept here and not sent')"
        if is_let_in:
            relay, standing = RelayProcess(self.folder / "other", "--origin", elsewhere, page=self.page), ALL_SENT
            self.addCleanup(relay.close)
        run = self.in_terminal("relay", "--write-page", str(folder), "--url", relay.url)
        self.assertEqual((run.returncode, run.stderr), (0, ""))
        window = self.at(elsewhere)
        link = self.made(window, f"at {relay.port}")
        self.assertEqual((link.startswith(f"{elsewhere}/#vialshoal:2:s:"), link.partition("@")[2]), (True, relay.url))
        window.wait_for(standing)

    def test_a_full_note_is_told_to_who_only_reads(self) -> None:
        self.relay.close()
        relay = RelayHere(self.folder / "small", Limits(note_bytes=2_000))
        self.addCleanup(relay.close)
        link = KeyLink("sealed", bytes(range(32)), relay.url)
        window = self.at(link.page(), ALL_SENT)
        with closing(opener_of(relay.url, form_of())()) as log, self.assertRaisesRegex(Unreachable, "--note-bytes"):
            for number in range(50):
                log.append([record(number)])
        window.wait_for(f"{STANDING}.includes('--note-bytes')")


class Disks(Front):
    """What the browser's disk does."""

    def test_a_full_one_keeps_nothing_more_and_says_so(self) -> None:
        window = self.at()
        link = self.made(window, "one")
        window.wait_for(ALL_SENT)
        # Chromium lets so little in whatever its quota is, so it is said in its place.
        window.run(NO_ROOM)
        window.click_on("#make button")
        window.wait_for(f"{WORDS}.includes('no room left')")
        # What a relay has more isn't taken for read, either.
        form = SealedRecords(link_of(link).secret, 0)
        with closing(opener_of(self.relay.url, form)()) as log:
            log.append([form.renewed("Ann", 7, form.new_author()).raw])
        window.wait_for(f"{STANDING}.includes('no room left')")
        self.assertEqual(window.run("document.querySelectorAll('#list button').length"), 1)
        window.driver.refresh()
        window.wait_for("document.querySelector('#list button')")
        window.click_on("#list button")
        window.wait_for("document.getElementById('renewed').textContent.startsWith('Ann renewed this note')")
        self.made(window, "two")
        window.wait_for(ALL_SENT)

    def test_one_that_is_cleared_is_told_and_the_link_opens_the_note_again(self) -> None:
        window = self.at()
        link = self.made(window, "one")
        window.wait_for(ALL_SENT)
        window.command("Storage.clearDataForOrigin", origin=self.relay.url, storageTypes="indexeddb")
        window.wait_for(f"{WORDS}.includes('was removed while the page was open')")
        again = self.at(link, ALL_SENT)
        self.entries(again, 1)

    def test_one_of_a_later_version_is_told(self) -> None:
        window = self.at()
        window.run(NEWER_VERSION)
        window.wait_for("document.title === 'newer'")
        window.wait_for(f"{WORDS}.includes('made by a later version')")
        self.at("", f"{WORDS}.includes('made by a later version')")

    def test_a_saved_log_is_read_again(self) -> None:
        window = self.at()
        link = self.made(window, "saved")
        window.wait_for(ALL_SENT)
        self.browser.driver.execute_cdp_cmd("Browser.setDownloadBehavior", {"behavior": "allow", "downloadPath": str(self.folder)})
        window.click_on("#save")
        path = self.folder / "saved.vialshoal-note"
        form = SealedRecords(link_of(link).secret, 0)
        with closing(opener_of(self.relay.url, form)()) as log:
            raws = [raw or b"" for raw in raws_of(log)]
        saved = saved_note(KeyLink("sealed", form.keys.key, self.relay.url), raws)
        wait_for(lambda: path.exists() and path.stat().st_size >= len(saved), "the file")
        self.assertEqual(path.read_bytes(), saved)
        # It brings the note to a relay that never had it; as what was saved by the page of before does, without the link.
        path.write_bytes(b"vialshoal log 2\n" + b"".join(len(raw).to_bytes(4, "big") + raw for raw in raws))
        other = RelayProcess(self.folder / "other", page=self.page)
        self.addCleanup(other.close)
        window = self.at(KeyLink("sealed", form.keys.key, other.url).page(), ALL_SENT)
        window.element("#saved").send_keys(str(path))
        self.entries(window, 1)
        window.wait_for(ALL_SENT)
        with closing(opener_of(other.url, form)()) as log:
            wait_for(lambda: log.size() == 1, "the entry to be sent")


class Looks(Front):
    """How it looks, and what is read aloud."""

    def test_at_a_desk_and_on_a_phone_in_light_and_in_dark(self) -> None:
        window = self.at()
        self.made(window, "A note of a rather long name that doesn't end soon")
        window.wait_for(ALL_SENT)
        for width in 1_280, 390:
            window.command("Emulation.setDeviceMetricsOverride", width=width, height=900, deviceScaleFactor=1, mobile=width < 400)
            for scheme in "light", "dark":
                window.command("Emulation.setEmulatedMedia", features=[{"name": "prefers-color-scheme", "value": scheme}])
                window.wait_for(LOOKS_SO, width, scheme)
                looks_well(window, width < 400)

    def test_what_is_read_aloud(self) -> None:
        window = self.at()
        self.made(window, "one")
        window.wait_for(ALL_SENT)
        window.command("Accessibility.enable")
        nodes = [node for node in window.command("Accessibility.getFullAXTree")["nodes"] if not node.get("ignored")]
        found = {(node["role"]["value"], node.get("name", {}).get("value", "")) for node in nodes}
        self.assertLessEqual({("heading", "Notes"), ("heading", "one"), ("button", "Make a note"), ("textbox", "Its link"),
                              ("button", "Open"),
                              ("button", "Copy"), ("textbox", "Its link, by which whoever has it reads and writes, for good"),
                              ("button", "Save it as a file, with its link"), ("textbox", "Your name"), ("heading", "Who else is on"),
                              ("table", "Whose number is which"), ("heading", "This page")}, found)
        self.assertEqual([role for role, name in found if role in ("button", "textbox", "heading", "link") and not name], [])
        window.gives("document.activeElement.id", "title")


class Modules(AtRelay):
    """The page's modules in Chromium, as in Node."""

    def setUp(self) -> None:
        super().setUp()
        folder = self.folder / "site"
        beside_modules(folder)
        searches(folder)
        with mock.patch("share.relay.server.PageFiles", lambda: PageFiles(folder)):
            self.relay = RelayHere(self.folder / "here")
        self.addCleanup(self.relay.close)

    @property
    def url(self) -> str:
        return self.relay.url

    def asked(self, window: "Window", what: str, **words: object) -> Any:
        """What a module answers."""
        script = "const [asked, done] = arguments; answered(asked).then(done);"
        asked: Any = {"do": what, **words}
        return json.loads(window.driver.execute_async_script(script, asked))

    def test_entries_keys_and_claims(self) -> None:
        window = self.at("", "typeof answered === 'function' && typeof claimFor === 'function'")
        note, secrets = VECTORS["sealed"], {one["name"]: one["secret"] for one in VECTORS["authors"].values()}
        self.assertEqual(self.asked(window, "keys", key=note["key"]), {name: note[name] for name in ("append", "public", "identity")})
        proof = {**VECTORS["proof"]}
        signature = proof.pop("signature")
        self.assertEqual(self.asked(window, "proof", key=note["key"], **proof), signature)
        raws = [one["raw"] for one in note["entries"]]
        found = self.asked(window, "opened", key=note["key"], raws=raws, bits=VECTORS["bits"])
        for raw, one in zip(raws, found):
            place = {name: one[name] for name in ("site", "text", "first", "count", "before")}
            secret = secrets.get(one["author"], note["append"])
            again = self.asked(window, "sealed", key=note["key"], kind=one["kind"], secret=secret, place=place, body=one["body"])
            self.assertEqual(again, raw)
        # What libraries check otherwise is refused before Chromium is asked.
        data, name = b"signed", bytes.fromhex(VECTORS["authors"]["ada"]["name"])
        for point in sorted(REFUSED_POINTS)[:12]:
            for signature, of in ((point + bytes(32), name), (bytes(64), point)):
                self.assertFalse(self.asked(window, "isSigned", data=data.hex(), signature=signature.hex(), name=of.hex()))
        script = """const [note, author, done] = arguments;
        const bytes = (digits) => Uint8Array.from(digits.match(/../g), (two) => parseInt(two, 16));
        claimFor(bytes(note), bytes(author), new Set(), undefined, 8).then(({ counter, site }) => done([String(counter), site]));"""
        author = VECTORS["authors"]["bob"]["name"]
        counter, site = window.driver.execute_async_script(script, note["identity"], author)
        rank = rank_of(bytes.fromhex(note["identity"]), bytes.fromhex(author), int(counter))
        self.assertEqual(number_of_rank(rank, 8), site)
        self.assert_right(window)

    def test_entries_are_kept_at_once_and_each_once(self) -> None:
        window = self.at("", "typeof answered === 'function'")
        some = [[f"{number:03}", True] for number in range(100)]
        calls = [some, [["a", False], ["b", True], ["a", False], ["b", False], ["099", False]], [["a", True], ["c", False], ["c", True]]]
        found = self.asked(window, "kept", calls=calls)
        self.assertEqual(found, {"many": [100, 2, 1], "atOnce": 100, "entries": [*some, ["a", True], ["b", True], ["c", True]]})
        self.assert_right(window)


if __name__ == "__main__":
    unittest.main()
