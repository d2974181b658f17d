"""The page of a relay without that relay, and beside one that offers another version: in Chromium and in Firefox."""
import contextlib
import pathlib
import shutil
import unittest
from collections.abc import Iterator
from typing import TYPE_CHECKING
from unittest import mock

from share.relay.page_files import PageFile, PageFiles
from share.tests.firefox import FIREFOX, firefox
from share.tests.relays import RelayHere, page_of_free_claims, with_core
from share.tests.support import Case
from share.tests.test_relay_front import ALL_SENT, STANDING, WORDS, AtRelay
from share.tests.waiting import wait_for

if TYPE_CHECKING:
    from share.tests.browser import Window

VERSION, OFFERED, KEPT, LISTED = (f"document.getElementById('{name}')"
                                  for name in ("version", "offered", "kept-digests", "offered-digests"))
IS_KEPT = f"{VERSION}.textContent.includes('is kept here')"
IS_OFFERED, NOT_OFFERED = f"!{OFFERED}.hidden && {LISTED}.textContent", f"{OFFERED}.hidden"
IS_OFFLINE = f"{STANDING}.startsWith('offline')"
# What the rules of the page's server refuse, where they stand.
REFUSED = """new Promise((done) => {
  addEventListener("securitypolicyviolation", ({ effectiveDirective: what, disposition: how }) => done([what, how]), { once: true });
  document.body.append(Object.assign(new Image(), { src: "https://elsewhere.example/" }));
})"""
TRIES_SCRIPT = """(() => {
  try {
    document.createElement("div").setAttribute("onclick", "document.title = 'broken'");
    return "taken";
  } catch (why) {
    return why.name;
  }
})()"""


def listed(files: PageFiles) -> set[str]:
    """The lines of a version's digests."""
    return {*files.digests().splitlines()}


class Versions:
    """Versions of the page, and a relay that offers one after the other."""

    def __init__(self, folder: pathlib.Path):
        self._folder, self._page = folder, pathlib.Path(page_of_free_claims(folder / "first"))
        self.first = self.offered = PageFiles(self._page)
        with self._offering():
            self.relay = RelayHere(folder / "kept")

    def offer(self, name: str, **changes: tuple[str, str]) -> PageFiles:
        """Has the relay end, and begin with a version in which some files are changed, of which it has a title."""
        site = self._folder / name
        shutil.copytree(self._page, site)
        for file, (old, new) in {"index_html": ("<title>Notes", f"<title>{name}"), **changes}.items():
            path = site / file.replace("_", ".")
            text = path.read_text()
            assert old in text
            path.write_text(text.replace(old, new))
        self.offered = PageFiles(site)
        self.again()
        return self.offered

    def kept(self) -> str:
        """What a browser calls the first version, of which it keeps the files."""
        return f"page {self.first.files['/'].digest()}"

    def again(self) -> None:
        """Has the relay end and begin."""
        self.relay.stop()
        with self._offering():
            self.relay.start()

    @contextlib.contextmanager
    def _offering(self) -> Iterator[None]:
        """A relay that begins meanwhile has this version."""
        with mock.patch("share.relay.server.PageFiles", lambda: self.offered):
            yield


class Offline(AtRelay):
    """In Chromium."""

    def setUp(self) -> None:
        super().setUp()
        self.versions = Versions(self.folder)
        self.addCleanup(self.versions.relay.close)

    @property
    def url(self) -> str:
        return self.versions.relay.url

    def kept(self) -> "Window":
        """A window of a version that the browser keeps."""
        window = self.at()
        window.wait_for(IS_KEPT)
        return window

    def test_notes_open_and_are_made_without_the_relay(self) -> None:
        window = self.kept()
        link = self.made(window, "picnic")
        window.wait_for(ALL_SENT)
        window.close()
        self.versions.relay.stop()
        window = self.at()
        window.click_on("#list button")
        window.wait_for(IS_OFFLINE)
        self.assertEqual(window.run("document.getElementById('address').value"), link)
        # By the rules by which it came.
        self.assertEqual(window.run(REFUSED), ["img-src", "enforce"])
        self.assertEqual(window.run(TRIES_SCRIPT), "TypeError")
        self.made(window, "second")
        # A link in the address is taken out of it, too.
        other = self.at(link, IS_OFFLINE)
        self.assertEqual(other.run("[location.href, document.getElementById('address').value]"), [f"{self.url}/", link])
        self.assertEqual(window.run("caches.keys()"), [self.versions.kept()])
        self.versions.again()
        window.wait_for(ALL_SENT)
        other.wait_for(ALL_SENT)

    def test_another_version_is_taken_as_the_user_says(self) -> None:
        window, other = self.kept(), self.kept()
        before = listed(self.versions.first)
        after = listed(self.versions.offer("Other", front_css=("16px", "17px"), searching_js=("postMessage", "self.postMessage")))
        for _ in range(3):
            window.driver.refresh()
            window.wait_for(IS_OFFERED)
            self.assertEqual(window.run("document.title"), "Notes")
        self.assertEqual(({*window.run(f"{KEPT}.textContent").split("\n")}, {*window.run(f"{LISTED}.textContent").split("\n")}),
                         (before - after, after - before))
        # These two, and what names the second one.
        self.assertEqual({line.split()[1].partition(".")[0] for line in before - after},
                         {"index", "front", "searching", "claim", "spare", "shown"})
        window.click_on("#take")
        window.wait_for("document.title === 'Other' && !document.getElementById('front').hidden")
        window.wait_for(f"{IS_KEPT} && {NOT_OFFERED}")
        # Who had the one of before open goes on with it.
        self.assertEqual(other.run("document.title"), "Notes")
        self.made(other, "by the one of before")
        other.wait_for(ALL_SENT)
        # Also with what it loads only now, which the relay doesn't have any more.
        other.wait_for("document.getElementById('facts').textContent.includes('found and kept here')")
        other.close()
        # Both of these are of the new one, also without the relay; nothing is left of the old one.
        self.versions.relay.stop()
        window.close()
        window = self.at()
        self.assertEqual(window.run("document.title"), "Other")
        wait_for(lambda: len(window.run("caches.keys()")) == 1, "the old version to be dropped")
        self.assertEqual(window.run("document.querySelectorAll('#list button').length"), 1)
        self.assert_right()

    def test_a_window_that_was_loaded_past_what_is_kept(self) -> None:
        window = self.kept()
        self.versions.offer("Other")
        window.command("Network.enable")
        window.command("Network.setBypassServiceWorker", bypass=True)
        window.driver.refresh()
        window.wait_for(f"document.title === 'Other' && {IS_OFFERED}")
        window.command("Network.setBypassServiceWorker", bypass=False)
        window.driver.refresh()
        window.wait_for(f"document.title === 'Notes' && {IS_OFFERED}")

    def test_what_else_is_there_is_shown_as_text(self) -> None:
        """A server that lies has no other document read what the browser keeps."""
        window = self.kept()
        self.versions.offered.files["/other"] = PageFile("text/html", b"<title>Other</title>")
        self.versions.again()
        for path, words in ("/other", "<title>Other</title>"), ("/other?x#y", "<title>Other</title>"), ("/digests", "index.html"):
            window.driver.get(self.url + path)
            window.wait_for("document.contentType === 'text/plain' && document.body.textContent.includes(words[0])", words)
        # Nor is what somebody elsewhere has it send there.
        window.driver.get("data:text/html,<form method=post></form>")
        submits = "((form, to) => { form.action = to; form.submit(); })(document.forms[0], arguments[0])"
        window.run(submits, f"{self.url}/other")
        window.wait_for("location.pathname === '/other' && document.contentType === 'text/plain'")
        window.driver.get(self.url)
        window.wait_for(IS_KEPT)

    def test_a_version_that_is_not_what_it_says_is_not_taken(self) -> None:
        self.kept().close()
        other = self.versions.offer("Other")
        right, wrong = dict(other.files), PageFile("text/javascript", b"document.title = 'broken';")
        script, worker = (next(one for one in right if one.startswith(f"/{name}.")) for name in ("front", "offline"))
        elsewhere = self.versions.first.digests()
        for address, lists in (script, other.digests()), (worker, other.digests()), ("", elsewhere):
            other.files.clear()
            other.files.update(right)
            if address:
                other.files[address] = wrong
            with mock.patch.object(other, "digests", lambda lists=lists: lists):
                self.versions.again()
            window = self.at()
            window.wait_for(f"!{OFFERED}.hidden")
            window.click_on("#take")
            window.wait_for(f"{WORDS}.includes('stays with the one that it has')")
            window.driver.refresh()
            window.wait_for("!document.getElementById('front').hidden")
            self.assertEqual(window.run("document.title"), "Notes")
            window.close()

    def test_another_program_under_the_same_address_is_told(self) -> None:
        window = self.kept()
        address = next(one for one in self.versions.offered.files if one.startswith("/offline."))
        one = self.versions.offered.files[address]
        self.versions.offered.files[address] = one._replace(data=one.data.replace(b"skipWaiting()", b"skipWaiting(1)"))
        self.versions.again()
        window.driver.refresh()
        window.wait_for(IS_KEPT)
        # A browser asks each day, past what it has.
        window.command("Network.clearBrowserCache")
        window.run("void navigator.serviceWorker.getRegistration('/').then((one) => one.update())")
        window.wait_for(f"{WORDS}.includes('under the same address, which no honest relay does')")

    def test_what_the_browser_drops_is_kept_again(self) -> None:
        window = self.kept()
        window.run("caches.keys().then((names) => Promise.all(names.map((name) => caches.delete(name))))")
        window.driver.refresh()
        window.wait_for(f"{IS_KEPT} && {NOT_OFFERED}")
        wait_for(lambda: window.run("caches.keys()") == [self.versions.kept()], "the version to be kept again")
        # And where another one is offered meanwhile, that is shown, and says so.
        window.run("caches.keys().then((names) => Promise.all(names.map((name) => caches.delete(name))))")
        self.versions.offer("Other")
        window.driver.refresh()
        window.wait_for(f"document.title === 'Other' && {IS_OFFERED}")
        window.click_on("#take")
        window.wait_for(f"document.title === 'Other' && {NOT_OFFERED} && {IS_KEPT}")


@unittest.skipUnless(FIREFOX, "there is no Firefox here")
class InFirefox(Case, unittest.IsolatedAsyncioTestCase):
    """In Firefox."""

    async def test_notes_open_without_the_relay_and_another_version_waits(self) -> None:
        with_core(self)
        versions = Versions(self.folder)
        self.addCleanup(versions.relay.close)
        async with firefox(self.folder / "profile") as browser:
            await browser.goes_to(versions.relay.url)
            await browser.wait_for(IS_KEPT)
            await browser.run("document.querySelector('#make button').click()")
            await browser.wait_for(ALL_SENT)
            link = await browser.run("document.getElementById('address').value")
            versions.relay.stop()
            await browser.goes_to(versions.relay.url)
            await browser.wait_for("Boolean(document.querySelector('#list button'))")
            await browser.run("document.querySelector('#list button').click()")
            await browser.wait_for(IS_OFFLINE)
            self.assertEqual(await browser.run("document.getElementById('address').value"), link)
            self.assertEqual(await browser.run(REFUSED), ["img-src", "enforce"])
            self.assertEqual(await browser.run(TRIES_SCRIPT), "TypeError")
            versions.offer("Other")
            await browser.goes_to(versions.relay.url)
            await browser.wait_for(f"Boolean({IS_OFFERED})")
            self.assertEqual(await browser.run("document.title"), "Notes")
            with contextlib.suppress(AssertionError):
                # The window goes on before this is answered.
                await browser.run("document.getElementById('take').click()")
            await browser.wait_for(f"document.title === 'Other' && document.readyState === 'complete' && {IS_KEPT} && {NOT_OFFERED}")
            versions.relay.stop()
            await browser.goes_to(versions.relay.url)
            await browser.wait_for("document.title === 'Other' && Boolean(document.querySelector('#list button'))")


if __name__ == "__main__":
    unittest.main()
