"""The front page of a relay, and its modules, in Firefox."""
import json
import unittest
from contextlib import closing
from unittest import mock

from share.format.second.claim import number_of_rank, rank_of
from share.format.second.form import SealedRecords
from share.format.second.key_link import link_of
from share.log.opening import opener_of
from share.relay.page_files import PageFiles
from share.tests.firefox import FIREFOX, firefox
from share.tests.relays import RelayHere, RelayProcess, page_of_free_claims, with_core
from share.tests.support import Case, raws_of
from share.tests.test_site_modules import VECTORS, beside_modules, searches


@unittest.skipUnless(FIREFOX, "there is no Firefox here")
class InFirefox(Case, unittest.IsolatedAsyncioTestCase):
    """What a user does, and what the modules answer."""

    def setUp(self) -> None:
        super().setUp()
        self.profile = self.folder / "profile"
        with_core(self)

    async def test_a_note_is_made_and_what_others_append_is_seen(self) -> None:
        relay = RelayProcess(self.folder / "kept", page=page_of_free_claims(self.folder / "served"))
        self.addCleanup(relay.close)
        async with firefox(self.profile) as browser:
            await browser.goes_to(relay.url)
            await browser.wait_for("!document.getElementById('front').hidden")
            await browser.run("document.querySelector('#make button').click()")
            await browser.wait_for("document.getElementById('standing').textContent === 'all sent, and all read'")
            link = await browser.run("document.getElementById('address').value")
            form = SealedRecords(link_of(link).secret)
            with closing(opener_of(relay.url, form)()) as log:
                self.assertEqual([form.open(raw or b"").kind.name for raw in raws_of(log)], ["OPENING"])
                log.append([form.renewed("Ann", 7, form.new_author()).raw])
            await browser.wait_for("document.getElementById('renewed').textContent.startsWith('Ann renewed this note')")

    async def test_the_modules(self) -> None:
        site = self.folder / "site"
        beside_modules(site)
        searches(site)
        with mock.patch("share.relay.server.PageFiles", lambda: PageFiles(site)):
            relay = RelayHere(self.folder / "kept")
        self.addCleanup(relay.close)
        note, secrets = VECTORS["sealed"], {one["name"]: one["secret"] for one in VECTORS["authors"].values()}
        async with firefox(self.profile) as browser:
            await browser.goes_to(relay.url)
            await browser.wait_for("typeof answered === 'function' && typeof claimFor === 'function'")

            async def asked(what: str, **words: object) -> object:
                return json.loads(await browser.run(f"answered({json.dumps({'do': what, **words})})"))

            raws = [one["raw"] for one in note["entries"]]
            found = await asked("opened", key=note["key"], raws=raws, bits=VECTORS["bits"])
            assert isinstance(found, list)
            for raw, one in zip(raws, found):
                place = {name: one[name] for name in ("site", "text", "first", "count", "before")}
                self.assertEqual(await asked("sealed", key=note["key"], kind=one["kind"], secret=secrets.get(one["author"], note["append"]),
                                             place=place, body=one["body"]), raw)
            author = VECTORS["authors"]["bob"]["name"]
            bytes_of = "((digits) => Uint8Array.from(digits.match(/../g), (two) => parseInt(two, 16)))"
            counter, site_number = await browser.run(
                f"claimFor({bytes_of}('{note['identity']}'), {bytes_of}('{author}'), new Set(), undefined, 8)"
                ".then(({ counter, site }) => [String(counter), site])")
            self.assertEqual(number_of_rank(rank_of(bytes.fromhex(note["identity"]), bytes.fromhex(author), int(counter)), 8), site_number)


if __name__ == "__main__":
    unittest.main()
