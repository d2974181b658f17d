"""The page of a relay by https: with a chain of certificates that ends at an authority which the browser's user trusts."""
import contextlib
import os
import pathlib
import shutil
import subprocess
import unittest
from typing import NamedTuple
from unittest import mock

from share.tests.relays import RelayProcess
from share.tests.test_relay_front import ALL_SENT, IS_HERE, AtRelay
from share.tests.test_relay_offline import IS_KEPT, IS_OFFLINE

if IS_HERE:
    from selenium.common.exceptions import WebDriverException

    from share.tests.browser import WORDS, Browser

HOST = "notes.example"
# Nothing that an installed openssl would add.
SETTINGS = "[req]\ndistinguished_name = who\n[who]\n"
AUTHORITY = "basicConstraints=critical,CA:TRUE", "keyUsage=critical,keyCertSign"
SERVER = "basicConstraints=critical,CA:FALSE", f"subjectAltName=DNS:{HOST}", "extendedKeyUsage=serverAuth"


class Signed(NamedTuple):
    """A certificate, and its key."""

    certificate: pathlib.Path
    key: pathlib.Path


def signed(folder: pathlib.Path, name: str, says: tuple[str, ...], by: Signed | None = None) -> Signed:
    """A certificate that another one signs, or that signs itself."""
    made, settings = Signed(folder / f"{name}.crt", folder / f"{name}.key"), folder / "settings"
    settings.write_text(SETTINGS)
    words = ["-config", str(settings), "-newkey", "ec", "-pkeyopt", "ec_paramgen_curve:prime256v1", "-nodes", "-days", "2",
             "-subj", f"/CN={name}", "-keyout", str(made.key), "-out", str(made.certificate)]
    words += [word for one in says for word in ("-addext", one)]
    words += ["-CA", str(by.certificate), "-CAkey", str(by.key)] if by else []
    subprocess.run(["openssl", "req", "-x509", *words], check=True, capture_output=True)
    return made


@unittest.skipUnless(shutil.which("certutil"), "certutil isn't here (Debian's libnss3-tools)")
class Chained(AtRelay):
    """A relay whose certificate another one stands behind, and browsers that find it by its name."""

    @classmethod
    def setUpClass(cls) -> None:
        if IS_HERE:
            named = mock.patch("share.tests.browser.WORDS", [*WORDS, f"--host-resolver-rules=MAP {HOST} 127.0.0.1"])
            named.start()
            cls.addClassCleanup(named.stop)
        super().setUpClass()

    def setUp(self) -> None:
        super().setUp()
        self.root = signed(self.folder, "root", AUTHORITY)
        between = signed(self.folder, "between", AUTHORITY, self.root)
        server = signed(self.folder, "server", SERVER, between)
        chain = self.folder / "chain.crt"
        chain.write_text(server.certificate.read_text() + between.certificate.read_text())
        self.relay = RelayProcess(self.folder / "secure", "--certificate", str(chain), "--key", str(server.key), url=f"https://{HOST}:PORT",
                                  page=self.page)
        self.addCleanup(self.relay.close)

    @property
    def url(self) -> str:
        return self.relay.url

    def trusting(self) -> "Browser":
        """A browser whose user trusts the authority at the chain's end."""
        known = self.folder / "home" / ".pki" / "nssdb"
        known.mkdir(parents=True)
        for words in ["-N", "--empty-password"], ["-A", "-n", "root", "-t", "C,,", "-i", str(self.root.certificate)]:
            subprocess.run(["certutil", "-d", f"sql:{known}", *words], check=True, capture_output=True)
        with mock.patch.dict(os.environ, HOME=str(self.folder / "home")):
            return Browser(1_280, 900)

    def test_it_opens_and_is_kept_and_opens_without_the_relay(self) -> None:
        # Whoever doesn't trust the authority isn't shown it.
        stranger = self.browser.window()
        with contextlib.suppress(WebDriverException):
            stranger.driver.get(self.relay.url)
        self.assertIsNone(stranger.run("document.getElementById('front')"))
        stranger.close()
        self.browser = self.trusting()
        self.addCleanup(self.browser.close)
        window = self.at()
        window.wait_for(IS_KEPT)
        link = self.made(window, "picnic")
        window.wait_for(ALL_SENT)
        self.assertTrue(link.startswith(f"{self.relay.url}/#"))
        self.assert_right(window)
        self.relay.kill()
        other = self.at()
        other.click_on("#list button")
        other.wait_for(IS_OFFLINE)
        self.assertEqual(other.run("[document.getElementById('address').value, navigator.serviceWorker.controller !== null]"), [link, True])


if __name__ == "__main__":
    unittest.main()
