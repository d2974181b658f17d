"""The files of a relay's page: what their addresses stand for, by which rules they are answered, and who may ask."""
import asyncio
import contextlib
import gzip
import hashlib
import os
import pathlib
import re
import subprocess
import tempfile
import unittest
import urllib.request
from collections.abc import Iterator
from unittest import mock

from share.relay.page_files import CORE_VARIABLE, PAGE_FOLDER, PageFiles
from share.tests.relays import RelayProcess
from share.tests.support import NOTE, Case
from share.tests.test_relay import AtPort
from share.text.errors import Trouble

PAGE_ELSEWHERE = "https://page.example"
HASHED = re.compile(r"/[a-z]+\.[0-9a-f]{32}\.(js|css|html|wasm)")
# What a server says of itself, and of how it answers.
OWN_HEADERS = {"Date", "Server", "Content-Length", "ETag", "Vary", "Connection"}
OF_TEXTS = re.compile(r"/note\.[0-9a-f]{32}\.html")


class Files(Case):
    """Files that name each other by their hashes."""

    def site(self, **files: str) -> PageFiles:
        """The page that a folder has."""
        folder = self.folder / "site"
        folder.mkdir(exist_ok=True)
        for name, text in files.items():
            (folder / name.replace("_", ".")).write_text(text)
        return PageFiles(folder)

    def test_the_digest_of_the_first_one_stands_for_all(self) -> None:
        files = {"index_html": '<script src="./a.js"></script>', "a_js": 'import { b } from "./b.js";', "b_js": "export const b = 1;"}
        before = self.site(**files)
        self.assertEqual(len(before.files), 3)
        for address, one in before.files.items():
            if address != "/":
                self.assertRegex(address, HASHED)
                self.assertIn(hashlib.sha256(one.data).hexdigest()[:32], address)
        after = self.site(b_js="export const b = 2;")
        self.assertEqual(set(before.files) & set(after.files), {"/"})
        self.assertNotEqual(before.files["/"].digest(), after.files["/"].digest())
        self.assertEqual(self.site(**files).digests(), before.digests())

    def test_what_is_named_wrongly_is_said(self) -> None:
        with self.assertRaisesRegex(Trouble, "gone.js"):
            self.site(index_html="'./gone.js'")
        with self.assertRaisesRegex(Trouble, "a.js of the page names itself by way of b.js"):
            self.site(index_html="'./a.js'", a_js="'./b.js'", b_js="'./a.js'")
        # What isn't named is in no address, and nothing outside the folder can be named.
        one = self.site(index_html="'../a.js' './a.py' './x/a.js' './a.js.map'", c_js="secret")
        self.assertEqual([*one.files], ["/"])

    def test_the_page_itself(self) -> None:
        """All of the folder belongs to it where texts are shown, and else what shows none."""
        stand = {path.name for path in PAGE_FOLDER.iterdir()} - {"package.json"}
        with with_core(self.folder):
            site = PageFiles()
        names = named(site)
        self.assertLessEqual(stand | {"vialshoal.wasm", "codemirror.js", "page.js", "positions.js"}, names)
        self.assertIn(b'<main id="text"', next(one.data for address, one in site.files.items() if OF_TEXTS.fullmatch(address)))
        with with_core(None):
            fewer = named(PageFiles())
        self.assertLess(fewer, stand)
        self.assertFalse({"note.html", "vialshoal.wasm", "codemirror.js"} & fewer)


def headers_in(text: str) -> dict[str, dict[str, str]]:
    """What a server has to say of each file, by its address."""
    told = dict[str, dict[str, str]]()
    for line in text.splitlines():
        if line.startswith("/"):
            told[line] = {}
        else:
            name, _, value = line.strip().partition(": ")
            told[[*told][-1]][name] = value
    return told


def named(site: PageFiles) -> set[str]:
    """What the files are called of which a page is made."""
    return {re.sub(r"^/(\w+)\.\w+\.", r"\1.", address) if address != "/" else "index.html" for address in site.files}


@contextlib.contextmanager
def with_core(folder: pathlib.Path | None) -> Iterator[None]:
    """A core is there meanwhile, or isn't."""
    path = folder / "vialshoal.wasm" if folder else None
    if path:
        path.write_bytes(b"'./front.js'")
    with mock.patch.dict(os.environ, {CORE_VARIABLE: str(path or "")}):
        yield


class Answers(AtPort):
    """What is answered to whoever asks for the page."""

    async def get(self, path: str, *headers: str, method: str = "GET") -> tuple[int, dict[str, str], bytes]:
        """The status, the headers and the rest."""
        lines = [f"{method} {path} HTTP/1.1", "Host: x", "Connection: close", *headers, "", ""]
        head, _, body = (await self.asked("\r\n".join(lines).encode())).partition(b"\r\n\r\n")
        status, *fields = head.decode().split("\r\n")
        return int(status.split()[1]), {name.lower(): value for name, _, value in (field.partition(": ") for field in fields)}, body

    def setUp(self) -> None:
        folder = tempfile.TemporaryDirectory(prefix="share-core-")
        self.addCleanup(folder.cleanup)
        core = with_core(pathlib.Path(folder.name))
        core.__enter__()
        self.addCleanup(core.__exit__, None, None, None)
        super().setUp()

    def addresses(self) -> list[str]:
        """Those of the page's files, and the list of them."""
        return [*PageFiles().files, "/digests"]

    async def test_each_file_by_strict_rules(self) -> None:
        here = f"http://127.0.0.1:{self.relay.port}", f"http://localhost:{self.relay.port}"
        for path in self.addresses():
            status, headers, body = await self.get(path)
            self.assertEqual(status, 200, path)
            policy = dict(one.split(" ", 1) for one in headers["content-security-policy"].split("; "))
            self.assertEqual((policy["default-src"], policy["frame-ancestors"]), ("'none'", "'none'"))
            # The page of a text alone compiles the core.
            runs, types = ("'self' 'wasm-unsafe-eval'", "relay page") if OF_TEXTS.fullmatch(path) else ("'self'", "relay")
            self.assertEqual((policy["script-src"], policy["trusted-types"]), (runs, types))
            self.assertEqual(headers["content-security-policy"].count("unsafe"), runs.count("unsafe"))
            self.assertEqual(policy["connect-src"].split(), ["'self'", *(one.replace("http", "ws") for one in here)])
            self.assertEqual(policy["img-src"], "'self'")
            for name, value in (("x-content-type-options", "nosniff"), ("referrer-policy", "no-referrer"), ("x-frame-options", "DENY"),
                                ("cross-origin-opener-policy", "same-origin"), ("cross-origin-resource-policy", "same-origin")):
                self.assertEqual(headers[name], value)
            self.assertEqual(headers["cache-control"],
                             "public, max-age=31536000, immutable" if HASHED.fullmatch(path) else "no-cache")
            self.assertNotIn("set-cookie", headers)
            self.assertEqual(hashlib.sha256(body).hexdigest(), headers["etag"].strip('"'))
        self.assertEqual(body.decode(), PageFiles().digests())

    async def test_what_somebody_has_is_not_sent_again(self) -> None:
        for path in self.addresses():
            _, headers, body = await self.get(path)
            self.assertEqual((await self.get(path, method="HEAD"))[::2], (200, b""))
            self.assertEqual((await self.get(path, method="HEAD"))[1]["content-length"], str(len(body)))
            for tags in headers["etag"], f'"x", W/{headers["etag"]}', "*":
                status, again, nothing = await self.get(path, f"If-None-Match: {tags}")
                self.assertEqual((status, nothing, again["etag"]), (304, b"", headers["etag"]))
                self.assertIn("content-security-policy", again)
            self.assertEqual((await self.get(path, 'If-None-Match: "x"'))[0], 200)
            _, headers, packed = await self.get(path, "Accept-Encoding: br, gzip")
            self.assertEqual((headers["content-encoding"], gzip.decompress(packed)), ("gzip", body))
            self.assertIn("Accept-Encoding", headers["vary"])
            self.assertEqual((await self.get(path, "Accept-Encoding: gzip", f"If-None-Match: {headers['etag']}"))[0], 304)

    async def test_tricks_with_paths(self) -> None:
        known = next(filter(HASHED.fullmatch, self.addresses()))
        for path in ("/index.html", "/./", "/../", "/..%2f", "/%2e%2e/page_files.py", "/site/index.html", "/package.json", "/page_files.py",
                     "/front.css", known.upper(), known + "/", "/." + known, "/x/.." + known, known.replace(".", "%2e"), known[:-1],
                     known + "%00", "/digests/", "//digests", "/%64igests", "/\\..\\digests", "/relay/../digests", "/etc/passwd",
                     "/~root", "/relay/site/index.html", "http:/digests", "/" + "../" * 30 + "etc/passwd"):
            status, _, body = await self.get(path)
            self.assertIn(status, (400, 404), path)
            self.assertNotIn(b"root:", body)
        for method in "POST", "PUT", "DELETE", "OPTIONS", "TRACE", "PATCH":
            self.assertEqual((await self.get("/", "Content-Length: 0", method=method))[0], 405, method)
        self.assertEqual((await self.get("/?fbclid=x"))[0], 200)

    async def test_pages_elsewhere_ask_where_they_are_let_in(self) -> None:
        self.relay.stop()
        self.relay = type(self.relay)(self.folder / "kept", self.limits, origins=[PAGE_ELSEWHERE])
        self.addCleanup(self.relay.close)
        for path in "/", "/digests", "/relay":
            for origin in PAGE_ELSEWHERE, self.relay.url:
                status, headers, _ = await self.get(path, f"Origin: {origin}")
                self.assertEqual((status, headers["access-control-allow-origin"]), (200, origin))
                self.assertIn("Origin", headers["vary"])
            for origin in "https://evil.example", "null", "http://page.example", "https://page.example.evil", "https://page.example/":
                status, headers, _ = await self.get(path, f"Origin: {origin}")
                self.assertEqual(status, 403, origin)
                self.assertNotIn("access-control-allow-origin", headers)
            self.assertEqual((await self.get(path, f"Origin: {PAGE_ELSEWHERE}", "Origin: https://evil.example"))[0], 403)
            self.assertNotIn("access-control-allow-origin", (await self.get(path))[1])

    async def test_many_ask_at_once_and_read_nothing(self) -> None:
        path, lines = max(PageFiles().files, key=lambda one: len(PageFiles().files[one].data)), []
        for _ in range(50):
            _, writer = await asyncio.open_connection("127.0.0.1", self.relay.port)
            writer.transport.pause_reading()  # type: ignore[attr-defined]
            writer.write(f"GET {path} HTTP/1.1\r\nHost: x\r\n\r\n".encode() * 20)
            lines.append(writer)
        self.assertEqual((await self.get("/"))[0], 200)
        for writer in lines:
            writer.transport.abort()


class Handed(Case):
    """bin/note relay hands the page out, so that one may check it, or have another server for it."""

    def relay(self, *words: str) -> subprocess.CompletedProcess[str]:
        """What the command does."""
        return subprocess.run([NOTE, "relay", *words], capture_output=True, text=True, check=False)

    def test_what_a_relay_serves_is_what_the_command_prints(self) -> None:
        relay = RelayProcess(self.folder / "kept")
        self.addCleanup(relay.close)
        listed = self.relay("--digests")
        with urllib.request.urlopen(f"{relay.url}/digests") as served:
            self.assertEqual((listed.returncode, listed.stdout), (0, served.read().decode()))

    def test_files_for_another_server(self) -> None:
        to = self.folder / "page"
        self.assertIn("--url", self.relay("--write-page", str(to)).stderr)
        run = self.relay("--write-page", str(to), "--url", "https://Notes.Example:443")
        self.assertEqual((run.returncode, run.stderr), (0, ""))
        self.assertEqual((to / "digests").read_text(), run.stdout)
        subprocess.run(["sha256sum", "-c", "-"], cwd=to, input=run.stdout, capture_output=True, text=True, check=True)
        self.assertIn('<meta name="relay" content="https://notes.example">', (to / "index.html").read_text())
        # But for the file that says it, they are those that the relay serves.
        written, here = {*run.stdout.splitlines()}, {*PageFiles().digests().splitlines()}
        self.assertEqual([line.split()[1] for line in written ^ here], ["index.html"] * 2)
        again = self.relay("--write-page", str(to), "--url", "https://notes.example")
        self.assertEqual((again.returncode, again.stdout), (2, ""))

    def test_another_server_is_told_what_the_relay_says_of_each_file(self) -> None:
        with with_core(self.folder):
            relay = RelayProcess(self.folder / "kept")
            self.addCleanup(relay.close)
            self.relay("--write-page", str(self.folder / "page"), "--url", "https://notes.example")
        told = headers_in((self.folder / "page" / "headers").read_text())
        self.assertEqual({address.rpartition("/")[2] or "index.html" for address in told},
                         {path.name for path in (self.folder / "page").iterdir()} - {"digests", "headers"})
        here = " ".join(sorted(f"ws://{host}:{relay.port}" for host in ("127.0.0.1", "localhost")))
        for address, headers in told.items():
            # The address of the page that names the relay is the same, and so are those of all that doesn't.
            with urllib.request.urlopen(relay.url + address) as served:
                said = {name: value.replace(here, "wss://notes.example") for name, value in served.headers.items()
                        if name not in OWN_HEADERS}
            self.assertEqual(headers, said, address)


if __name__ == "__main__":
    unittest.main()
