"""The page's server, without a browser: who is answered what, and what a page can and can't ask for."""
import asyncio
import functools
import json
import os
import pathlib
import shutil
import signal
import socket
import stat
import subprocess
import tempfile
import unittest
from collections.abc import AsyncIterator
from typing import cast
from unittest import mock

import aiohttp
from aiohttp import web

from share.editors.web import guard
from share.editors.web.bridge import MOST_MESSAGE, NO_FIELDS, bridged, page_refusal
from share.editors.web.opening import redirect
from share.editors.web.server import files, missing_package
from share.tests.pages import Server, keep_place, talking
from share.tests.proved_files import give_up
from share.tests.support import TOP, Case, Person, engine_of, python, wait_for
from share.tests.waiting import PATIENCE
from share.text.errors import Trouble
from share.text.line import MOST_LINE, Assembler, Line

VECTORS = TOP / "share" / "tests" / "vectors.mjs"
UPGRADE = ["Connection: Upgrade", "Upgrade: websocket", "Sec-WebSocket-Version: 13",
           "Sec-WebSocket-Key: AAAAAAAAAAAAAAAAAAAAAA=="]
POLICY_VIOLATION, TOO_BIG = 1008, 1009
# Opens connections without end, asks on each for the page or for the note, says nothing more and holds it; says how many
# bytes it has got by hundreds of them.
SILENT = """
import itertools, socket, sys
lines, got, host = [], 0, f"127.0.0.1:{sys.argv[1]}"
asked = f"Host: {host}\\r\\nOrigin: http://{host}\\r\\nConnection: Upgrade\\r\\nUpgrade: websocket\\r\\n"
asked += "Sec-WebSocket-Version: 13\\r\\nSec-WebSocket-Key: AAAAAAAAAAAAAAAAAAAAAA==\\r\\n\\r\\n"
for number in itertools.count(1):
    try:
        lines.append(socket.create_connection(("127.0.0.1", int(sys.argv[1])), 10))
        lines[-1].sendall(f"GET {('/', '/socket')[number % 2]} HTTP/1.1\\r\\n{asked}".encode()[:None if number % 3 else 0])
        got += len(lines[-1].recv(9)) if number % 3 else 0
    except OSError:
        pass
    del lines[:-400]
    if number == 600:
        print(got, flush=True)
"""


class Vectors(unittest.TestCase):
    """The page's client, in Node."""

    def test_the_client_does_with_lines_what_the_vectors_say(self) -> None:
        done = subprocess.run(["node", VECTORS], capture_output=True, text=True, check=False, timeout=PATIENCE)
        self.assertEqual(done.returncode, 0, done.stdout + done.stderr)
        self.assertRegex(done.stdout, r"^[2-9][0-9] cases, 0 failed\n$")


def refused(line: bytes | None) -> Line:
    """What a page is answered whose line isn't handed on."""
    answer = page_refusal(line)
    assert answer
    return answer


class Bridging(unittest.TestCase):
    """What of a page's messages is handed on, without a server."""

    def test_lines_are_made_of_messages_wherever_these_were_cut(self) -> None:
        data = b'{"do":"on"}\n\n{"do":"undo"}\n{"do"'
        for size in range(1, len(data) + 1):
            assembler = Assembler()
            found = [line for at in range(0, len(data), size) for line in assembler.lines(data[at:at + size])]
            self.assertEqual(found, [b'{"do":"on"}', b"", b'{"do":"undo"}'], size)

    def test_a_line_that_is_too_long_is_passed_over(self) -> None:
        assembler = Assembler()
        piece = b"x" * (MOST_LINE // 4)
        for _ in range(4):
            self.assertEqual(assembler.lines(piece), [])
        self.assertEqual(assembler.lines(b"x"), [])
        self.assertEqual(assembler.lines(b"x\nshort\n"), [None, b"short"])
        for _ in range(4):
            assembler.lines(piece)
        self.assertEqual(assembler.lines(b"\n"), [4 * piece])

    def test_no_request_names_a_file_or_a_link(self) -> None:
        self.assertIsNone(page_refusal(b'{"do":"edit","version":0,"edits":1,"changes":[]}'))
        for line in (b'{"do":"save","path":"/tmp/x"}', b'{"do":"edit","do":"save"}', b'{"do":"link"}', b'{"do":["save"]}', b"{}"):
            self.assertEqual(refused(line)["error"], "unknown", line)
        for name in NO_FIELDS:
            self.assertEqual(refused(b'{"do":"on","id":3,"%s":1}' % name.encode())["id"], 3)
        for line in (b"", b"[]", b"tea", b'{"do":"\xff"}', b"[" * 100_000):
            self.assertEqual(refused(line)["error"], "json", line[:9])
        self.assertEqual(refused(None)["error"], "long")


class Gone(unittest.IsolatedAsyncioTestCase):
    """A page that is gone before all that it sent was handed on."""

    async def test_what_it_sent_goes_to_the_engine(self) -> None:
        refused = asyncio.Event()

        class Socket:
            """Of a page that reads nothing more."""

            async def send_bytes(self, _: bytes) -> None:
                """Can't send."""
                refused.set()
                raise ConnectionResetError

            async def close(self, **_: object) -> None:
                """Is closed."""

        async def said(_: object) -> AsyncIterator[bytes]:
            yield b'{"do":"on","id":1}\n'
            await refused.wait()
            # The other tasks see that first.
            for _ in range(10):
                await asyncio.sleep(0)
            yield b'{"do":"on","id":2}\n'

        with tempfile.TemporaryDirectory() as folder:
            kept = pathlib.Path(folder) / "kept"
            with mock.patch("share.editors.web.bridge.messages", said):
                await bridged(cast(web.WebSocketResponse, Socket()), ["tee", str(kept)], os.environ)
            self.assertEqual(kept.read_bytes(), b'{"do":"on","id":1}\n{"do":"on","id":2}\n')


class Missing(unittest.TestCase):
    """A machine that hasn't all."""

    def test_a_view_whose_package_isn_t_here_is_left_out_and_the_rest_works(self) -> None:
        with mock.patch("share.editors.web.server.MARKDOWN", ("/x.js", pathlib.Path("/none"), "libjs-some")):
            self.assertEqual((missing_package(), files()["/x.js"]), ("libjs-some", pathlib.Path("/none")))

    def test_a_package_that_isn_t_here_is_named(self) -> None:
        with mock.patch("share.editors.web.server.CODEMIRROR", pathlib.Path("/none")):
            with self.assertRaisesRegex(Trouble, "libjs-codemirror"):
                files()


class Served(Case, unittest.IsolatedAsyncioTestCase):
    """A test with a server of its own."""

    @functools.cached_property
    def server(self) -> Server:
        """The server."""
        return self.serve()

    async def asyncSetUp(self) -> None:
        asyncio.get_running_loop().set_debug(False)

    def serve(self, *words: str, **environment: str) -> Server:
        """A server more."""
        server = Server(self.folder / "data", *words, **environment)
        self.addCleanup(server.close)
        return server


class Starting(Served):
    """The secret, and how a browser gets it."""

    def test_a_file_of_this_account_alone_has_the_secret(self) -> None:
        path = self.server.path
        self.assertEqual([stat.S_IMODE(os.stat(one).st_mode) for one in (path, path.parent)], [0o600, 0o700])
        self.assertRegex(self.server.secret, "^[0-9a-f]{32}$")
        self.assertNotEqual(self.server.secret, self.serve().secret)
        self.assertNotIn(self.server.secret, self.server.said)
        self.assertEqual(self.server.close(), 0)
        self.assertFalse(path.exists())

    def test_no_command_line_has_it(self) -> None:
        browser = self.folder / "browser"
        browser.write_text(f"#!/bin/sh\necho \"$@\" >>{self.folder}/seen\n")
        browser.chmod(0o700)
        server = self.serve(BROWSER=str(browser))
        self.assertIn("is open in the browser", server.said)
        seen = wait_for(lambda: (self.folder / "seen").exists() and (self.folder / "seen").read_text(), "a browser")
        self.assertEqual(seen.strip(), server.path.as_uri())

        async def look() -> bytes:
            async with talking(server, opens=True):
                return b"".join(path.read_bytes() for path in pathlib.Path("/proc").glob("[0-9]*/cmdline") if path.exists())

        lines = asyncio.run(look())
        self.assertIn(b"engine\0note", lines)
        self.assertNotIn(server.secret.encode(), lines)

    def test_the_file_s_path_is_printed_where_no_browser_is_found(self) -> None:
        server = self.serve(BROWSER="", DISPLAY="", WAYLAND_DISPLAY="")
        self.assertEqual(server.said, f"Open this file in a browser: {server.path}\n")
        self.assertEqual(server.close(signal.SIGINT), 0)

    def test_what_can_t_be_a_note_or_a_log_is_refused_at_once(self) -> None:
        self.assert_says(self.note("web", "a b", "--no-browser"), "can't be a note's name")
        self.assert_says(self.note("web", "note", "--new", "--no-browser", "--log", "ftp://x"), "can't be a log")

    async def test_the_user_has_a_name(self) -> None:
        async with talking(self.serve(VIALSHOAL_NAME="Ada")) as talk:
            self.assertEqual((await talk.line(notice="welcome"))["name"], "Ada")

    def test_a_link_in_the_place_of_the_file_is_not_followed(self) -> None:
        run, target = self.folder / "data" / "run", self.folder / "target"
        run.mkdir(parents=True)
        (run / "note.7.html").symlink_to(target)
        with redirect("note", 7, "secret") as path:
            self.assertFalse(path.is_symlink())
            self.assertEqual([stat.S_IMODE(os.stat(one).st_mode) for one in (path, run)], [0o600, 0o700])
        self.assertEqual([*run.iterdir(), target.exists()], [False])


class OneServer(Case, unittest.IsolatedAsyncioTestCase):
    """Tests that have a server in common."""

    data: pathlib.Path
    server: Server

    @classmethod
    def setUpClass(cls) -> None:
        super().setUpClass()
        cls.data = pathlib.Path(tempfile.mkdtemp(prefix="share-"))
        cls.addClassCleanup(give_up, cls.data)
        cls.server = Server(cls.data)
        cls.addClassCleanup(cls.server.close)

    async def asyncSetUp(self) -> None:
        asyncio.get_running_loop().set_debug(False)


class Answers(OneServer):
    """Requests over HTTP."""

    def test_the_page_is_answered_at_its_address(self) -> None:
        for path in ("/", "/page.js", "/client.js", "/page.css", "/codemirror/lib/codemirror.js"):
            status, head, body = self.server.get(path)
            self.assertEqual(status, 200, path)
            self.assertNotIn(self.server.secret.encode(), head + body)
        page = self.server.get()[2]
        self.assertNotRegex(page, rb"(?i)<script>|\son\w+=|style=|https?:|//")

    def test_no_script_makes_elements_of_text(self) -> None:
        paths = [*(TOP / "share" / "editors" / "web").glob("*.js")]
        self.assertGreater(len(paths), 5)
        for path in paths:
            script = path.read_text(encoding="utf-8")
            self.assertNotRegex(script, r"innerHTML|outerHTML|insertAdjacentHTML|document\.write|eval\(|Function\(|setAttribute",
                                path)
            self.assertNotRegex(script.replace("ws://${location.host}/socket", ""), r"\w+://", path)

    def test_hosts_of_other_names_get_nothing(self) -> None:
        port = self.server.port
        for host in ("localhost:%d" % port, "127.0.0.1", "127.0.0.1:%d" % (port + 1), "127.0.0.1:0%d" % port, "evil.example",
                     "127.0.0.1.:%d" % port, "evil.example:%d" % port, "[::1]:%d" % port, "127.1:%d" % port,
                     "a@127.0.0.1:%d" % port, "127.0.0.1:%d, evil.example" % port):
            self.nothing(self.server.get(host=host))
            self.nothing(self.server.get("/socket", *UPGRADE, f"Origin: http://{host}", host=host))
        self.nothing(self.server.get(host=None))
        self.nothing(self.server.get("/", "Host: evil.example"))
        self.nothing(self.server.raw(b"GET / HTTP/1.0\r\n\r\n"))
        self.nothing(self.server.get("http://evil.example/", host="evil.example"))

    def test_pages_of_other_origins_get_nothing(self) -> None:
        own = f"http://{self.server.host}"
        for origin in ("null", "http://evil.example", "https://" + self.server.host, "http://127.0.0.1", "file://", own + "/",
                       own + ".evil.example", own.replace("127.0.0.1", "localhost"), own.upper(), ""):
            self.nothing(self.server.get("/", f"Origin: {origin}"))
            self.nothing(self.server.get("/client.js", f"Origin: {origin}"))
            self.nothing(self.server.get("/socket", *UPGRADE, f"Origin: {origin}"))
        self.nothing(self.server.get("/socket", *UPGRADE))
        self.nothing(self.server.get("/socket", *UPGRADE, f"Origin: {own}", "Origin: http://evil.example"))
        for site in ("cross-site", "same-site", "none"):
            self.nothing(self.server.get("/page.js", f"Sec-Fetch-Site: {site}"))
        for destination in ("iframe", "image", "script", "empty"):
            self.nothing(self.server.get("/", "Sec-Fetch-Site: cross-site", f"Sec-Fetch-Dest: {destination}"))
        self.assertEqual(self.server.get("/", "Sec-Fetch-Site: cross-site", "Sec-Fetch-Dest: document")[0], 200)

    def nothing(self, answer: tuple[int, bytes, bytes]) -> None:
        """That a request was refused, and nothing of the page or the note came."""
        status, head, body = answer
        self.assertIn(status, (400, 403), head)
        self.assertNotIn(b"101 Switching", head)
        self.assertLess(len(body), 200)

    def test_no_path_leads_to_other_files(self) -> None:
        for path in ("/../bridge.py", "/%2e%2e/bridge.py", "/codemirror/../../../../etc/passwd", "/codemirror/%2e%2e/x",
                     "//etc/passwd", "/etc/passwd", "/bridge.py", "/package.json", "/page.html", "/socket/x", "/note",
                     "/codemirror/mode/clike/clike.js", "/page.js%00", "/favicon.ico"):
            self.assertIn(self.server.get(path)[0], (400, 404), path)
        for method in (b"POST", b"PUT", b"DELETE", b"OPTIONS", b"HEAD", b"TRACE"):
            request = b"%s / HTTP/1.1\r\nHost: %s\r\nConnection: close\r\n\r\n" % (method, self.server.host.encode())
            self.assertEqual(self.server.raw(request)[0], 405, method)

    def test_each_answer_has_the_browser_s_rules(self) -> None:
        answers = [self.server.get(), self.server.get("/page.js"), self.server.get("/none"), self.server.get(host="evil")]
        self.assertEqual([status for status, _, _ in answers], [200, 200, 404, 403])
        for _, head, _ in answers:
            for name, value in guard.rules(self.server.port).items():
                self.assertIn(f"\r\n{name}: {value}".encode(), head)
            self.assertNotIn(b"unsafe", head)
            self.assertNotIn(b"Access-Control", head)
            self.assertIn(b"default-src 'none'; script-src 'self'; style-src 'self'; connect-src ws://127.0.0.1:", head)
            self.assertIn(b"require-trusted-types-for 'script'; trusted-types page\r\n", head)

    def test_rubbish_doesn_t_end_the_server(self) -> None:
        for data in (b"\0\1\2\r\n\r\n", b"GET\r\n\r\n", b"GET / HTTP/9.9\r\n\r\n", b"GET / HTTP/1.1\r\nHost" + b"x" * 70_000):
            self.assertIn(self.server.raw(data + b"\r\n\r\n", ends=True)[0], (0, 400), data[:20])
        self.assertEqual(self.server.get()[0], 200)


class Strangers(OneServer):
    """WebSockets of those who aren't let in."""

    async def test_nothing_comes_before_the_secret(self) -> None:
        wrong = ["0" * 32, self.server.secret[:-1], self.server.secret + "0", self.server.secret + "\n", self.server.secret.upper(),
                 '{"id":1,"do":"open","protocol":1,"units":["utf-16"]}\n', "#" + self.server.secret]
        for secret in wrong:
            async with talking(self.server, secret) as talk:
                self.assertEqual(await talk.code(), POLICY_VIOLATION, secret)
                self.assertEqual(talk.lines, [])
        async with talking(self.server, "") as talk:
            await talk.socket.send_str(self.server.secret)
            self.assertEqual(await talk.code(), POLICY_VIOLATION)
        async with talking(self.server, "") as talk:
            await talk.socket.send_bytes(b"")
            self.assertEqual(await talk.code(), POLICY_VIOLATION)
        self.assertFalse((self.data / "notes").exists())

    async def test_another_host_or_origin_gets_no_socket(self) -> None:
        for headers in ({"Origin": "http://evil.example"}, {"Origin": "null"}, {"Host": "evil.example"},
                        {"Host": f"localhost:{self.server.port}", "Origin": f"http://localhost:{self.server.port}"}):
            with self.assertRaises(aiohttp.WSServerHandshakeError) as refused:
                async with talking(self.server, None, False, **headers):
                    pass
            self.assertEqual(refused.exception.status, 403)

    async def test_a_huge_message_ends_the_socket(self) -> None:
        for secret in "", None:
            async with talking(self.server, secret) as talk:
                await talk.socket.send_bytes(b"x" * (MOST_MESSAGE + 1))
                self.assertEqual(await talk.code(), TOO_BIG)
        async with talking(self.server) as talk:
            await talk.line(notice="welcome")

    async def test_strangers_are_few_and_keep_nobody_out(self) -> None:
        held, talks = [], []
        try:
            for _ in range(100):
                held.append(talking(self.server, ""))
                talks.append(await held[-1].__aenter__())
            async with talking(self.server) as talk:
                await talk.line(notice="welcome")
            # Who comes last takes the place of who came first; nobody waits until the time for the secret is over.
            self.assertEqual({await talk.code() for talk in talks[:84]}, {aiohttp.WSCloseCode.ABNORMAL_CLOSURE})
            self.assertFalse(any(talk.socket.closed for talk in talks[85:]))
        finally:
            for one in held:
                await one.__aexit__(None, None, None)

    @unittest.skipUnless(os.geteuid() == 0 and shutil.which("setpriv"), "root alone can be another account")
    async def test_another_account_reaches_nothing_and_keeps_nobody_out(self) -> None:
        words = ["setpriv", "--reuid=12345", "--clear-groups", python(), "-c", SILENT, str(self.server.port)]
        with subprocess.Popen(words, stdout=subprocess.PIPE, text=True) as other:
            try:
                # What it was sent in all.
                assert other.stdout
                self.assertEqual(other.stdout.readline(), "0\n")
                async with talking(self.server) as talk:
                    await talk.line(notice="welcome")
                self.assertIsNone(other.poll())
                opened = len([*pathlib.Path(f"/proc/{self.server.process.pid}/fd").iterdir()])
                self.assertLess(opened, 60)
            finally:
                other.kill()


class Sockets(OneServer):
    """WebSockets of those who have said the secret, with one note."""

    async def test_each_socket_is_an_editor(self) -> None:
        async with talking(self.server, opens=True) as first, talking(self.server, opens=True) as second:
            answers = [await talk.line(answer="open") for talk in (first, second)]
            self.assertNotEqual(answers[0]["you"], answers[1]["you"])
            await first.send({"do": "edit", "version": 0, "edits": 1, "changes": [[0, 0, "one\r\n\U0001f370"]]})
            self.assertEqual((await second.line(notice="changes"))["changes"], [[0, 0, "one\r\n\U0001f370"]])
            self.assertEqual((await second.ask("undo"))["done"], False)
            self.assertEqual((await first.ask("undo"))["done"], True)

    async def test_what_a_page_can_t_ask_for_is_refused(self) -> None:
        path = self.folder / "saved"
        async with talking(self.server, opens=True) as talk:
            await talk.send({"do": "edit", "version": 0, "edits": 1, "changes": [[0, 0, "kept"]]})
            requests: list[Line] = [
                {"do": "save", "path": str(path)}, {"do": "save", "path": str(path), "replace": True},
                {"do": "history", "path": str(path)}, {"do": "link"}, {"do": "open", "log": str(path)}]
            for request in requests:
                self.assertEqual((await talk.ask(request.pop("do"), **request))["error"], "unknown", request)
            await talk.socket.send_bytes(b'tea\n{"do":"edit","id":77,"do":"save","path":"/"}\n')
            self.assertEqual((await talk.line(error="json"))["answer"], "")
            self.assertEqual((await talk.line(id=77))["error"], "unknown")
            await talk.send({"do": "text", "edits": 1})
            self.assertEqual((await talk.line(notice="text"))["text"][:4], "kept")
        self.assertFalse(path.exists())

    async def test_a_line_over_the_most_is_answered_and_the_session_goes_on(self) -> None:
        async with talking(self.server, opens=True) as talk:
            for _ in range(2 * MOST_LINE // MOST_MESSAGE + 1):
                await talk.socket.send_bytes(b"x" * (MOST_MESSAGE // 2))
            await talk.socket.send_bytes(b"\n")
            self.assertEqual((await talk.line(error="long"))["answer"], "")
            self.assertTrue((await talk.ask("on"))["people"])

    async def test_a_text_message_after_the_secret_ends_the_socket(self) -> None:
        async with talking(self.server, opens=True) as talk:
            await talk.socket.send_str('{"do":"on","id":9}\n')
            await talk.code()
            self.assertNotIn(9, [line.get("id") for line in talk.lines])

    async def test_what_was_sent_before_the_end_is_kept(self) -> None:
        async with talking(self.server, opens=True) as talk:
            for number in range(200):
                await talk.send({"do": "edit", "version": 0, "edits": number + 1, "changes": [[number, number, "x"]]})
        await asyncio.to_thread(wait_for, lambda: 200 * b"x" in Person(self.data).text(), "all letters")

    async def test_the_engine_s_end_is_told_and_another_one_goes_on(self) -> None:
        async with talking(self.server, opens=True) as talk:
            await talk.send({"do": "edit", "version": 0, "edits": 1, "changes": [[0, 0, "answered"]]})
            await talk.line(answer="edit")
            os.kill(engine_of(self.data), signal.SIGKILL)
            self.assertEqual(await talk.code(), aiohttp.WSCloseCode.INTERNAL_ERROR)
        async with talking(self.server, opens=True) as talk:
            self.assertEqual((await talk.line(answer="open"))["text"][:8], "answered")


class Again(Served):
    """A server that ended and runs again."""

    async def met(self, server: Server, key: str, own: str = "a" * 64) -> int | None:
        """How a socket ends that shows a key; None where it goes on."""
        async with talking(server, f"again {own}") as talk:
            known = await talk.line(notice="known")
            self.assertEqual(known["proof"], guard.proof(key, "server", server.port, own, known["nonce"]))
            self.assertNotIn("welcome", [line["notice"] for line in talk.lines])
            await talk.say(guard.proof(key, "page", server.port, own, known["nonce"]))
            self.assertEqual((await talk.line(notice="welcome"))["secret"], server.secret)
            return talk.socket.close_code

    async def test_it_has_the_same_port_and_a_page_knows_it_by_its_key(self) -> None:
        server = self.serve()
        async with talking(server) as talk:
            key = (await talk.line(notice="welcome"))["key"]
        kept = self.folder / "data" / "run" / "note.web"
        self.assertEqual((stat.S_IMODE(os.stat(kept).st_mode), json.loads(kept.read_bytes())["port"]), (0o600, server.port))
        server.close()
        port, again = keep_place(self, self.folder / "data"), self.serve()
        self.assertEqual((again.port, again.secret != server.secret), (port, True))
        self.assertIsNone(await self.met(again, key))
        async with talking(again, server.secret) as talk:
            self.assertEqual(await talk.code(), POLICY_VIOLATION)
        # A second one at the same time has a place of its own, and leaves the first one's alone.
        beside = self.serve()
        self.assertNotEqual(beside.port, again.port)
        beside.close()
        again.close()
        kept.write_bytes(b'{"port": 80, "key"')
        other = self.serve()
        async with talking(other) as talk:
            self.assertNotEqual((await talk.line(notice="welcome"))["key"], key)

    async def test_another_program_with_its_port_isn_t_in_the_way(self) -> None:
        port = keep_place(self, self.folder / "data")
        with socket.create_server(("127.0.0.1", port)):
            self.assertNotEqual(self.server.port, port)

    async def test_who_has_no_key_isn_t_let_in(self) -> None:
        for last in (guard.proof("0" * 64, "page", self.server.port, "b" * 64, "c" * 64), "", "again " + "b" * 64, None):
            async with talking(self.server, "again " + "b" * 64) as talk:
                known = await talk.line(notice="known")
                # What the server itself shows is of no use to another page.
                await talk.say(known["proof"] if last is None else last)
                self.assertEqual(await talk.code(), POLICY_VIOLATION)
                self.assertEqual(talk.lines, [known])
        for said in "again " + "b" * 63, "again", "again " + "B" * 64:
            async with talking(self.server, said) as talk:
                self.assertEqual((await talk.code(), talk.lines), (POLICY_VIOLATION, []))


class Lists(Served):
    """The notes that a page lists, and opens."""

    async def test_notes_are_listed_searched_and_opened(self) -> None:
        for name, words in (("diary", "It rained.\nWe made Soup.\n"), ("plan", "a tent\n")):
            self.assertEqual(self.note("append", "--new", name, words).returncode, 0)
        (self.folder / "data" / "notes" / "broken.note").write_bytes(b"rubbish")
        async with talking(self.server, opens=True) as talk:
            listed = await talk.ask("notes")
            self.assertEqual({one["name"] for one in listed["notes"]}, {"diary", "plan", "broken", "note"})
            found = (await talk.ask("notes", words="soup"))["notes"]
            self.assertEqual([(one["name"], one["line"]) for one in found], [("diary", "We made Soup.")])
            self.assertEqual([one["name"] for one in (await talk.ask("notes", words="PLA"))["notes"]], ["plan"])
            self.assertEqual((await talk.ask("notes", path="/"))["error"], "unknown")
        async with talking(self.server, opens=True, note="diary") as talk:
            self.assertEqual((await talk.line(answer="open"))["text"][:10], "It rained.")
        # A name that nobody chose in the list makes no note.
        for name in "other", "../diary", "", "a b":
            async with talking(self.server, note=name) as talk:
                self.assertEqual(await talk.code(), aiohttp.WSCloseCode.INTERNAL_ERROR)
        self.assertEqual(sorted(path.name for path in (self.folder / "data" / "notes").glob("*.note")),
                         ["broken.note", "diary.note", "note.note", "plan.note"])


class Ends(Served):
    """A server that ends, and one whose engine can't begin."""

    async def test_the_server_s_end_ends_the_sockets(self) -> None:
        async with talking(self.server, opens=True) as talk:
            await talk.send({"do": "edit", "version": 0, "edits": 1, "changes": [[0, 0, "last"]]})
            await talk.line(answer="edit")
            self.server.process.send_signal(signal.SIGINT)
            self.assertEqual(await talk.code(), aiohttp.WSCloseCode.GOING_AWAY)
        self.assertEqual(self.server.close(), 0)
        self.assertEqual(Person(self.folder / "data").text(), b"last")

    async def test_a_note_that_can_t_be_opened_says_why(self) -> None:
        server = self.serve("--log", str(self.folder / "no" / "folder" / "log"), VIALSHOAL_DATA=str(self.folder / "other"),
                            VIALSHOAL_PROGRAM="/none")
        async with talking(server) as talk:
            answer = await talk.ask("open", protocol=1, units=["utf-16"])
            self.assertEqual(answer["error"], "failed")


if __name__ == "__main__":
    unittest.main()
