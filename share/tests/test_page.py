"""The page in Chromium: what is typed in one window is shown in the others, and is what the note's file has."""
from __future__ import annotations

import asyncio
import http.server
import os
import pathlib
import random
import signal
import subprocess
import tempfile
import threading
import unittest

from aiohttp import web

from share.tests.pages import Pages, Server, keep_place, kept
from share.tests.proved_files import give_up
from share.tests.support import NOTE, TOP, engine_of, founders_search, take, type_at_the_end, wait_for, written
from share.tests.waiting import PATIENCE
from share.text.rope import swapped

try:
    from selenium.webdriver.common.keys import Keys

    from share.tests.browser import CHROMIUM, CLOCK_GOES_ON, CLOCK_STANDS, DRIVER, MIRROR, Browser, Window
    IS_HERE = bool(CHROMIUM and DRIVER)
except ModuleNotFoundError:
    IS_HERE = False

# What the frame shows has come when it says that it is loaded, be it the browser's words that it may not.
EVIL = """<!DOCTYPE html><title>evil</title><script>
let isLoaded = null;
const framed = new Promise((yes) => { isLoaded = yes; });
</script><iframe src="http://HOST/" onload="isLoaded()"></iframe><script>
const got = [];
const say = (what) => (value) => got.push(what);
const tries = [
  fetch("http://HOST/").then((one) => one.text()).then(say("a page")),
  fetch("http://HOST/client.js").then((one) => one.text()).then(say("a script")),
  fetch("http://HOST/", { mode: "no-cors" }).then((one) => { if (one.ok) got.push("an answer"); }),
  import("http://HOST/client.js").then(say("a module")),
  new Promise((yes, no) => { const it = document.createElement("script"); it.onload = yes; it.onerror = no;
    it.src = "http://HOST/secret.js"; document.head.append(it); }).then(say("a classic script")),
  new Promise((yes, no) => { const it = new WebSocket("ws://HOST/socket"); it.onopen = yes; it.onerror = no; })
    .then(say("a socket")),
  framed.then(() => { if (frames[0].length || frames[0].document) got.push("a frame"); }),
];
Promise.allSettled(tries).then(() => { document.title = `got: ${got.join(", ")}`; });
</script>"""

# The command on a machine that lacks a package.
WITHOUT_MARKDOWN = """#!/usr/bin/python3 -B
import pathlib, sys
sys.path[0] = "{top}"
from share.editors.web import server
from share.cli.main import main
server.MARKDOWN = server.MARKDOWN[0], pathlib.Path("/none"), server.MARKDOWN[2]
sys.exit(main())
"""
# Presses keys when 0.6 seconds more have gone by, for the page: what it shows then, and which keys it has kept.
KEPT_KEYS = """((keys) => {
  const before = performance.now;
  performance.now = () => before.call(performance) + 600;
  const field = document.activeElement;
  const kept = keys.map((words) => {
    const [key, ctrlKey] = [words.replace("Ctrl-", ""), words.startsWith("Ctrl-")];
    return !field.dispatchEvent(new KeyboardEvent("keydown", {
      key, ctrlKey, keyCode: { Backspace: 8, Enter: 13, z: 90, F2: 113, F8: 119 }[key] ?? 0, bubbles: true, cancelable: true }));
  });
  performance.now = before;
  return [MIRROR.getValue(), kept];
})(arguments[0])"""


BROWSER: Browser


def setUpModule() -> None:
    """Starts one Chromium for all."""
    global BROWSER
    BROWSER = Browser()
    unittest.addModuleCleanup(BROWSER.close)


# Whether the page's text has these looks: the words of each stretch, whether they are bold, and their colour.
LOOKS = """JSON.stringify([...document.querySelectorAll("main .CodeMirror-line span[style]")]
  .filter((one) => one.style.fontWeight || one.style.color)
  .map((one) => [one.textContent, one.style.fontWeight, one.style.color].join("|"))) === JSON.stringify(words[0])"""
# Compares positions with those that CodeMirror counts from the front, while a text changes at random.
PLACES = """const done = arguments[arguments.length - 1];
import("/places.js").then(({ Places }) => {
  const cm = CodeMirror(document.createElement("div"), { lineSeparator: "\\n" });
  const places = new Places(cm);
  const wrong = [];
  let [lines, seed] = [0, 7];
  const chance = (most) => {
    seed = (seed * 1103515245 + 12345) % 2147483648;
    return (seed >> 16) % most;
  };
  for (let turn = 0; turn < 2000; turn += 1) {
    const [from, to] = [chance(60), chance(12)].map((step, at, steps) => cm.posFromIndex(at ? steps[0] + step : step));
    if (chance(3)) cm.replaceRange("ab\\n\\r\\n漢\\ncd".slice(chance(5), chance(9)), from, to);
    lines = Math.max(lines, cm.lineCount());
    const place = cm.posFromIndex(chance(200));
    const index = chance(200);
    const { line, ch } = places.at(index);
    const there = cm.posFromIndex(index);
    if (places.of(place) !== cm.indexFromPos(place) || line !== there.line || ch !== there.ch) wrong.push([turn, index, line, ch]);
  }
  done([wrong, lines > 5]);
}, (why) => done(String(why)));"""


async def said_to_another(port: int, times: int) -> list[bytes]:
    """What pages say to another server on a port, which welcomes them, and shows what it makes up, until they have come some times."""
    said, done = list[bytes](), asyncio.Event()

    async def answer(request: web.Request) -> web.WebSocketResponse:
        line = web.WebSocketResponse()
        await line.prepare(request)
        async for message in line:
            said.append(message.data)
            known = {"notice": "known", "nonce": "0" * 64, "proof": "0" * 64}
            welcome = {"notice": "welcome", "name": "evil", "missing": "", "secret": "evil", "key": "evil"}
            await line.send_json(known if len(said) % 2 else welcome)
            if len(said) >= times:
                done.set()
        return line
    application = web.Application()
    application.router.add_get("/socket", answer)
    runner = web.AppRunner(application)
    await runner.setup()
    await web.TCPSite(runner, "127.0.0.1", port, reuse_address=True, shutdown_timeout=0.1).start()
    await asyncio.wait_for(done.wait(), PATIENCE)
    await runner.cleanup()
    return said[:times]


class Writing(Pages):
    """Two windows of one person, with one note for all tests."""

    data: pathlib.Path
    server: Server
    first: Window
    second: Window

    @classmethod
    def setUpClass(cls) -> None:
        super().setUpClass()
        cls.data = pathlib.Path(tempfile.mkdtemp(prefix="share-"))
        cls.addClassCleanup(give_up, cls.data)
        cls.server = Server(cls.data, "--no-browser")
        cls.addClassCleanup(cls.server.close)
        cls.first, cls.second = BROWSER.open(cls.server.path), BROWSER.open(cls.server.path)
        cls.addClassCleanup(cls.second.close)
        cls.addClassCleanup(cls.first.close)

    def setUp(self) -> None:
        super().setUp()
        # Keys that waited for an answer may come after it.
        wait_for(lambda: (self.first.run(f"{MIRROR}.setValue('')"), self.second.text() == self.first.text() == "")[1], "an empty text")

    def tearDown(self) -> None:
        self.assert_kept(self.data, self.first, self.second)
        self.assert_no_faults(self.first, self.second)

    def test_two_windows_type_delete_and_take_back(self) -> None:
        first, second = self.first, self.second
        first.type("one two\nthree\n")
        second.shows("one two\nthree\n")
        second.type("zero ", Keys.END, Keys.BACKSPACE)
        first.shows("zero one tw\nthree\n")
        second.type(Keys.CONTROL, "z")
        first.shows("zero one two\nthree\n")
        first.press("undo")
        second.shows("zero one two\n")
        first.press("undo")
        second.shows("zero ")
        first.press("redo")
        first.press("redo")
        second.shows("zero one two\nthree\n")
        first.type(Keys.CONTROL, Keys.HOME, Keys.NULL, Keys.DELETE, Keys.DELETE)
        second.type(Keys.CONTROL, Keys.END, Keys.NULL, "four")
        for window in first, second:
            window.shows("ro one two\nthree\nfour")

    def test_an_undo_takes_twenty_keys_back(self) -> None:
        first, second = self.first, self.second
        text = ""
        for words in "a" * 12, "b" * 8, "c" * 3:
            first.type(words)
            second.shows(text := text + words)
        first.press("undo")
        second.shows("a" * 12 + "b" * 8)

    def test_line_ends_and_long_characters_are_kept(self) -> None:
        first, second = self.first, self.second
        text = "one\r\ntwo\rthree\n\U0001f370\U0001f44d\U0001f3fd\r\n\t\u2028\0end"
        second.paste(text)
        first.shows(text)
        first.to(len("one\r"))
        first.type("x", Keys.ENTER)
        text = text.replace("one\r\n", "one\rx\n\n")
        second.shows(text)
        second.to(text.index("\U0001f370") + len("\U0001f370".encode("utf-16-le")) // 2)
        second.type(Keys.BACKSPACE, "\u6f22", Keys.END, Keys.BACKSPACE)
        first.shows(text.replace("\U0001f370", "\u6f22").replace("\U0001f3fd\r", "\U0001f3fd"))

    def test_what_others_are_called_and_type_is_text(self) -> None:
        first, second = self.first, self.second
        name, text = "<img src=x onerror=alert(1)>", "</textarea><script>document.title='bad'</script>"
        second.rename(name)
        second.type(text)
        first.shows(text)
        first.wait_for("document.querySelector('.caret b')?.textContent === words[0]", name)
        first.wait_for("document.querySelectorAll('#people li').length === 2")
        self.assertEqual(first.run("document.querySelectorAll('main img, main script, header img').length"), 0)
        self.assertEqual(first.run("document.title"), "note")
        second.type(Keys.HOME)
        first.wait_for(f"{MIRROR}.getAllMarks()[0]?.find()?.ch === 0")
        second.type(Keys.SHIFT, Keys.END, Keys.NULL)
        first.wait_for(f"{MIRROR}.getAllMarks().length === 2")

    def test_looks_are_set_and_others_see_them(self) -> None:
        first, second = self.first, self.second
        first.type("one two three")
        second.shows("one two three")
        first.select(0, 3)
        first.chord(Keys.CONTROL, "b")
        second.wait_for(LOOKS, ["one|bold|"])
        second.select(2, 7)
        second.run("document.getElementById('colour').value = '2'")
        second.run("document.getElementById('colour').dispatchEvent(new Event('change'))")
        looks = ["on|bold|", "e|bold|rgb(204, 34, 34)", " two||rgb(204, 34, 34)"]
        for window in first, second:
            window.wait_for(LOOKS, looks)
        done = subprocess.run([NOTE, "export", "note", "-", "--format", "html"], capture_output=True, check=True,
                              env={**os.environ, "VIALSHOAL_DATA": str(self.data)})
        self.assertIn('<span style="font-weight:bold">on</span><span style="font-weight:bold;color:#cc2222">e</span>',
                      done.stdout.decode())
        # A second time it isn't bold any more; and an undo is of one's own looks alone.
        first.select(0, 3)
        first.press("bold")
        first.wait_for(LOOKS, ["e two||rgb(204, 34, 34)"])
        first.type(Keys.CONTROL, "z")
        second.wait_for(LOOKS, looks)
        # What is selected is shown to others, and parts what looks alike.
        second.to(0)
        second.press("undo")
        first.wait_for(LOOKS, ["one|bold|"])
        first.press("undo")
        second.wait_for(LOOKS, [])
        # Who comes later sees what was set, and nothing is set where nothing is selected.
        first.select(4, 7)
        first.press("bold")
        first.to(0)
        first.press("bold")
        first.wait_for("document.getElementById('words').textContent.includes('First select')")
        first.run("document.querySelector('#words button').click()")
        third = BROWSER.open(self.server.path)
        self.addCleanup(third.close)
        third.wait_for(LOOKS, ["two|bold|"])
        self.assert_no_faults(third)

    def test_others_text_doesn_t_come_into_a_selection(self) -> None:
        first, second = self.first, self.second
        first.type("one")
        second.shows("one")
        first.run(f"{MIRROR}.execCommand('selectAll')")
        second.type(Keys.HOME, "before ", Keys.END, " after")
        first.shows("before one after")
        self.assertEqual(first.run(f"{MIRROR}.getSelection()"), "one")
        second.shows("before one after")
        second.to(len("before one"))
        first.to(len("before one"))
        second.type("!")
        first.shows("before one! after")
        first.type("?")
        second.shows("before one?! after")
        # At a line's begin it goes with the line where another one is opened above.
        first.to(0)
        second.to(0)
        second.type(Keys.ENTER)
        first.shows("\nbefore one?! after")
        first.type("> ")
        second.shows("\n> before one?! after")

    def test_positions_are_those_of_codemirror(self) -> None:
        self.assertEqual(self.first.driver.execute_async_script(PLACES), [[], True])

    def test_very_much_is_replaced_at_once(self) -> None:
        first, second = self.first, self.second
        first.paste("".join(f"one {number} two\n" for number in range(200)))
        first.run("((cm) => cm.operation(() => { for (const one = cm.getSearchCursor('two'); one.findNext();) "
                  "one.replace('\U0001f370'); }))(%s)" % MIRROR)
        second.shows("".join(f"one {number} \U0001f370\n" for number in range(200)))

    def test_keys_are_kept_until_the_last_edit_is_answered(self) -> None:
        first, second = self.first, self.second
        engine = engine_of(self.data)
        os.kill(engine, signal.SIGSTOP)
        self.addCleanup(os.kill, engine, signal.SIGCONT)
        first.type("a")
        first.shows("a")
        # Half a second later the next keys wait, for 0.2 seconds at most.
        self.assertEqual(first.run(KEPT_KEYS.replace("MIRROR", MIRROR), ["b", "Backspace", "\u6f22", "Enter"]), ["a", [True] * 4])
        first.shows("a\u6f22\n")
        self.assertEqual(first.run(KEPT_KEYS.replace("MIRROR", MIRROR), ["c"]), ["a\u6f22\n", [True]])
        os.kill(engine, signal.SIGCONT)
        first.shows("a\u6f22\nc")
        second.shows("a\u6f22\nc")
        second.type("others' ")
        first.shows("others' a\u6f22\nc")

    def test_kept_keys_are_done_before_what_comes_after_them(self) -> None:
        first, second = self.first, self.second
        engine, keys = engine_of(self.data), KEPT_KEYS.replace("MIRROR", MIRROR)
        first.run(f"{MIRROR}.setValue('one')")
        second.shows("one")
        first.press("changed")
        first.wait_for("!document.getElementById('since').hidden && !document.getElementById('change-after').disabled")
        first.to(3)
        # F8 goes to what changed, at the front; F2 does nothing, and ends the waiting in the midst of a command.
        for pressed, text in (["b", "F8"], "oneab"), (["b", "Ctrl-z", "F2"], "one"):
            os.kill(engine, signal.SIGSTOP)
            first.type("a")
            first.run(keys, pressed)
            os.kill(engine, signal.SIGCONT)
            first.run(f"{MIRROR}.setCursor({MIRROR}.posFromIndex({MIRROR}.getValue().length))")
            first.type("!")
            second.shows(f"{text}!")
            first.run(f"{MIRROR}.setValue('one')")
            second.shows("one")
            first.to(3)
        first.press("unchanged")

    def test_typing_goes_on_while_the_engine_is_slow(self) -> None:
        first, second = self.first, self.second
        engine = engine_of(self.data)
        os.kill(engine, signal.SIGSTOP)
        for number in range(10, 30):
            first.type(f"{number},")
        os.kill(engine, signal.SIGCONT)
        for number in range(30, 50):
            first.type(f"{number},")
        first.type(Keys.BACKSPACE, Keys.ENTER, "end")
        text = ",".join(map(str, range(10, 50))) + "\nend"
        first.shows(text)
        second.shows(text)

    def test_an_input_method_and_others_text_don_t_hurt_each_other(self) -> None:
        first, second = self.first, self.second
        first.run(CLOCK_STANDS)
        self.addCleanup(first.run, CLOCK_GOES_ON)
        for text, at in (("a\u00a0b\rc\u200f d ", 2), ("x\ty", 2), ("x\t", 2), ("a\r", 2), ("a\nb", 1)):
            first.run(f"{MIRROR}.setValue(arguments[0])", text)
            second.shows(text)
            first.run(f"{MIRROR}.focus()")
            first.to(at)
            for part in "k", "ka", "kan":
                first.command("Input.imeSetComposition", text=part, selectionStart=len(part), selectionEnd=len(part))
            second.run(f"{MIRROR}.replaceRange('before ', {{ line: 0, ch: 0 }})")
            wait_for(lambda text=text: kept(self.data) == f"before {text}", "the other's text")
            first.command("Input.insertText", text="\u6f22")
            for window in first, second:
                window.shows(f"before {text[:at]}\u6f22{text[at:]}")
            # What a spell checker or a picker puts in comes without keys, too.
            first.command("Input.insertText", text="\U0001f389")
            second.shows(f"before {text[:at]}\u6f22\U0001f389{text[at:]}")

    def test_two_windows_at_random(self) -> None:
        chance = random.Random(7)
        windows = [self.first, self.second]
        for turn in range(24):
            window = windows[turn % 2]
            window.to(chance.randrange(1 + len(window.text())))
            window.type(*chance.choice([["ab c"], ["x", Keys.ENTER, "y"], [Keys.BACKSPACE] * 3, [Keys.DELETE], [Keys.CONTROL, "z"],
                                        [Keys.SHIFT, Keys.LEFT, Keys.LEFT, Keys.NULL, "\u6f22\U0001f389"]]))


class Alone(Pages):
    """One window, with a server of its own."""

    def setUp(self) -> None:
        super().setUp()
        self.data = self.folder / "data"

    def server(self, **more: str) -> Server:
        """A server."""
        server = Server(self.data, "--no-browser", **more)
        self.addCleanup(server.close)
        return server

    def window(self, server: Server) -> Window:
        """A window, which has no faults at its end."""
        window = BROWSER.open(server.path)
        self.addCleanup(window.close)
        self.addCleanup(self.assert_no_faults, window)
        self.addCleanup(window.run, "window.onbeforeunload = null")
        return window

    def test_the_address_has_no_secret_and_the_page_can_be_loaded_anew(self) -> None:
        server = self.server()
        window = self.window(server)
        self.assertEqual(window.driver.current_url, f"http://{server.host}/")
        self.assertNotIn(server.secret, window.run("document.documentElement.outerHTML + JSON.stringify(history.state)"))
        window.type("kept")
        window.state("kept here alone")
        wait_for(lambda: kept(self.data) == "kept", "the text to be kept")
        window.driver.refresh()
        window.wait_for(f"typeof CodeMirror === 'function' && document.title === 'note' && !{MIRROR}.getOption('readOnly')")
        window.shows("kept")

    def test_the_address_alone_opens_no_note(self) -> None:
        server = self.server()
        BROWSER.driver.switch_to.new_window("window")
        window = Window(BROWSER, BROWSER.driver.current_window_handle)
        self.addCleanup(window.close)
        for address in (f"http://{server.host}/", f"http://{server.host}/#{'0' * 32}"):
            window.driver.get(address)
            # Where the address differs in its end alone the page is loaded anew a moment later.
            window.wait_for("!window.isOld && document.getElementById('state').textContent.includes(words[0])",
                            "This page can't be opened so")
            self.assertEqual([window.text(), window.run("document.title"), window.driver.current_url],
                             ["", "Note", f"http://{server.host}/"])
            window.run("(window.isOld = true)")

    def test_a_page_of_another_origin_gets_nothing(self) -> None:
        server = self.server()
        window = self.window(server)
        page = EVIL.replace("HOST", server.host).encode()

        class Evil(http.server.BaseHTTPRequestHandler):
            """Another server of this machine."""

            def do_GET(self) -> None:  # pylint: disable=invalid-name
                """Answers all with the page."""
                self.send_response(200)
                self.send_header("Content-Type", "text/html")
                self.end_headers()
                self.wfile.write(page)

            def log_message(self, *_: object) -> None:
                """Says nothing."""

        evil = http.server.ThreadingHTTPServer(("127.0.0.1", 0), Evil)
        threading.Thread(target=evil.serve_forever, daemon=True).start()
        self.addCleanup(evil.server_close)
        self.addCleanup(evil.shutdown)
        window.driver.get(f"http://127.0.0.1:{evil.server_address[1]}/")
        window.wait_for("document.title.startsWith('got:')")
        self.assertEqual(window.run("document.title"), "got:")
        window.told()

    def test_one_writes_on_while_the_log_is_away(self) -> None:
        redis = self.redis()
        other = self.opened(self.person("other"), url=redis.url)
        type_at_the_end(other, "")
        link = self.person("other").link()
        window = self.window(self.server(VIALSHOAL_LINK=link))
        window.state("all sent")
        redis.kill()
        type_at_the_end(other, "theirs\n")
        window.type("mine")
        window.state("offline, ")
        window.shows("mine")
        redis.start()
        wait_for(lambda: (other.take_in(), b"mine" in other.text and b"theirs" in other.text)[1], "both to meet")
        window.shows(swapped(bytes(other.text)).decode())
        window.state("all sent")

    def test_a_view_whose_package_is_missing_names_it_and_the_rest_works(self) -> None:
        command = self.folder / "note"
        command.write_text(WITHOUT_MARKDOWN.format(top=str(TOP)))
        command.chmod(0o700)
        server = Server(self.data, "--no-browser", command=str(command))
        self.addCleanup(server.close)
        window = self.window(server)
        window.type("*kept*")
        window.press("format")
        window.wait_for("document.getElementById('formatted').textContent.includes(\"needs Debian's libjs-markdown-it, which isn't\")")
        window.press("format")
        self.assert_kept(self.data, window)

    def test_it_says_what_is_left_out(self) -> None:
        with founders_search():
            other = self.opened(self.person("other"), url=self.file_log())
        written(other, "theirs\n")
        window = self.window(self.server(VIALSHOAL_LINK=self.person("other").link()))
        window.shows("theirs\n")
        other.session.close()
        take(self.person("other"), other.session.number)
        window.state(f"all sent, left out: 7 of site {other.session.number}")
        window.wait_for("document.getElementById('words').textContent.includes('bin/note recover --lost note')")
        # The history has it behind its last step.
        window.press("history")
        window.wait_for("document.getElementById('at').max > document.getElementById('at').value")
        window.press("later")
        window.wait_for("document.querySelector('#past-text .CodeMirror').CodeMirror.getValue() === 'theirs\\n'")
        window.gives("document.getElementById('step').innerText",
                     f"left out, since others hold its place: 7 characters of site {other.session.number}")
        window.gives("document.getElementById('authors').innerText", f"site {other.session.number}")

    def test_an_engine_that_ended_is_started_again(self) -> None:
        server = self.server()
        window = self.window(server)
        window.type("answered")
        wait_for(lambda: kept(self.data) == "answered", "the text to be kept")
        engine = engine_of(self.data)
        os.kill(engine, signal.SIGSTOP)
        window.type(" or not")
        window.shows("answered or not")
        os.kill(engine, signal.SIGKILL)
        window.type(", typed on")
        window.state("kept here alone")
        window.shows("answered or not, typed on")
        self.assert_kept(self.data, window)
        # What was typed before is taken back, too. How many stretches it was is a matter of time.
        for command, end in ("undo", ""), ("redo", "answered or not, typed on"):
            while (shown := window.text()) != end:
                window.press(command)
                window.wait_for(f"{MIRROR}.getValue() !== words[0]", shown)
        self.assert_kept(self.data, window)

    def test_a_server_that_ended_is_known_again_and_another_one_gets_nothing(self) -> None:
        port, server = keep_place(self, self.data), self.server()
        self.assertEqual(server.port, port)
        window = self.window(server)
        window.type("kept")
        wait_for(lambda: kept(self.data) == "kept", "the text to be kept")
        server.close()
        window.state("bin/note web has ended. This page goes on when it runs again. "
                     "Type on: what you type is kept in this page until then.")
        window.type(" and more")
        self.assertEqual(window.text(), "kept and more")
        said = asyncio.run(said_to_another(server.port, 4))
        self.assertRegex(b"|".join(said), rb"^again [0-9a-f]{64}(\|again [0-9a-f]{64}){3}$")
        self.assertEqual(len(set(said)), 4)
        again = self.server()
        self.assertEqual(again.port, server.port)
        window.state("kept here alone")
        window.type(Keys.END, " on")
        window.shows("kept and more on")
        self.assert_kept(self.data, window)
        # The tab has the secret of now.
        window.driver.refresh()
        window.wait_for(f"document.title === 'note' && !{MIRROR}.getOption('readOnly')")
        window.shows("kept and more on")
        window.told()

    def test_the_past_has_colours_of_who_wrote_what(self) -> None:
        other = self.opened(self.person("other"), url=self.file_log())
        type_at_the_end(other, "theirs ")
        window = self.window(self.server(VIALSHOAL_LINK=self.person("other").link()))
        window.shows("theirs ")
        window.type(Keys.END, "mine")
        window.type(Keys.HOME, Keys.DELETE)
        window.shows("heirs mine")
        window.press("writers")
        window.wait_for("document.querySelector('#text .by-1')?.textContent === 'mine'")
        window.wait_for("document.querySelectorAll('#legend li').length === 2")
        window.wait_for("document.querySelector('#text .by-0')?.textContent === 'heirs '")
        window.press("writers")
        window.wait_for("!document.querySelector('#text .by-1')")
        window.press("history")
        window.wait_for("document.getElementById('at').max === '3'")
        past = "document.querySelector('#past-text .CodeMirror').CodeMirror.getValue()"
        window.wait_for(f"{past} === 'heirs mine'")
        window.wait_for("document.querySelector('#past-text .of-1')?.textContent === 'mine'")
        window.wait_for("document.querySelector('#past-text .of-0')?.textContent === 'heirs '")
        window.wait_for("/step 3 of 3: .*, 1 deleted/.test(document.getElementById('step').innerText)")
        window.press("earlier")
        window.wait_for(f"{past} === 'theirs mine'")
        window.element("#at").send_keys(Keys.ARROW_LEFT)
        window.wait_for(f"{past} === 'theirs '")
        window.wait_for("document.querySelectorAll('#authors li').length <= 1")
        window.element("#at").send_keys(Keys.HOME)
        window.wait_for(f"{past} === '' && document.getElementById('step').textContent === 'at the beginning, of 3 steps'")
        window.press("back")
        window.wait_for("document.activeElement.getAttribute('role') === 'textbox'")
        window.type("!")
        window.shows("!heirs mine")


def load_tests(loader: unittest.TestLoader, tests: unittest.TestSuite, _: object) -> unittest.TestSuite:
    """The tests, where there is a browser."""
    if IS_HERE:
        return tests
    print("Chromium, its driver or python3-selenium isn't installed: the page's tests in a browser are skipped.", flush=True)
    return loader.suiteClass([])


if __name__ == "__main__":
    unittest.main()
