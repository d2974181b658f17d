"""What one does with the page in Chromium beside typing: find, print, read it by ear and by keys, follow links, see it formatted."""
from __future__ import annotations

import base64
import http.server
import os
import pathlib
import subprocess
import tempfile
import threading
import unittest

from share.tests.pages import LOOKS_SO, Pages, Server, looks_well
from share.tests.proved_files import give_up
from share.tests.support import NOTE, wait_for

try:
    from selenium.webdriver.common.keys import Keys

    from share.tests.browser import CHROMIUM, DRIVER, MIRROR, Browser, Window
    IS_HERE = bool(CHROMIUM and DRIVER)
except ModuleNotFoundError:
    IS_HERE = False

BROWSER: Browser
MATCHES = "document.getElementById('count').textContent === words[0]"
TOLD = "document.getElementById('told').textContent === words[0]"
FORMATTED = "document.getElementById('formatted').textContent.includes(words[0])"
DIALOG = "document.getElementById('opens').open"
# Closes what a test may have left open.
TIDY = """(() => {
  for (const id of ['listed', 'opens']) document.getElementById(id).close();
  for (const [shown, button] of [['formatted', 'format'], ['finding', 'found'], ['legend', 'writers'], ['past', 'back']]) {
    if (!document.getElementById(shown).hidden) document.getElementById(button).click();
  }
})()"""
FAMILY = "\U0001f469‍\U0001f469‍\U0001f467"
FLAG = "\U0001f1eb\U0001f1f7"
# Another element has the focus while the line of the cursor is drawn anew, after a pointer was lost perhaps; then the text has it again as
# by keys, so late that CodeMirror is to look for the browser's cursor at once. It is counted how often it does.
AWAY_AND_BACK = """((cm, isPointed) => {
  const { input } = cm.display;
  const polls = input.constructor.prototype.pollSelection;
  window.polled = 0;
  input.pollSelection = function () {
    window.polled += 1;
    return polls.call(this);
  };
  const kinds = isPointed ? ['pointerdown', 'pointercancel'] : [];
  for (const kind of kinds) document.body.dispatchEvent(new PointerEvent(kind, { bubbles: true }));
  document.getElementById('undo').focus();
  const { line } = cm.getCursor();
  cm.markText({ line, ch: 0 }, { line, ch: 1 }, { className: 'x' }).clear();
  const end = Date.now() + 300;
  while (Date.now() < end);
  cm.getInputField().focus();
})(%s, arguments[0])""" % (MIRROR if IS_HERE else "")
# Where a name is, and where the ink of the line above it ends: its letters that go below the line.
NAME_PLACE = """((flag) => {
  const line = document.querySelectorAll('main .CodeMirror-line')[0].firstChild;
  const range = document.createRange();
  range.selectNodeContents(line);
  const box = [...range.getClientRects()].at(-1);
  const ink = Object.assign(document.createElement('canvas').getContext('2d'), { font: getComputedStyle(line).font }).measureText('gjpqy');
  const bottom = box.bottom - ink.fontBoundingBoxDescent + ink.actualBoundingBoxDescent;
  return flag.getBoundingClientRect().top - bottom;
})(document.querySelector('.caret b'))"""
# Markdown that would load or run something, where HTML were taken over, or an address of it; HOST counts who asks it.
HOSTILE = """# hostile
<script>document.title = 'bad'</script><script src="http://HOST/script.js"></script>
<img src="http://HOST/img.png" onerror="document.title = 'bad'"> <img src=x onerror=alert(1)>
<svg onload="document.title='bad'"><image href="http://HOST/svg.png"/></svg> <iframe src="http://HOST/frame"></iframe>
<meta http-equiv="refresh" content="0; url=http://HOST/meta"> <link rel="prefetch" href="http://HOST/prefetch">
<link rel="stylesheet" href="http://HOST/style.css"><style>body { background: url(http://HOST/css.png) }</style>
<p style="background: url(http://HOST/inline.png)">styled</p> <object data="http://HOST/object"></object>
<!-- <img src="http://HOST/comment.png"> --> <base href="http://HOST/"> <form action="http://HOST/form"><input name=a></form>
<video src="http://HOST/video" poster="http://HOST/poster.png" autoplay></video> <embed src="http://HOST/embed">

![a picture](http://HOST/picture.png) [![in a link](http://HOST/inner.png)](http://HOST/outer) ![data](data:image/png;base64,AAAA)
[script](javascript:document.title='bad') [data](data:text/html,<script>alert(1)</script>) [vb](vbscript:x) [file](file:///etc/passwd)
[odd](java&#115;cript:alert(1)) [blob](blob:http://HOST/x) <javascript:alert(1)> <http://HOST/auto> http://HOST/bare [ref][1]
[1]: http://HOST/reference "title"
[a](//HOST/relative) [b](/socket) [c](#x) ![d](//HOST/relative.png) <a href="http://HOST/a" onclick="alert(1)" id=note>a</a>

| a | b |
|---|:-:|
| ![t](http://HOST/table.png) | <img src=http://HOST/cell.png> |

the end of it
"""
ALLOWED = {"P", "H1", "H2", "UL", "OL", "LI", "TABLE", "THEAD", "TBODY", "TR", "TH", "TD", "EM", "STRONG", "S", "BR", "HR", "CODE", "DIV",
           "SPAN", "BLOCKQUOTE"}
ELEMENTS = """[...document.querySelectorAll('#formatted *')].map((one) => [one.tagName, ...one.getAttributeNames()])"""
# Each is formatted or given up in bounded time, and none keeps the page from its user.
DEEP = [">" * 20_000 + " x", "- " * 5_000 + "x", "[" * 50_000, "![" * 30_000, "*a " * 15_000 + "a* " * 15_000, "`" + "``a`" * 10_000,
        "<" * 50_000, "**a " * 20_000, "&" * 50_000, "|a" * 10_000 + "\n" + "|-" * 10_000 + "\n" + "|a\n" * 1_000, "a\n  " * 60_000]
# How long the page waits for what the reader of Markdown does next, and how long a name is shown, in ms.
PATIENCE_MS, NAMED_MS = 4_000, 2_000
# A reader of Markdown that says what the test has it say.
SLOW_READER = """(() => {
  window.before ??= window.Worker;
  window.reads = false;
  window.Worker = class {
    constructor() {
      window.says = (data) => this.onmessage({ data });
      setTimeout(() => window.says(null));
    }
    postMessage() { window.reads = true; }
    terminate() { this.onmessage = () => {}; }
  };
})()"""
SAYS = "void window.says(arguments[0])"
# Keeps the numbers that the reader says.
HEARD = """(() => {
  window.before ??= window.Worker;
  window.Worker = class extends window.before {
    constructor(...words) {
      super(...words);
      this.addEventListener("message", ({ data }) => { if (typeof data === "number") window.heard.push(data); });
    }
  };
})()"""


def setUpModule() -> None:
    """Starts one Chromium for all."""
    global BROWSER
    BROWSER = Browser(900, 600)
    unittest.addModuleCleanup(BROWSER.close)


class Asked(http.server.BaseHTTPRequestHandler):
    """Another server, which keeps who asked for what, and from where."""

    asked: list[tuple[str, str | None]] = []

    def do_GET(self) -> None:  # pylint: disable=invalid-name
        """Answers nothing of interest."""
        self.asked.append((self.path, self.headers.get("Referer")))
        self.send_response(200)
        self.send_header("Content-Type", "text/html")
        self.end_headers()
        self.wfile.write(b"<!DOCTYPE html><title>there</title>")

    def log_message(self, *_: object) -> None:
        """Says nothing."""


class Using(Pages):
    """Two windows of one person, with one note for all tests."""

    data: pathlib.Path
    server: Server
    first: Window
    second: Window
    host: str
    diary: subprocess.Popen[bytes]

    @classmethod
    def setUpClass(cls) -> None:
        super().setUpClass()
        cls.data = pathlib.Path(tempfile.mkdtemp(prefix="share-"))
        cls.addClassCleanup(give_up, cls.data)
        # Another note is made meanwhile.
        cls.diary = subprocess.Popen([NOTE, "append", "--new", "diary", "It rained."], env={**os.environ, "VIALSHOAL_DATA": str(cls.data)})
        cls.addClassCleanup(cls.diary.wait)
        cls.server = Server(cls.data, "--no-browser", VIALSHOAL_NAME="Ada")
        cls.addClassCleanup(cls.server.close)
        cls.first, cls.second = BROWSER.open(cls.server.path), BROWSER.open(cls.server.path)
        cls.addClassCleanup(cls.second.close)
        cls.addClassCleanup(cls.first.close)
        other = http.server.ThreadingHTTPServer(("127.0.0.1", 0), Asked)
        threading.Thread(target=other.serve_forever, daemon=True).start()
        cls.addClassCleanup(other.server_close)
        cls.addClassCleanup(other.shutdown)
        cls.host = f"127.0.0.1:{other.server_address[1]}"

    def setUp(self) -> None:
        super().setUp()
        self.first.run(TIDY)
        self.first.run(f"{MIRROR}.setValue('')")
        self.second.shows("")
        self.first.run(f"{MIRROR}.focus()")
        # A busy machine reads Markdown for as long as it takes, and shows late who has moved.
        self.first.holds_timers(PATIENCE_MS, NAMED_MS)
        Asked.asked.clear()

    def tearDown(self) -> None:
        self.assert_kept(self.data, self.first, self.second)
        self.assert_no_faults(self.first, self.second)

    def put(self, text: str) -> None:
        """Has the note be this text."""
        self.first.run(f"{MIRROR}.setValue(arguments[0])", text)
        self.second.shows(text)

    def test_enter_goes_from_match_to_match(self) -> None:
        first, text = self.first, "a word, a Word\nand words\n"
        self.put(text)
        first.to(0)
        first.type(Keys.CONTROL, "f")
        first.type("word")
        first.wait_for(MATCHES, "1 of 3")
        first.type(Keys.ENTER, Keys.ENTER)
        first.wait_for(MATCHES, "3 of 3")
        first.type(Keys.ENTER)
        first.wait_for(MATCHES, "1 of 3")
        first.type(Keys.SHIFT, Keys.ENTER)
        first.wait_for(MATCHES, "3 of 3")
        self.assertEqual(first.text(), text)
        first.run("document.getElementById('exact').click()")
        first.wait_for(MATCHES, "2 of 2")
        first.run("document.getElementById('exact').click()")
        first.element("#sought").send_keys("s", Keys.ESCAPE)
        first.gives(f"[{MIRROR}.getSelection(), document.getElementById('finding').hidden]", ["words", True])
        first.type("!")
        self.second.shows("a word, a Word\nand !\n")
        first.type(Keys.CONTROL, "f")
        first.element("#sought").clear()
        first.element("#sought").send_keys("no such", Keys.ENTER)
        first.wait_for(MATCHES, "no match")
        first.type(Keys.ESCAPE)

    def test_one_match_is_replaced_or_all_which_one_undo_takes_back(self) -> None:
        first, text = self.first, "tea, tea and TEA\n(tea)\n"
        self.put(text)
        first.to(0)
        first.press("replace")
        first.type("tea")
        first.element("#other").send_keys("$& \\1")
        first.wait_for(MATCHES, "1 of 4")
        first.press("one")
        self.second.shows(text.replace("tea", "$& \\1", 1))
        first.wait_for(MATCHES, "1 of 3")
        self.second.run(f"{MIRROR}.replaceRange('more tea\\n', {{ line: 0, ch: 0 }})")
        first.wait_for(MATCHES, "2 of 4")
        first.press("all")
        first.wait_for(MATCHES, "4 replaced")
        self.second.shows("more $& \\1\n$& \\1, $& \\1 and $& \\1\n($& \\1)\n")
        first.type(Keys.ESCAPE)
        first.type(Keys.CONTROL, "z")
        self.second.shows("more tea\n$& \\1, tea and TEA\n(tea)\n")
        first.type(Keys.CONTROL, "z")
        self.second.shows("more tea\n" + text)

    def test_a_name_is_shown_for_a_while_and_over_no_words(self) -> None:
        first, second = self.first, self.second
        self.put("jumping quickly\nbelow\n")
        second.to(9)
        second.to(20)
        # It may be seen first where the cursor was before.
        first.wait_for("document.querySelector('.caret.moved') && getComputedStyle(document.querySelector('.caret b')).opacity === '1' "
                       f"&& {NAME_PLACE} >= 0")
        first.time_goes_on(NAMED_MS)
        first.wait_for("document.querySelector('.caret:not(.moved)') && "
                       "getComputedStyle(document.querySelector('.caret b')).opacity === '0'")
        second.type("x")
        first.wait_for("document.querySelector('.caret.moved')")
        self.assertEqual(first.run("document.querySelector('.CodeMirror-code').textContent.includes('Ada')"), False)

    def test_a_key_takes_a_whole_sign(self) -> None:
        first = self.first
        for text, keys, left in ((f"a{FAMILY}", Keys.BACKSPACE, "a"), (f"{FLAG}{FLAG}", Keys.BACKSPACE, FLAG),
                                 ("a\n", Keys.BACKSPACE, "a"), ("e\u0301", Keys.BACKSPACE, ""), ("a\r", Keys.BACKSPACE, "a"),
                                 (f"{FAMILY}b", Keys.HOME + Keys.DELETE, "b"),
                                 (f"{FAMILY}b", Keys.HOME + Keys.RIGHT + "x", f"{FAMILY}xb"),
                                 (f"b{FAMILY}", Keys.LEFT + "x", f"bx{FAMILY}")):
            self.put(text)
            first.to(len(text.encode("utf-16-le")) // 2)
            first.type(keys)
            self.second.shows(left)

    def test_emoji_that_have_a_half_in_common_are_typed_and_deleted_whole(self) -> None:
        first, cake, party, jar = self.first, "\U0001f370", "\U0001f389", "\U0001fb70"
        for text, begin, end, put, left in ((f"a{cake}b", 1, 3, party, f"a{party}!b"), (f"a{cake}b", 1, 3, jar, f"a{jar}!b"),
                                            (f"{cake}{party}", 0, 2, "", f"!{party}"), (f"{cake}{party}", 2, 4, "", f"{cake}!"),
                                            (f"{cake}{party}{cake}", 2, 4, "\n", f"{cake}\n!{cake}")):
            self.put(text)
            first.select(begin, end)
            # As a picker or a phone's keyboard does it, which tells no key.
            first.command("Input.insertText", text=put)
            first.wait_for(f"{MIRROR}.getValue() !== words[0]", text)
            first.type_over("!")
            self.second.shows(left)
        self.put(f"{cake}{party}")
        first.to(2)
        first.run("document.execCommand('delete')")
        self.second.shows(party)
        first.command("Input.dispatchKeyEvent", type="keyDown", key=cake, text=cake)
        self.second.shows(cake + party)

    def test_who_comes_back_by_keys_goes_on_where_the_cursor_was(self) -> None:
        first = self.first
        for is_pointed in [False, True] * 4:
            self.put("one\ntwo\nthree\n")
            first.run(f"{MIRROR}.focus()")
            first.select(4, 7)
            first.type_over("p")
            first.run(AWAY_AND_BACK, is_pointed)
            first.wait_for("window.polled > 3")
            first.type_over("016.")
            first.wait_for(f"{MIRROR}.getValue().includes('016.')")
            self.assertEqual(first.text(), "one\np016.\nthree\n")

    def test_a_line_is_from_right_to_left_where_its_words_are(self) -> None:
        first = self.first
        self.put("left\n\u05e9\u05dc\u05d5\u05dd 12 abc\n")
        first.to(len("left\n"))
        places = f"[5, 6, 7].map((at) => {MIRROR}.charCoords({MIRROR}.posFromIndex(at)).left)"
        right, after, further = first.run(places)
        self.assertGreater(right, first.run("document.querySelector('main .CodeMirror-lines').getBoundingClientRect().right - 60"))
        self.assertGreater(after - further, 0)
        first.type(Keys.LEFT, "\u05d0")
        self.second.shows("left\n\u05e9\u05d0\u05dc\u05d5\u05dd 12 abc\n")
        first.type(Keys.RIGHT, Keys.BACKSPACE)
        self.second.shows("left\n\u05d0\u05dc\u05d5\u05dd 12 abc\n")

    def test_all_of_the_text_can_be_read_aloud(self) -> None:
        first = self.first
        lines = [f"line {number} of it" for number in range(300)]
        self.put("\n".join(lines))
        first.wait_for(f"{MIRROR}.getViewport().to === 300")
        nodes = first.command("Accessibility.getFullAXTree")["nodes"]

        def of(role: str) -> list[str]:
            return [node["name"]["value"] for node in nodes if node.get("role", {}).get("value") == role]
        said = [words.replace("\u00a0", " ") for words in of("StaticText")]
        self.assertEqual([words for words in said if words.startswith("line ")], lines)
        self.assertIn("Text of the note", of("textbox"))
        self.assertIn("Find", of("button"))
        self.assertIn("note", of("heading"))
        self.assertEqual([name for name in of("button") + of("textbox") if not name], [])

    def test_others_are_told_last(self) -> None:
        first, second = self.first, self.second
        self.put("one\ntwo\n")
        self.assertEqual(first.run("document.getElementById('told').ariaLive"), "polite")
        self.assertTrue(first.run("!document.getElementById('told').nextElementSibling"))
        first.run("document.getElementById('told').textContent = ''")
        # What another test's other window changed last can be told with it; that is in the first line now.
        second.to(3)
        second.type(" more")
        first.wait_for(TOLD, "Others changed line 1: one more")
        second.rename("Bob")
        first.wait_for("/Bob came\\./.test(document.getElementById('told').textContent)")

    def test_keys_alone_reach_all_and_leave_the_text(self) -> None:
        first = self.first
        self.put("x\n")
        first.to(1)
        first.type(Keys.TAB)
        self.second.shows("x\t\n")
        first.type(Keys.ESCAPE, Keys.SHIFT + Keys.TAB)
        first.gives("document.activeElement.id", "name")
        reached = []
        for _ in range(20):
            first.type(Keys.SHIFT + Keys.TAB)
            reached.append(first.run("document.activeElement.id"))
            if reached[-1] == "notes":
                break
        self.assertEqual(reached, ["changed", "remarks", "suggesting", "suggest", "remark", "history", "format", "writers", "replace",
                                   "find", "colour", "bold", "redo", "undo", "notes"])
        first.type(Keys.ENTER)
        first.wait_for("document.getElementById('listed').open && document.activeElement.id === 'wanted'")
        first.type(Keys.ESCAPE)
        first.wait_for("!document.getElementById('listed').open")
        for _ in range(16):
            first.type(Keys.TAB)
        first.type("y", Keys.TAB, "z")
        self.second.shows("x\ty\tz\n")

    def printed(self) -> str:
        """What the window's print as PDF has as text."""
        data = base64.b64decode(self.first.command("Page.printToPDF")["data"])
        return subprocess.run(["pdftotext", "-layout", "-", "-"], input=data, stdout=subprocess.PIPE, check=True).stdout.decode()

    def test_print_has_all_lines(self) -> None:
        first = self.first
        self.put("\n".join(f"line {number}" for number in range(1500)) + "\n**bold**\n")
        first.select(0, 4)
        first.press("bold")
        first.wait_for("document.querySelector('main span[style*=\"bold\"]')")
        said = self.printed().split()
        self.assertEqual(said, [word for number in range(1500) for word in ("line", str(number))] + ["**bold**"])
        first.press("format")
        first.wait_for(FORMATTED, "line 1499\nbold")
        self.assertEqual(self.printed().split()[-4:], ["1498", "line", "1499", "bold"])
        first.press("format")
        first.press("history")
        first.wait_for("document.querySelector('#past-text .CodeMirror').CodeMirror.getValue().includes('line 1499')")
        self.assertIn("**bold**", self.printed().split())
        first.press("back")

    def test_a_link_opens_after_its_target_was_shown_and_tells_nobody(self) -> None:
        first = self.first
        self.put(f"see http://{self.host}/a?b=c#d, and javascript:alert(1) or ftp://x.example/\n"
                 f"The last line ends in http://{self.host}/\n")
        first.wait_for("document.querySelector('main .cm-link')?.textContent === words[0]", f"http://{self.host}/a?b=c#d")
        first.gives("document.querySelectorAll('main .cm-link').length", 2)
        first.click_on("main .cm-link")
        self.assertFalse(first.run(DIALOG))
        first.click_with_control("main .cm-link")
        first.wait_for(f"{DIALOG} && document.getElementById('address').textContent === words[0]", f"http://{self.host}/a?b=c#d")
        first.type(Keys.ESCAPE)
        first.wait_for(f"!{DIALOG}")
        self.assertEqual(Asked.asked, [])
        first.to(10)
        first.type(Keys.CONTROL, Keys.ENTER)
        first.wait_for(DIALOG)
        before = set(first.driver.window_handles)
        first.type(Keys.ENTER)
        wait_for(lambda: Asked.asked, "the other server to be asked")
        self.assertEqual(Asked.asked[0], ("/a?b=c", None))
        (opened,) = wait_for(lambda: set(first.driver.window_handles) - before, "the other window")
        first.driver.switch_to.window(opened)
        self.assertEqual(BROWSER.driver.execute_script("return [window.opener, document.referrer]"), [None, ""])
        BROWSER.driver.close()
        BROWSER.driver.switch_to.window(first.handle)
        first.wait_for(f"!{DIALOG}")

    def test_notes_are_listed_searched_and_opened(self) -> None:
        first = self.first
        self.assertEqual(self.diary.wait(), 0)
        first.press("notes")
        first.wait_for("document.querySelectorAll('#list li').length === 2 && document.activeElement.id === 'wanted'")
        first.type("dia")
        first.wait_for("document.querySelectorAll('#list li').length === 1")
        first.element("#wanted").clear()
        first.element("#wanted").send_keys("rained", Keys.ENTER)
        first.wait_for("document.getElementById('list').textContent === 'diaryIt rained.'")
        # Names are those of all notes, also after a search.
        first.element("#wanted").clear()
        first.element("#wanted").send_keys("NOTE")
        first.wait_for("document.getElementById('list').textContent.startsWith('note') && "
                       "document.getElementById('listing').textContent === '1 of 2 by name'")
        first.element("#wanted").clear()
        first.element("#wanted").send_keys("rained", Keys.ENTER)
        first.wait_for("document.getElementById('list').textContent === 'diaryIt rained.'")
        first.type(Keys.TAB, Keys.TAB, Keys.TAB, Keys.ENTER)
        opened = f"typeof CodeMirror === 'function' && document.title === words[0] && !{MIRROR}.getOption('readOnly')"
        first.wait_for(opened, "diary")
        first.shows("It rained.\n")
        first.driver.back()
        first.wait_for(opened, "note")

    def test_hostile_markdown_loads_and_runs_nothing(self) -> None:
        first = self.first
        first.press("format")
        self.put(HOSTILE.replace("HOST", self.host))
        first.wait_for(FORMATTED, "the end of it")
        found = first.run(ELEMENTS)
        self.assertLessEqual({one[0] for one in found}, ALLOWED)
        self.assertLessEqual({name for _, *names in found for name in names}, {"dir", "class", "tabindex", "role", "title", "style"})
        self.assertEqual(first.run("document.title"), "note")
        links = first.run("[...document.querySelectorAll('#formatted .link')].map((one) => one.title)")
        self.assertEqual({link.split(":")[0] for link in links}, {"http"})
        self.assertIn(f"http://{self.host}/picture.png", links)
        # A link asks before; and a picture is shown as its link.
        first.run("[...document.querySelectorAll('#formatted .link')].find((one) => one.textContent === 'picture: a picture').click()")
        first.wait_for(f"{DIALOG} && document.getElementById('address').textContent === words[0]", f"http://{self.host}/picture.png")
        first.press("stay")
        first.wait_for(f"!{DIALOG}")
        loaded = first.run("performance.getEntriesByType('resource').map((one) => one.name)")
        self.assertEqual([name for name in loaded if not name.startswith(f"http://{self.server.host}/")], [])
        self.assertEqual(Asked.asked, [])
        first.press("format")

    def test_a_very_deep_text_doesn_t_hold_the_page_up(self) -> None:
        first = self.first
        first.lets_timers_run()
        first.press("format")
        for number, text in enumerate(DEEP):
            first.run(f"{MIRROR}.setValue(arguments[0])", f"number {number}\n\n{text}")
            first.wait_for(f"{FORMATTED} || {FORMATTED.replace('0', '1')}", f"number {number}", "too long to be")
        first.run(f"{MIRROR}.setValue('')")
        first.press("format")

    def test_a_slow_reading_that_goes_on_is_waited_for(self) -> None:
        first = self.first
        self.put("*a word* ")
        self.addCleanup(first.run, "(window.Worker = window.before)")
        first.run(SLOW_READER)
        first.press("format")
        first.wait_for("window.reads")
        for part in 1, 2, 3:
            first.time_goes_on(PATIENCE_MS - 1)
            first.run(SAYS, part / 4)
        first.time_goes_on(PATIENCE_MS - 1)
        first.run(SAYS, [["it was slow"]])
        self.assertEqual(first.run("document.getElementById('formatted').textContent"), "it was slow")
        # What says nothing is given up.
        first.press("format")
        first.run(SLOW_READER)
        first.press("format")
        first.wait_for("window.reads")
        first.time_goes_on(PATIENCE_MS - 1)
        self.assertFalse(first.run(FORMATTED.replace("words", "arguments"), "too long to be"))
        first.time_goes_on(1)
        self.assertTrue(first.run(FORMATTED.replace("words", "arguments"), "too long to be"))
        first.press("format")

    def test_a_long_reading_says_that_it_goes_on(self) -> None:
        first = self.first
        first.run(HEARD)
        self.addCleanup(first.run, "(window.Worker = window.before)")
        texts = "*a* [b](c)\n\n" * 2_000, "*a* [b](c) " * 2_000, "> - *a*\n" * 2_000, "a\n" * 4_000, ""
        for number, text in enumerate(texts):
            first.run("(window.heard = [])")
            self.put(f"{text}the end of {number}")
            first.press("format")
            first.wait_for(FORMATTED, f"the end of {number}")
            heard = first.run("window.heard")
            self.assertEqual(heard, sorted(heard))
            self.assertTrue(8 * bool(text) <= len(heard) <= 20, (text[:20], heard))
            first.press("format")

    def test_it_looks_well_on_a_desk_and_a_phone_by_day_and_by_night(self) -> None:
        first = self.first
        self.put("# Picnic\n\nWe meet by the *mill*, see https://example.org/map.\n\n`code` and\n\n> a quote\n\n"
                 + "| a | b |\n|---|---|\n| 1 | 2 |\n" + "A long line of words that goes on. " * 20)
        first.select(2, 8)
        first.run("document.getElementById('colour').value = '4'")
        first.run("document.getElementById('colour').dispatchEvent(new Event('change'))")
        first.wait_for("document.querySelector('main .looked')")
        self.addCleanup(first.command, "Emulation.clearDeviceMetricsOverride")
        self.addCleanup(first.command, "Emulation.setEmulatedMedia", features=[])
        for width, height in (1280, 800), (390, 844):
            first.command("Emulation.setDeviceMetricsOverride", width=width, height=height, deviceScaleFactor=1, mobile=width < 500)
            for scheme in "light", "dark":
                first.command("Emulation.setEmulatedMedia", features=[{"name": "prefers-color-scheme", "value": scheme}])
                first.wait_for(LOOKS_SO, width, scheme)
                for button, away in (("format", "format"), ("replace", "found"), ("writers", "writers"), ("history", "back"),
                                     ("notes", "unlisted")):
                    first.run(f"document.getElementById('{button}').click()")
                    looks_well(first, width < 500)
                    first.run(f"document.getElementById('{away}').click()")


def load_tests(loader: unittest.TestLoader, tests: unittest.TestSuite, _: object) -> unittest.TestSuite:
    """The tests, where there is a browser."""
    if IS_HERE:
        return tests
    print("Chromium, its driver or python3-selenium isn't installed: the page's tests in a browser are skipped.", flush=True)
    return loader.suiteClass([])


if __name__ == "__main__":
    unittest.main()
