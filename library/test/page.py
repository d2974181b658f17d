"""Chromium over the package for pages, which bin/library --wasm makes or VIALSHOAL_PACKAGE names: tests of library/node/tests in a page and
in a worker, the example, and the page that docs/LIBRARY.md shows. The last line is 'N passed, M failed'."""
import functools
import http.server
import os
import re
import shutil
import sys
import tempfile
import threading
import unittest
from collections.abc import Iterator
from contextlib import contextmanager
from pathlib import Path
from typing import Any

try:
    from selenium import webdriver
    from selenium.webdriver.chrome.service import Service
    from selenium.webdriver.common.by import By

    HAS_SELENIUM = True
except ImportError:
    HAS_SELENIUM = False

LIBRARY = Path(__file__).resolve().parent.parent
PACKAGE = Path(os.environ.get("VIALSHOAL_PACKAGE", LIBRARY / "out" / "node")).resolve()
DOCS = LIBRARY.parent / "docs" / "LIBRARY.md"
CHROMIUM, DRIVER = shutil.which("chromium"), shutil.which("chromedriver")
WORDS = ["--headless=new", "--no-sandbox", "--disable-gpu", "--disable-dev-shm-usage", "--no-first-run", "--disable-extensions",
         "--no-proxy-server"]
PATIENCE = 300
MOST_SHOWN = 2_000
# What runs in pages too, of library/node/tests.
TESTS = ("text", "note", "delta", "versions", "undo", "presence", "backlog", "merging")
IN_PAGE = "const [name, done] = arguments; import('/test/said.mjs').then((it) => it.said(name)).then(done, (why) => done(String(why)))"
IN_WORKER = """const [name, done] = arguments, worker = new Worker('/test/page_worker.mjs', { type: 'module' });
worker.onmessage = ({ data }) => data === 'listening' ? worker.postMessage(name) : done(data);
worker.onerror = ({ message }) => done(message);"""
WAITING = """const [words, seconds, done] = arguments, end = Date.now() + 1000 * seconds;
(function look() {
  if (CONDITION) done(true);
  else if (Date.now() > end) done(false);
  else setTimeout(look, 10);
})();"""
BOXES = "[...document.querySelectorAll('textarea')].map((box) => box.value)"


class Quiet(http.server.SimpleHTTPRequestHandler):
    """A server of files that says nothing."""

    def log_message(self, format: str, *words: Any) -> None:
        """Nothing is said."""


@contextmanager
def served(folder: Path) -> Iterator[str]:
    """A folder's address, while it is served."""
    server = http.server.ThreadingHTTPServer(("127.0.0.1", 0), functools.partial(Quiet, directory=str(folder)))
    threading.Thread(target=server.serve_forever, daemon=True).start()
    try:
        yield f"http://127.0.0.1:{server.server_port}"
    finally:
        server.shutdown()
        server.server_close()


class Browser(unittest.TestCase):
    """A browser."""

    driver: Any

    @classmethod
    def setUpClass(cls) -> None:
        options: Any = webdriver.ChromeOptions()
        options.binary_location = CHROMIUM
        for word in WORDS:
            options.add_argument(word)
        cls.driver = webdriver.Chrome(service=Service(DRIVER or ""), options=options)
        cls.driver.set_script_timeout(2 * PATIENCE)

    @classmethod
    def tearDownClass(cls) -> None:
        cls.driver.quit()

    def wait_for(self, condition: str, *words: object) -> None:
        """Waits until a condition of the page's holds, in which `words` are these."""
        if not self.driver.execute_async_script(WAITING.replace("CONDITION", condition), words, PATIENCE):
            shown = self.driver.execute_script("return document.body.innerText")
            boxes = self.driver.execute_script(f"return {BOXES}")
            self.fail(f"waited {PATIENCE} seconds for {condition}, {words}; the page: {shown[:MOST_SHOWN]!r}, {boxes}; "
                      f"{self.driver.get_log('browser')}")


class Page(Browser):
    """Pages in a browser."""

    def setUp(self) -> None:
        folder = Path(self.enterContext(tempfile.TemporaryDirectory()))
        for name in "out", "tests":
            (folder / name).mkdir()
        tests = {f"tests/{file.name}": file for file in (LIBRARY / "node" / "tests").glob("*.js")}
        beside = {"node": LIBRARY / "node", "test": LIBRARY / "test", "out/node": PACKAGE, "tests/here.js": LIBRARY / "test" / "here.mjs"}
        for name, there in {**tests, **beside}.items():
            (folder / name).symlink_to(there)
        address = self.enterContext(served(folder))
        self.driver.get(f"{address}/node/example/")

    def both_show(self, text: str) -> None:
        """Waits until both boxes show a text."""
        self.wait_for(f"{BOXES}.every((shown) => shown === words[0])", text)

    def test_in_a_page_and_a_worker(self) -> None:
        for name in TESTS:
            for where, script in {"page": IN_PAGE, "worker": IN_WORKER}.items():
                with self.subTest(name=name, where=where):
                    self.assertEqual(self.driver.execute_async_script(script, f"{name}.test.js"), f"{name}: all is so")

    def test_example(self) -> None:
        self.wait_for("[...document.querySelectorAll('textarea')].every((box) => !box.disabled)")
        one, other = self.driver.find_elements(By.TAG_NAME, "textarea")
        _, on_line = self.driver.find_elements(By.TAG_NAME, "input")
        one.send_keys("Project")
        self.both_show("Project")
        other.send_keys(" Oberon")
        self.both_show("Project Oberon")
        on_line.click()
        one.send_keys("!")
        other.send_keys("?")
        self.wait_for("document.getElementById('kept').textContent.includes('bytes of history')")
        self.assertEqual(self.driver.execute_script(f"return {BOXES}[1]"), "Project Oberon?")
        on_line.click()
        self.wait_for(f"new Set({BOXES}).size === 1 && {BOXES}[0].length === 16")
        shown = self.driver.execute_script(f"return {BOXES}[0]")
        self.assertEqual(shown[:14] + "".join(sorted(shown[14:])), "Project Oberon!?")
        # Halves of pairs aren't told apart.
        for text in ("a\U0001f600b", "a\U0001f601b", "\U0001f601b", "\U0001f601\U0001f602b"):
            script = "const [box, text] = arguments; box.value = text; box.dispatchEvent(new Event('input'))"
            self.driver.execute_script(script, one, text)
            self.both_show(text)

    def test_page_of_the_docs(self) -> None:
        found = re.search(r"    <script type=\"module\">.*?</script>\n", DOCS.read_text(encoding="utf-8"), re.DOTALL)
        assert found
        with tempfile.TemporaryDirectory() as name, served(Path(name)) as address:
            shutil.copytree(PACKAGE, Path(name, "node"))
            Path(name, "page.html").write_text(f"<!doctype html>\n<body>\n{found[0]}", encoding="utf-8")
            self.driver.get(f"{address}/page.html")
            self.wait_for("document.body.textContent === words[0]", "Oberon")


def counted(ran: unittest.TestResult) -> int:
    """Says how many tests passed; the status."""
    # (a test may fail in some of its parts)
    failed = len({getattr(test, "test_case", test) for test, _ in (*ran.failures, *ran.errors)})
    print(f"{ran.testsRun - failed} passed, {failed} failed")
    return 1 if failed else 0


def main() -> int:
    """Runs all, where there is Chromium."""
    if not HAS_SELENIUM or CHROMIUM is None or DRIVER is None:
        print("page: there is no Chromium with its driver and Selenium, so nothing is tested")
        print("0 passed, 0 failed")
        return 0
    return counted(unittest.main(argv=[sys.argv[0]], exit=False).result)


if __name__ == "__main__":
    sys.exit(main())
