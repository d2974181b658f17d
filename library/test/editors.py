"""Chromium with the two editors of library/node/example/editors.html, over the package that bin/library --wasm makes or VIALSHOAL_PACKAGE
names: keys, undo, cursors, away and back, a page that is loaded again; and at random against plain models, for VIALSHOAL_SECONDS
(20) from the seed VIALSHOAL_SEED (1) on. The last line is 'N passed, M failed'."""
import contextlib
import os
import re
import shutil
import subprocess
import sys
import tempfile
import unittest
from pathlib import Path
from typing import Any

import page

with contextlib.suppress(ImportError):
    from selenium.webdriver.common.by import By
    from selenium.webdriver.common.keys import Keys

SERVES = page.LIBRARY / "node" / "example" / "serve.mjs"
CODEMIRROR = "/usr/share/javascript/codemirror"
NEEDED = ("/usr/share/nodejs/ws", f"{CODEMIRROR}/lib/codemirror.js")
MIRROR = "document.querySelector('.CodeMirror')?.CodeMirror"
SECONDS = float(os.environ.get("VIALSHOAL_SECONDS", "20"))
# So long is played in one page, before it is another.
ROUND = 10.0
PLAY = """const [seed, seconds, done] = arguments;
import('/test/editors_play.mjs').then((it) => it.play(seed, seconds)).then(done, (why) => done({ wrong: `${why}` }));"""
# How long what a database has is, the one after the other.
KEPT = """const [name, done] = arguments, opening = indexedDB.open(name);
opening.onsuccess = () => opening.result.transaction('kept').objectStore('kept').getAll().onsuccess = ({ target }) => {
  opening.result.close();
  done(target.result.map(({ history, chunks }) => chunks ? chunks.reduce((sum, { length }) => sum + length, 0) : history?.length ?? 0));
};"""
# A page in a frame, which asks for what is open here, and gets it once this lets go.
LETS_GO = """const [room] = arguments, name = `vialshoal ${room} Ann`, frame = document.createElement('iframe');
navigator.locks.request(name, () => new Promise((free) => {
  frame.src = `${location.pathname}?room=${room}`;
  document.body.append(frame);
  (async function look() {
    if ((await navigator.locks.query()).pending.some((asked) => asked.name === name)) free();
    else setTimeout(look, 10);
  })();
}));"""
THERE = "globalThis.editors?.every(({ provider }) => provider.isSynced)"
SHOWN = "editors.map(({ cm }) => cm.getValue())"
# Of both editors: what isn't plain, and how it looks.
LOOKED = """[...document.querySelectorAll('section')].map((section) => [...section.querySelectorAll('.vialshoal-looks')].map((one) => {
  const { fontWeight, fontStyle, color, verticalAlign } = getComputedStyle(one);
  return [one.textContent, fontWeight === '700' ? 'bold' : 'normal', fontStyle, color, verticalAlign];
}))"""
# Keys are one edit, however slowly a busy machine lets them come.
SLOWLY = "&capture=600000"


class Editors(page.Browser):
    """The example, in a room of each test's own."""

    def setUp(self) -> None:
        self.server = subprocess.Popen(["node", str(SERVES)], stdout=subprocess.PIPE, text=True)
        self.addCleanup(self.end)
        assert self.server.stdout
        self.address = self.server.stdout.readline().strip()
        self.open("room", SLOWLY)

    def end(self) -> None:
        """Ends the server."""
        self.driver.get("about:blank")
        self.server.kill()
        self.server.communicate()

    def open(self, room: str, words: str = "") -> None:
        """Opens the page."""
        self.driver.get(f"{self.address}?room={room}{words}")
        self.wait_for(THERE)

    def run_script(self, script: str, *words: object) -> Any:
        """What a script of the page answers."""
        return self.driver.execute_script(f"return {script}", *words)

    def both_show(self, text: str) -> None:
        """Waits until both editors show a text, and their texts are that."""
        self.wait_for(f"{SHOWN}.every((shown) => shown === words[0]) && editors.every(({{ text }}) => `${{text}}` === words[0])", text)

    def type(self, index: int, *keys: str) -> None:
        """Presses keys in an editor."""
        self.run_script("editors[arguments[0]].cm.focus()", index)
        self.driver.switch_to.active_element.send_keys(*keys)

    def switch(self, index: int) -> None:
        """Takes an editor off line, or has it come back."""
        self.driver.find_elements(By.TAG_NAME, "input")[index].click()

    def test_keys(self) -> None:
        self.type(0, "Project\nOberon")
        self.both_show("Project\nOberon")
        self.wait_for("editors[1].binding.cursors.get(editors[0].presence.id)?.head === 14")
        self.assertEqual(self.run_script("document.querySelectorAll('section')[1].querySelector('.vialshoal-caret').title"), "Ann")
        # Others' text at a cursor comes after it; what is selected is shown there.
        self.run_script("editors[1].cm.setCursor(0, 7)")
        self.type(1, " of")
        self.both_show("Project of\nOberon")
        self.run_script("editors[0].cm.setSelection({ line: 0, ch: 0 }, { line: 0, ch: 7 })")
        self.wait_for("document.querySelectorAll('section')[1].querySelector('.vialshoal-selection')?.textContent === 'Project'")
        # Each takes back what was typed there, and does it again.
        self.type(1, Keys.CONTROL + "z")
        self.both_show("Project\nOberon")
        self.type(1, Keys.CONTROL + "z")
        self.type(1, Keys.CONTROL + "y")
        self.both_show("Project of\nOberon")
        self.type(0, Keys.CONTROL + "z")
        self.both_show(" of")
        # What is typed over a selection goes into its place, and comes back with it.
        self.type(0, Keys.CONTROL + "y")
        self.both_show("Project of\nOberon")
        self.run_script("editors[0].cm.setSelection({ line: 0, ch: 0 }, { line: 0, ch: 7 })")
        self.type(0, "Y")
        self.both_show("Y of\nOberon")
        self.type(0, Keys.CONTROL + "z")
        self.both_show("Project of\nOberon")
        self.assertEqual(self.run_script("editors[0].cm.getSelection()"), "Project")
        # What the program puts in isn't the editor's to take back.
        self.run_script("editors[0].text.insert(0, '> ')")
        self.type(0, Keys.CONTROL + "z")
        self.both_show(">  of")
        # Another value changes only what is another one.
        names = self.run_script("editors[0].text.names(3, 5)")
        self.run_script("editors[0].cm.setValue('> all of')")
        self.both_show("> all of")
        self.assertEqual(self.run_script("editors[1].text.names(6, 8)"), names)

    def both_look(self, looks: list[list[str]]) -> None:
        """Waits until both editors show these stretches so, and all else plain."""
        self.wait_for(f"{LOOKED}.every((shown) => `${{shown}}` === `${{words[0]}}`)", looks)

    def test_looks(self) -> None:
        bold, slanted = ["bold", "normal", "rgb(204, 34, 34)", "baseline"], ["normal", "italic", "rgb(0, 0, 0)", "3px"]
        self.run_script("editors[0].text.insert(0, 'Project Oberon')")
        self.run_script("editors[0].text.changeLooks(8, 14, { font: 'Oberon10b.Scn.Fnt', colour: 2 })")
        self.run_script("editors[0].text.insert(0, 'x', { font: 'Syntax12i.Scn.Fnt', offset: 3 })")
        self.both_look([["x", *slanted], ["Oberon", *bold]])
        # What is typed is plain, also among what isn't; what comes back looks as it did.
        self.run_script("editors[1].cm.setCursor(0, 12)")
        self.type(1, "!")
        self.both_look([["x", *slanted], ["Obe", *bold], ["ron", *bold]])
        self.run_script("editors[0].cm.setSelection({ line: 0, ch: 10 }, { line: 0, ch: 20 })")
        self.type(0, Keys.DELETE)
        self.both_look([["x", *slanted], ["O", *bold]])
        self.type(0, Keys.CONTROL + "z")
        self.both_show("xProject Obe!ron")
        self.run_script("editors[0].cm.setCursor(0, 0)")
        self.both_look([["x", *slanted], ["Obe", *bold], ["ron", *bold]])
        # A value that is set has them again, and an editor that is let go has none.
        self.run_script("editors[0].cm.setValue('x Oberon')")
        self.both_show("x Oberon")
        self.both_look([["x", *slanted], ["ron", *bold]])
        self.run_script("editors[0].binding.close()")
        self.assertEqual(self.run_script(f"{LOOKED}[0]"), [])

    def test_page_of_the_docs(self) -> None:
        found = re.search(r"\n\n((?:    .*\n|\n)+?)(?=\n\S)", page.DOCS.read_text(encoding="utf-8").split("folder lies beside `node`:")[1])
        assert found
        lines = found[1].replace("127.0.0.1:8000", self.address.split("/")[2])
        with tempfile.TemporaryDirectory() as name, page.served(Path(name)) as address:
            for name_in, there in {"node": page.PACKAGE, "codemirror": Path(CODEMIRROR)}.items():
                Path(name, name_in).symlink_to(there)
            Path(name, "ann.html").write_text(lines, encoding="utf-8")
            other = lines.replace("'note', { site: 1", "'other', { site: 2").replace("'Ann'", "'Bob'")
            Path(name, "bob.html").write_text(other, encoding="utf-8")
            self.driver.get(f"{address}/ann.html")
            first = self.driver.current_window_handle
            self.wait_for(f"{MIRROR} !== undefined")
            self.run_script(f"{MIRROR}.focus()")
            self.driver.switch_to.active_element.send_keys("Oberon")
            self.driver.switch_to.new_window("window")
            self.driver.get(f"{address}/bob.html")
            self.wait_for(f"{MIRROR}?.getValue() === 'Oberon' && document.querySelector('.vialshoal-caret')?.title === 'Ann'")
            self.driver.close()
            self.driver.switch_to.window(first)
            self.driver.get(f"{address}/ann.html")
            self.wait_for(f"{MIRROR}?.getValue() === 'Oberon'")

    def test_away_and_back(self) -> None:
        self.type(0, "ab")
        self.both_show("ab")
        self.switch(1)
        self.type(0, "c")
        self.type(1, "d")
        self.wait_for("editors[0].provider.isSynced && editors[1].provider.status === 'offline'")
        self.assertEqual(self.run_script(SHOWN), ["abc", "dab"])
        self.switch(1)
        self.both_show("dabc")
        # The relay ends and comes back with nothing, at the same address: all is brought there again.
        port = self.address.split(":")[2].split("/")[0]
        self.server.kill()
        self.server.communicate()
        self.wait_for("editors.every(({ provider }) => provider.status !== 'online')")
        self.type(0, "e")
        self.type(1, "f")
        self.server = subprocess.Popen(["node", str(SERVES), port], stdout=subprocess.PIPE, text=True)
        self.wait_for(THERE)
        self.wait_for(f"new Set({SHOWN}).size === 1 && {SHOWN}[0].length === 6")

    def test_loaded_again(self) -> None:
        self.type(0, "kept")
        self.both_show("kept")
        self.switch(0)
        self.type(0, " here")
        self.wait_for("editors[0].text.toString() === 'kept here'")
        self.driver.execute_async_script("const [done] = arguments; editors[0].store.kept().then(done)")
        # Another page has it not while this one does.
        first = self.driver.current_window_handle
        self.driver.switch_to.new_window("window")
        self.driver.get(f"{self.address}?room=room")
        self.wait_for("document.body.textContent.includes('it is open already')")
        self.driver.close()
        self.driver.switch_to.window(first)
        self.open("room")
        self.both_show("kept here")
        # Undo begins anew; the site goes on.
        self.type(0, Keys.CONTROL + "z")
        self.type(0, "!")
        self.wait_for(f"{SHOWN}.every((shown) => shown === '!kept here')")
        # What becomes long is kept as a history.
        size = self.run_script("editors[0].text.insert(0, 'x'.repeat(200000)).length")
        self.assertGreater(size, 10)
        self.driver.execute_async_script("const [done] = arguments; editors[0].store.kept().then(done)")
        self.type(0, "y")
        self.wait_for(f"new Set({SHOWN}).size === 1 && {SHOWN}[0].length === 200011")
        # A key adds what it made.
        self.driver.execute_async_script("const [done] = arguments; editors[0].store.kept().then(done)")
        sizes = self.driver.execute_async_script(KEPT, "vialshoal room Ann")
        self.assertTrue(len(sizes) >= 2 and sizes[0] > 1000 > sizes[1], sizes)
        shown = self.run_script(f"{SHOWN}[0]")
        self.open("room")
        self.both_show(shown)

    def test_one_that_ends_lets_go(self) -> None:
        self.driver.execute_script(LETS_GO, "other")
        self.wait_for("document.querySelector('iframe')?.contentWindow.editors?.every(({ provider }) => provider.isSynced)")

    def test_at_random(self) -> None:
        seed, left, steps = int(os.environ.get("VIALSHOAL_SEED", "1")), SECONDS, 0
        counts = dict.fromkeys(("edits", "undos", "looks", "meetings", "away"), 0)
        while left > 0:
            self.open(f"room{seed}", "&capture=0")
            told = self.driver.execute_async_script(PLAY, seed, min(left, ROUND))
            self.assertEqual(told["wrong"], "", told)
            counts = {name: count + told[name] for name, count in counts.items()}
            seed, left, steps = seed + 1, left - ROUND, steps + told["steps"]
        print(f"editors at random: {steps} steps, {counts}: 0 differences", flush=True)


def main() -> int:
    """Runs all, where there is what it needs."""
    lacking = [name for name in NEEDED if not Path(name).exists()]
    if not page.HAS_SELENIUM or page.CHROMIUM is None or page.DRIVER is None or shutil.which("node") is None or lacking:
        print("editors: there is no Chromium with its driver and Selenium, no node-ws or no libjs-codemirror, so nothing is tested")
        print("0 passed, 0 failed")
        return 0
    return page.counted(unittest.main(argv=[sys.argv[0]], exit=False).result)


if __name__ == "__main__":
    sys.exit(main())
