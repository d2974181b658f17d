"""Who is on at a note of a relay's, what its page keeps for a user, and what he takes elsewhere: pages, and engines on the other side."""
import os
import subprocess
import unittest
from contextlib import closing
from typing import Any

from share.editors.mirror import Mirror
from share.format.entry import Author
from share.format.heartbeat import Hears, Said, heartbeat_of
from share.format.presence import Present, presence_of, with_count
from share.format.second.claim import number_of_rank, rank_of
from share.format.second.form import SealedRecords
from share.format.second.key_link import KeyLink, link_of
from share.format.second.saved import read_saved_note
from share.format.second.signature import public_of
from share.log.opening import opener_of
from share.tests.editors import Editor, Engines
from share.tests.support import NOTE, raws_of
from share.tests.test_relay_front import ALL_SENT, Front
from share.tests.waiting import wait_for

ON = "[...document.querySelectorAll('#people li')].map((one) => one.textContent).join()"


class AtPage(Front, Engines):
    """Pages, and engines."""

    def engine_of(self, name: str, link: str, **more: str) -> Editor:
        """An editor of somebody who joins by a link."""
        editor = self.editor(name, link=link, opens=False)
        editor.mirror = Mirror(editor.ask("open", protocol=1, units=["utf-16"], name=name, **more), editor.send)
        return editor

    def says(self, window: Any, name: str) -> None:
        """Gives a page's user a name."""
        window.run("((field, name) => { field.value = name; field.dispatchEvent(new Event('change', { bubbles: true })); })"
                   "(document.getElementById('your-name'), arguments[0])", name)


class On(AtPage):
    """Presence."""

    def names(self, editor: Editor) -> set[tuple[str, str]]:
        """Who else is on, as an editor has it, and in which colours."""
        return {(one["name"], one["colour"]) for one in editor.ask("on")["people"] if not one["own"]}

    def test_a_page_and_an_engine_see_each_other(self) -> None:
        window = self.at()
        self.says(window, "Bea")
        link = self.made(window, "picnic")
        window.wait_for(ALL_SENT)
        ann = self.engine_of("Ann", link, colour="#123456")
        window.wait_for(f"{ON} === words[0]", "\u25cf Ann")
        self.assertEqual(window.run("document.querySelector('#people span').style.color"), "rgb(18, 52, 86)")
        colour = window.run("document.getElementById('your-colour').value")
        ann.wait_for(lambda: self.names(ann) == {("Bea", colour)}, "the page to be seen")
        self.says(window, "Bea\u202e T.")
        ann.wait_for(lambda: self.names(ann) == {("Bea T.", colour)}, "the other name to be seen")
        # A tab that has no line of its own hears of it.
        other = self.at(link, ALL_SENT)
        other.wait_for(f"{ON} === words[0]", "\u25cf Ann")
        # A name that is given there is said, too.
        self.says(other, "Cy")
        ann.wait_for(lambda: self.names(ann) == {("Cy", colour)}, "the name of the other tab to be seen")
        ann.close()
        for one in window, other:
            one.wait_for("!document.getElementById('alone').hidden")
        # Nothing of it is kept: what the log has are entries.
        form = SealedRecords(link_of(link).secret, 0)
        with closing(opener_of(self.relay.url, form)()) as log:
            self.assertLessEqual({form.open(raw or b"").kind.name for raw in raws_of(log)}, {"OPENING", "CLAIM"})
        self.assert_right(window, other)

    def test_who_leaves_is_on_no_more_and_two_browsers_meet(self) -> None:
        window = self.at()
        self.says(window, "Bea")
        link = self.made(window, "picnic")
        window.wait_for(ALL_SENT)
        ann = self.engine_of("Ann", link)
        ann.wait_for(lambda: len(self.names(ann)) == 1, "the page to be seen")
        # It goes to another note.
        self.made(window, "other")
        ann.wait_for(lambda: not self.names(ann), "the page to leave")
        self.assertEqual(window.run(ON), "")

    def test_what_is_said_again_or_is_no_presence_is_nothing(self) -> None:
        window = self.at()
        link = self.made(window, "picnic")
        window.wait_for(ALL_SENT)
        form, token, editor = SealedRecords(link_of(link).secret, 0), bytes(range(8)), bytes(range(16))

        def beat(count: int, hears: Hears = Hears.CHANNEL, token: bytes = token) -> bytes:
            return form.presence(heartbeat_of(Said(token, count, 0, (), hears)))

        def shows(count: int, name: str, token: bytes = token) -> bytes:
            return form.presence(with_count(presence_of(Present(token, editor, 7, "#112233", None, None, name)), count))

        with closing(opener_of(self.relay.url, form)()) as log:
            channel = log.channel()
            assert channel
            with closing(channel):
                for raw in beat(5, Hears.CHANNEL_FROM_NOW), shows(6, "Mal"):
                    channel.say(raw)
                window.wait_for(f"{ON} === '\u25cf Mal'")
                for raw in (shows(6, "again"), shows(3, "before"), bytes(range(40)), b"\x00", SealedRecords(bytes(32)).presence(bytes(210)),
                            form.presence(bytes(range(99))), form.presence(b""), shows(7, "<b>Mal</b>")):
                    channel.say(raw)
                window.wait_for(f"{ON} === '\u25cf <b>Mal</b>'")
                # Who shows many editors fills no page.
                for number in range(150):
                    editor = number.to_bytes(16, "big")
                    channel.say(shows(8 + number, f"M{number}"))
                channel.say(beat(6, Hears.NOTHING))
                window.wait_for("!document.getElementById('alone').hidden")
                # What was said before he left doesn't bring him back: the page has heard it once it shows who comes after it.
                other = bytes(8)
                for raw in beat(5), shows(6, "Mal"), beat(1, Hears.CHANNEL_FROM_NOW, other), shows(2, "Zoe", other):
                    channel.say(raw)
                window.wait_for(f"{ON} !== ''")
                self.assertEqual(window.run(ON), "\u25cf Zoe")
        self.assert_right(window)


class Ahead(AtPage):
    """A number is searched for ahead."""

    NOTES = "new Promise((done) => { indexedDB.open('vialshoal').onsuccess = ({ target }) => { " \
            "target.result.transaction('notes').objectStore('notes').getAll().onsuccess = ({ target: found }) => { " \
            "target.result.close(); done(found.result.map(({ id, spare }) => spare && [id, String(spare.counter), spare.site, " \
            "[...spare.secret]])); }; }; })"
    # Counts the workers that the page begins.
    COUNTS_WORKERS = "void (globalThis.workers = 0, globalThis.Worker = class extends Worker { " \
                     "constructor(...words) { super(...words); globalThis.workers += 1; } })"

    def spare(self, window: Any) -> tuple[bytes, int, int, bytes]:
        """The spare number that the browser keeps: of which note, by which counter, which, and its author's secret."""
        found: list[Any] = []
        wait_for(lambda: (found.extend(one for one in window.run(self.NOTES) or () if one), found)[1], "a spare number")
        note, counter, site, secret = found[0]
        return bytes.fromhex(note), int(counter), site, bytes(secret)

    def test_one_is_kept_by_a_worker_of_its_own_and_is_what_all_take(self) -> None:
        window = self.at()
        window.run(self.COUNTS_WORKERS)
        link = self.made(window, "picnic")
        window.wait_for("document.getElementById('facts').textContent.includes('found and kept here')")
        self.assertEqual(window.run("globalThis.workers"), 1)
        note, counter, site, secret = self.spare(window)
        form = SealedRecords(link_of(link).secret, 0)
        author = Author(public_of(secret), secret)
        self.assertEqual((note, site), (form.note, number_of_rank(rank_of(note, author.name, counter), 0)))
        # Nothing of it was said, so nobody sees it in the log.
        with closing(opener_of(self.relay.url, form)()) as log:
            self.assertEqual([form.open(raw or b"").kind.name for raw in raws_of(log)], ["OPENING"])
            # Another tab, and another opening, has the same one.
            other = self.at(link, "document.getElementById('facts').textContent.includes('found and kept here')")
            self.assertEqual(self.spare(other), (note, counter, site, secret))
            # Who claims that number has it, so another one is searched for: here by the other tab, as the first one, which keeps the claim,
            # ends before it tells of that.
            window.run("void (BroadcastChannel.prototype.postMessage = () => {})")
            log.append([form.claim(site, author, counter).raw])
            self.entries(window, 2)
        window.driver.refresh()
        window.wait_for("document.querySelector('#list button')")
        window.click_on("#list button")
        wait_for(lambda: self.spare(window)[2] != site, "another number")
        self.assert_right(window, other)


class Saved(AtPage):
    """A note as a file."""

    PERSISTS = "StorageManager.prototype.persisted = StorageManager.prototype.persist = async () => %s;"

    def setUp(self) -> None:
        super().setUp()
        self.browser.driver.execute_cdp_cmd("Browser.setDownloadBehavior", {"behavior": "allow", "downloadPath": str(self.folder)})
        self.path = self.folder / "note-1.vialshoal-note"

    def saved(self) -> tuple[Any, str]:
        """A window with a note in which somebody has typed who founded it elsewhere, whose file was saved, and its link."""
        run = self.in_terminal("append", "typed", "by another", "--new", "--log", self.relay.url)
        self.assertEqual(run.returncode, 0, run.stderr)
        link = link_of(self.in_terminal("link", "typed").stdout)
        assert isinstance(link, KeyLink)
        window = self.at(link.page(), ALL_SENT)
        self.entries(window, 2)
        window.click_on("#save")
        wait_for(self.path.exists, "the file")
        return window, link.page()

    def elsewhere(self, *words: str) -> "subprocess.CompletedProcess[str]":
        """What bin/note does at another disk."""
        return subprocess.run([NOTE, *words], env={**os.environ, "VIALSHOAL_DATA": str(self.folder / "elsewhere")}, capture_output=True,
                              text=True, check=False)

    def forgotten(self, window: Any) -> None:
        """Has the browser forget the note that it shows."""
        window.click_on("#forget")
        window.click_on("#asking [value=yes]")
        window.wait_for("document.getElementById('note').hidden")

    def test_what_a_page_saves_the_engine_recovers_and_what_it_exports_a_page_opens(self) -> None:
        window, link = self.saved()
        self.relay.kill()
        run = self.elsewhere("recover", str(self.folder))
        self.assertIn("note-1: ", run.stdout)
        self.assertEqual((run.returncode, self.elsewhere("cat", "note-1").stdout), (0, "by another\n"))
        self.assertEqual(self.elsewhere("link", "note-1").stdout.strip(), link_of(link).spelled())
        exported = self.folder / "exported.vialshoal-note"
        self.assertEqual(self.elsewhere("export", "note-1", str(exported), "--format", "note").stderr, "")
        self.assertEqual(exported.stat().st_mode & 0o777, 0o600)
        before, after = (read_saved_note(path.read_bytes()) for path in (self.path, exported))
        self.assertEqual((after.link, {*after.raws}, after.is_whole), (before.link, {*before.raws}, True))
        # The browser has lost it, and the relay, too.
        self.forgotten(window)
        window.element("#saved-note").send_keys(str(exported))
        window.wait_for("document.getElementById('title').textContent === 'exported'")
        self.entries(window, 2)
        self.assertEqual(window.run("document.getElementById('address').value"), link)
        for path in (self.folder / "kept").glob("*.log*"):
            path.unlink()
        self.relay.start()
        window.wait_for(ALL_SENT)
        form = SealedRecords(link_of(link).secret, 0)
        with closing(opener_of(self.relay.url, form)()) as log:
            self.assertEqual({*raws_of(log)}, {*before.raws})
        self.assert_right(window)

    def test_damaged_files_are_told_and_the_rest_is_taken(self) -> None:
        window, _ = self.saved()
        data = self.path.read_bytes()
        cut, damaged = self.folder / "cut.vialshoal-note", self.folder / "damaged.vialshoal-note"
        cut.write_bytes(data[:-9])
        damaged.write_bytes(data[:-9] + b"x" * 9)
        self.forgotten(window)
        for path, entries, words in (cut, 1, "The file was cut short."), (damaged, 1, "1 entry left out, which aren't the note's."):
            window.element("#saved-note").send_keys(str(path))
            window.wait_for("document.getElementById('words').textContent.includes(words[0])", words)
            self.entries(window, entries)
        none = "isn't a saved note"
        mistaken = data.replace(b"vialshoal:2:s:", b"vialshoal:2:s:A", 1), "has a mistake in it"
        for number, (wrong, words) in enumerate(((b"", none), (data[:30], none), (data[1:], none), mistaken)):
            path = self.folder / f"wrong{number}.vialshoal-note"
            path.write_bytes(wrong)
            window.element("#saved-note").send_keys(str(path))
            window.wait_for("[...document.querySelectorAll('#words p')].at(-1).textContent.includes(words[0])", words)
            self.assertEqual(self.elsewhere("recover", str(path)).returncode, 0)
        said = self.elsewhere("recover", str(cut), str(damaged)).stdout
        self.assertIn("was cut short", said)
        self.assertIn("1 entry left out, which aren't the note's", said)
        # A file of another note is refused in this one.
        self.made(window, "other")
        window.element("#saved").send_keys(str(self.path))
        window.wait_for("document.getElementById('words').textContent.includes('is of another note')")
        self.assert_right(window)

    def test_whether_the_browser_keeps_what_is_here_is_said(self) -> None:
        for answer, words in ("false", "may drop your notes"), ("true", "keeps your notes until"):
            window = self.browser.window()
            self.addCleanup(self.leave, window)
            window.command("Page.enable")
            window.command("Page.addScriptToEvaluateOnNewDocument", source=self.PERSISTS % answer)
            window.driver.get(self.relay.url)
            window.wait_for("document.getElementById('lasting').textContent.includes(words[0])", words)


if __name__ == "__main__":
    unittest.main()
