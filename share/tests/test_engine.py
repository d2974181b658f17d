"""The engine, by the real command: what editors of one note are told."""
import contextlib
import json
import os
import random
import stat
import unittest
from typing import Any
from unittest import mock

from share.editors.mirror import Mirror
from share.engine.colours import PALETTE, least_used, settled
from share.engine.engine import Engine
from share.format import presence
from share.format.second.key_link import link_of
from share.store import nicknames, notes
from share.sync.session import Session
from share.tests.editors import Editor, Engines
from share.tests.forms import is_second_form
from share.tests.support import TOP, Case, Person, wait_for
from share.text.line import Line

PAGE = TOP / "docs" / "ENGINE.md"


class Colours(unittest.TestCase):
    """Which colours editors take."""

    def test_those_who_come_at_once_share_the_colours_evenly(self) -> None:
        chance = random.Random(3)
        for many in 1, 2, 10, 11, 25:
            tokens = [chance.randbytes(16) for _ in range(many)]
            now = [least_used(token, ()) for token in tokens]

            def uses(now: list[str]) -> list[int]:
                return [now.count(colour) for colour in PALETTE]

            # Each sees what the others had, and all move at once.
            turns = 0
            while max(uses(now)) - min(uses(now)) > 1:
                turns += 1
                self.assertLess(turns, 200)
                now = [settled(token, [*now[:number], *now[number + 1:]], now[number]) for number, token in enumerate(tokens)]

    def test_a_newcomer_takes_what_fewest_have(self) -> None:
        used = [*PALETTE[:6], *PALETTE[:3], PALETTE[9]]
        taken = {least_used(bytes([number]) * 16, used) for number in range(50)}
        self.assertEqual(taken, {*PALETTE[6:9]})
        for now in PALETTE[6:9]:
            self.assertEqual({settled(bytes([number]) * 16, used, now) for number in range(50)}, {now})


class InOneProcess(Case):
    """Several people's engines, in this process."""

    def engine(self, person: Person, editors: int, **more: str) -> Engine:
        """The engine of somebody who has joined the note, or made it, with some editors."""
        url, link = more.pop("url", None), more.pop("link", "")
        engine = Engine("note", lambda: Session(notes.open_note("note", url, link_of(link) if link else None)), lambda: None)
        self.addCleanup(engine.close)
        with person.here():
            for number in range(editors):
                opens = {"do": "open", "protocol": 1, "units": ["utf-8"], **(more if not number else {})}
                engine.take(engine.joined(lambda data: None, lambda: 0), [json.dumps(opens).encode()])
        return engine

    def test_ten_editors_have_ten_colours(self) -> None:
        ada = self.engine(self.person("ada"), 6, url=self.file_log(), colour="#123abc")
        link = self.person("ada").link()
        engines = [ada, self.engine(self.person("bo"), 3, link=link), self.engine(self.person("cy"), 2, link=link)]

        def colours() -> list[list[str]]:
            for engine in engines:
                engine.turn()
            return [sorted(one["colour"] for one in engine._note.presence.people()["people"]) for engine in engines if engine._note]

        # All say the same of who has which, since each editor says its own.
        wait_for(lambda: colours() == [sorted([*PALETTE, "#123abc"])] * 3, "each to have a colour of its own")


class Sessions(Engines):
    """What an editor is told, as the page of the protocol has it."""

    def test_the_page_has_a_session_that_goes_so(self) -> None:
        page = PAGE.read_text(encoding="utf-8")
        recorded = [line[4:] for line in page.split("## A session")[1].splitlines() if line.startswith("    ")]
        ada, another = self.others("ada", "another")
        another.edit((0, 0, "tea\n"))
        ada.shows("tea\n")
        ada.close()
        ada = Editor(self.folder / "ada", name="note", opens=False)
        self.addCleanup(ada.close)
        for line in recorded:
            sign, what = line[0], line[2:]
            if sign == ">":
                ada.write(what.encode() + b"\n")
            elif sign == "~":
                another.wait_for(lambda: "jam" not in another.text and "🍰" in another.text, "the first edit")
                another.edit(*json.loads(what))
            else:
                self.expect(ada, json.loads(what))

    def expect(self, editor: Editor, wanted: Line) -> None:
        """Waits for a line; what is of the moment may differ, and states come at any time."""
        if "state" in wanted.values():
            # On a busy machine the log may still be read at first.
            editor.wait_for(lambda: {*wanted} in [{*one} - {"unproved"} for one in editor.notices("state")], f"a state as {wanted}")
            return

        def got() -> Line | None:
            known = [line for line in editor.lines if line.get("notice") not in ("state", "cursors")]
            return known[self.place] if len(known) > self.place else None
        line = editor.wait_for(got, f"{wanted}")
        self.assertEqual({**line, "site": 7, "note": "picnic"} if "site" in line else line, wanted)
        self.place += 1

    place = 0

    def test_editors_of_one_person_share_one_site(self) -> None:
        first, second = self.editor(units="utf-8"), self.editor(units="utf-32")
        first.edit((0, 0, "é🎉\n"))
        second.shows("é🎉\n")
        second.edit((2, 2, "漢"), (0, 1, ""))
        first.shows("🎉漢\n")
        first.edit((4, 7, ""))
        second.shows("🎉\n")
        with contextlib.closing(self.person().disk()) as disk:
            # In the second form one more is claimed in advance.
            self.assertEqual(len({row.entry.site for row in disk.entries.rows() if row.entry.kind.has_messages}), 1)
            self.assertLessEqual(len(disk.own.clients()), 1 + is_second_form())
        self.assertEqual({second.ask("open")["error"], second.ask("on")["people"][0]["own"]}, {"order", True})
        first.close()
        second.type("still here")
        second.settle()
        second.close()
        self.assertEqual(self.printed(), "🎉\nstill here")
        wait_for(lambda: not (self.folder / "data" / "run" / "note.sock").exists(), "the engine to end")

    def test_who_opens_no_new_note_is_told_that_there_is_none(self) -> None:
        editor = Editor(self.folder / "data", opens=False)
        self.addCleanup(editor.close)
        opens: dict[str, Any] = {"protocol": 1, "units": ["utf-16"]}
        self.assertEqual(editor.ask("open", new=False, **opens)["error"], "absent")
        self.assertFalse(self.person().path().exists())
        self.assertEqual(editor.ask("open", **opens)["text"], "")
        again = Editor(self.folder / "data", opens=False)
        self.addCleanup(again.close)
        self.assertEqual(again.ask("open", new=False, **opens)["text"], "")

    def test_nobody_else_reaches_the_socket(self) -> None:
        self.editor()
        run = self.folder / "data" / "run"
        self.assertEqual([stat.S_IMODE(os.stat(one).st_mode) for one in (run, run / "note.sock", run / "note.lock")],
                         [0o700, 0o600, 0o600])

    def test_units_are_agreed_on(self) -> None:
        editor = self.editor(opens=False)
        for units, code in ((["utf-7"], "field"), ("utf-8", "field"), ([8], "field"), ([], "field")):
            self.assertEqual(editor.ask("open", protocol=1, units=units)["error"], code)
        self.assertEqual(editor.ask("open", protocol=2, units=["utf-8"])["error"], "field")
        self.assertEqual(editor.ask("open", protocol=1, units=["utf-7", "utf-32", "utf-8"])["units"], "utf-32")

    def test_line_ends_are_kept(self) -> None:
        first, second = self.editor(), self.editor()
        text = "one\r\ntwo\rthree\n\r\n\n\r"
        first.edit((0, 0, text))
        second.shows(text)
        path = self.folder / "saved.txt"
        self.assertEqual(second.ask("save", path=str(path))["path"], str(path))
        self.assertEqual(path.read_bytes(), text.encode())
        self.assertEqual(second.ask("save", path=str(path))["error"], "exists")
        self.assertEqual(second.ask("save", path=str(path), replace=True)["path"], str(path))
        self.assertEqual(second.ask("save", path=str(self.folder / "none" / "x"))["error"], "unsaved")

    def test_undo_is_that_of_the_editor_that_asks(self) -> None:
        first, second = self.editor(), self.editor()
        for letter in "one ":
            first.type(letter)
        first.settle()
        second.shows("one ")
        second.type("two ")
        first.shows("one two ")
        self.assertTrue(first.ask("undo")["done"])
        second.shows("two ")
        self.assertFalse(first.ask("undo")["done"])
        self.assertTrue(second.ask("undo")["done"])
        first.shows("")
        self.assertTrue(first.ask("redo")["done"])
        second.shows("one ")
        self.assertTrue(second.ask("redo")["done"])
        first.shows("one two ")
        self.assertFalse(second.ask("redo")["done"])
        # A new edit ends what can be done again, and a replacement is taken back whole.
        second.edit((4, 7, "three"))
        first.shows("one three ")
        self.assertTrue(second.ask("undo")["done"])
        first.shows("one two ")
        second.edit((0, 0, "zero "))
        self.assertFalse(second.ask("redo")["done"])
        second.settle()
        second.edit((5, 5, "!"), join=True)
        self.alike(first, second)
        self.assertTrue(second.ask("undo")["done"])
        first.shows("one two ")

    def test_a_silence_ends_an_edit(self) -> None:
        # Any silence does, for who has it so.
        with mock.patch.dict(os.environ, VIALSHOAL_PAUSE="0"):
            editor = self.editor()
        for letter in "abc":
            editor.type(letter)
            editor.settle()
        editor.ask("undo")
        editor.shows("ab")

    def test_what_another_deleted_stays_so_when_an_edit_is_done_again(self) -> None:
        first, second = self.editor(), self.editor()
        first.edit((0, 0, "abc"))
        second.shows("abc")
        second.edit((1, 2, ""))
        first.shows("ac")
        first.ask("undo")
        second.shows("")
        first.ask("redo")
        second.shows("ac")
        self.alike(first, second)

    def test_history(self) -> None:
        first, second = self.others("ada", "bo")
        first.type("one ")
        second.shows("one ")
        second.type("two ")
        first.shows("one two ")
        first.edit((0, 4, ""))
        second.shows("two ")
        found = first.ask("history")
        self.assertEqual([(step["typed"], step["deleted"], step["own"]) for step in found["steps"]],
                         [(4, 0, True), (4, 0, False), (0, 4, True)])
        self.assertEqual(found["length"], 3)
        texts = [first.ask("past", at=at)["text"] for at in (3, 0, 2, 1)]
        self.assertEqual(texts, ["two ", "", "one two ", "one "])
        stretches = first.ask("past", at=2)["stretches"]
        self.assertEqual([(one["begin"], one["end"], one["own"]) for one in stretches], [(0, 4, True), (4, 8, False)])
        self.assertEqual(first.ask("past", at=4)["error"], "outside")
        self.assertEqual(first.ask("history", **{"from": 1}, most=1)["steps"][0]["begin"], 1)
        who = second.ask("who", version=second.mirror.version, begin=1, end=4)
        self.assertEqual([(one["begin"], one["end"], one["own"]) for one in who["stretches"]], [(1, 4, True)])
        self.assertEqual(second.ask("who", version=second.mirror.version, begin=2, end=1)["stretches"], [])

    def test_bytes_that_are_no_text(self) -> None:
        first, second = self.others("ada", "bo")
        first.type("ab\ud83c".encode("utf-8", "ignore").decode())
        second.shows("ab")
        third = self.opened(self.person("bo"))
        for position, data in (1, b"\xff"), (2, b"\xe2"), (3, b"\x82"), (4, b"\n"):
            third.session.insert(position, data)
        first.shows("a\ufffd\ufffd\ufffd\rb")
        first.edit((2, 3, ""))
        second.shows("a\ufffd\ufffd\rb")
        third.take_in()
        third.session.insert(3, b"\xac")
        first.shows("a\ufffd\ufffd\ufffd\rb")
        # What stood between parts of a character is taken away, so that they are one.
        third.session.insert(3, b"\xe2X")
        first.shows("a\ufffd\ufffd\ufffdX\ufffd\rb")
        self.alike(first, second)


class Company(Engines):
    """Who is on, and where their cursors are."""

    def place_of(self, editor: Editor, name: str) -> Line | None:
        """The cursor of a name, as an editor shows it."""
        return next((one for one in editor.mirror.cursors if one["name"] == name), None)

    def sees(self, editor: Editor, name: str, **wanted: object) -> None:
        """Waits until an editor shows somebody's cursor so."""
        def is_seen() -> bool:
            one = self.place_of(editor, name) or {}
            return all(one.get(field) == value for field, value in wanted.items())
        try:
            editor.wait_for(is_seen, "a cursor")
        except AssertionError as why:
            raise AssertionError(f"{name}: {wanted}, and not {editor.mirror.cursors}") from why

    def test_cursors_of_editors_here(self) -> None:
        first, second = self.editor(name="note"), self.editor(units="utf-8")
        first.close()
        first = Editor(self.folder / "data", opens=False)
        self.addCleanup(first.close)
        answer = first.ask("open", protocol=1, units=["utf-16"], name="Ada\x1b[31m\u202e " + "x" * 90, colour="#123abc")
        first.mirror = Mirror(answer, first.send)
        second.edit((0, 0, "🎉é漢\n"))
        first.shows("🎉é漢\n")
        first.ask("cursor", version=first.mirror.version, at=3, anchor=2)
        name = ("Ada[31m " + "x" * 90)[:40]
        self.sees(second, name, at=6, anchor=4, colour="#123abc")
        second.edit((0, 0, "ñ"))
        second.settle()
        second.ask("on")
        self.sees(second, name, at=8, anchor=6)
        self.assertEqual([one["name"] for one in second.ask("on")["people"]], ["", name])
        first.close()
        second.wait_for(lambda: not second.mirror.cursors, "the cursor to go")

    def test_cursors_of_others(self) -> None:
        server = self.redis()
        for url in self.file_log(), server.url:
            with self.subTest(url=url):
                self.meet(url)

    def meet(self, url: str) -> None:
        """Two people who see each other's cursors, with a log."""
        ada, bo = ("ada.file", "bo.file") if url.startswith("/") else ("ada.redis", "bo.redis")
        first = self.editor(ada, log=url, opens=False)
        first.mirror = Mirror(first.ask("open", protocol=1, units=["utf-16"], name="Ada", colour="#123abc"), first.send)
        first.gets_number()
        link = self.person(ada).link()
        second = self.editor(bo, link=link, opens=False, units="utf-32")
        second.mirror = Mirror(second.ask("open", protocol=1, units=["utf-32"], name="Bo"), second.send)
        first.edit((0, 0, "🎉é漢\n"))
        second.shows("🎉é漢\n")
        first.ask("cursor", version=first.mirror.version, at=3)
        self.sees(second, "Ada", at=2, colour="#123abc")
        self.assertNotIn("anchor", self.place_of(second, "Ada") or {"anchor": 0})
        second.ask("cursor", version=second.mirror.version, at=4, anchor=0)
        self.sees(first, "Bo", at=5, anchor=0)
        # It stays with its character, and goes on with who types.
        second.edit((0, 0, "before "))
        first.shows("before 🎉é漢\n")
        self.sees(second, "Ada", at=9)
        first.edit((10, 10, "xyz"))
        second.shows("before 🎉éxyz漢\n")
        self.sees(second, "Ada", at=12)
        people = [(one["name"], one["own"]) for one in second.ask("on")["people"]]
        self.assertEqual(people, [("Bo", True), ("Ada", False)])
        who = second.ask("who", version=second.mirror.version, begin=0, end=9)
        self.assertEqual([(one.get("name"), one["own"]) for one in who["stretches"]], [("Bo", True), ("Ada", False)])
        first.close()
        second.wait_for(lambda: not second.mirror.cursors, "the cursor to go")
        second.close()
        # Who wrote what is known later, too.
        second = self.editor(bo, units="utf-32")
        who = second.ask("who", version=0, begin=0, end=9)
        self.assertEqual([(one.get("name"), one["own"]) for one in who["stretches"]], [("Bo", True), ("Ada", False)])
        self.assertEqual(stat.S_IMODE(os.stat(self.person(bo).path().with_suffix(".people")).st_mode), 0o600)

    def test_names_that_were_damaged(self) -> None:
        path = self.person().path().with_suffix(".people")
        path.parent.mkdir(parents=True)
        for data in (b"", b"\xff", b"[1]", b"{", b'{"x": "y"}', b"[" * 100_000, '{"7": 1, "70000": "x", "²": "y"}'.encode(),
                     b'{"-1": "x", "1e3": "y"}'):
            path.write_bytes(data)
            self.assertEqual(nicknames.known("note"), {})
        path.write_text(json.dumps({"7": "A\x1b[1m\u202e" + "x" * 100}))
        self.assertEqual(nicknames.known("note"), {7: ("A[1m" + "x" * 100)[:40]})
        nicknames.remember("note", {site: "n" for site in range(1, 2_000)})
        self.assertEqual([*nicknames.known("note")], [*range(1_000, 2_000)])

    def test_what_is_said_may_be_anything(self) -> None:
        chance = random.Random(5)
        for _ in range(3_000):
            data = bytearray(chance.randbytes(chance.choice((0, 20, 49, 50, 60, 210, 211))))
            if (found := presence.read_presence(bytes(data))):
                self.assertLessEqual(len(found.name), 40)
                self.assertTrue(found.name.isprintable() or not found.name.isascii())
                again = presence.read_presence(presence.presence_of(found))
                assert again
                self.assertEqual(again._replace(name=""), found._replace(name=""))
        long = presence.Present(bytes(16), bytes(16), 7, "#000000", (0, 0), None, "🎉" * 40)
        self.assertEqual(presence.read_presence(presence.presence_of(long)), long)


if __name__ == "__main__":
    unittest.main()
