"""Looks: bold and colours are set by the characters' names, everybody is told of them, and an undo takes them back."""
import json
import os
import random
import shutil
import subprocess
from typing import Any, cast

from share.program.site import Edited, Site
from share.tests.editors import Editor, Engines
from share.tests.servers import FileLog
from share.tests.support import NOTE, Case, alive, wait_for
from share.tests.waiting import PATIENCE
from share.text.line import Line
from share.text.looks import DEFAULT, Looks, Run, is_bold, is_slanted, setting, with_weight
from share.text.names import Names

BOLD_RED: dict[str, Any] = {"bold": True, "colour": 2}


class Fonts(Case):
    """Bold is a font of the same family."""

    def test_a_bold_font(self) -> None:
        for font, bold in (("Oberon10.Scn.Fnt", "Oberon10b.Scn.Fnt"), ("Syntax12i.Scn.Fnt", "Syntax12bi.Scn.Fnt"),
                           ("Courier8", "Courier8b"), ("Syntax10b.Scn.Fnt", "Syntax10b.Scn.Fnt")):
            self.assertEqual(with_weight(font, True), bold)
            self.assertEqual(with_weight(bold, False), font.replace("10b", "10"))
            self.assertEqual((is_bold(bold), is_slanted(bold)), (True, is_slanted(font)))
        # A family without a size, or with a name of the greatest length, has no bold one.
        for font in "Times.Fnt", "Syntax10.Scn.Fntxxxxxxxxxxxxxxx", "Oberon10x.Fnt":
            self.assertEqual(with_weight(font, True), "Oberon10b.Scn.Fnt")
        self.assertFalse(is_bold("bold.Fnt"))

    def test_looks_are_given_to_what_is_shown(self) -> None:
        site = Site(7)
        self.addCleanup(site.close)
        (typed,) = site.insert(0, b"abcdef").messages
        self.assertFalse(typed.may_dress)
        (deleted,) = site.cut(3, 4).messages
        self.assertFalse(deleted.may_dress)
        for looks in Looks("Oberon10b.Scn.Fnt"), Looks(None, 15), Looks(None, None, -128), Looks("A", 0, 127):
            (message,) = site.look(looks, [Names(7, 2, 3)]).messages
            self.assertEqual(message.mentions, (Names(7, 2, 1), Names(7, 4, 1)))
            self.assertTrue(message.may_dress)
        first, last = (Run(DEFAULT.font or "", DEFAULT.colour or 0, DEFAULT.offset or 0, length) for length in (2, 1))
        self.assertEqual(site.runs(), [first, Run("A", 0, 127, 2), last])
        messages = site.look(Looks(None, 3), [Names(7, 5, 1), Names(7, 0, 2), Names(7, 3, 1)]).messages
        self.assertEqual([one.mentions for one in messages], [(Names(7, 0, 2),), (Names(7, 5, 1),)])
        self.assertEqual(site.look(Looks(None, 4), [Names(7, 3, 1)]), Edited([]))

    def test_what_is_set(self) -> None:
        self.assertEqual(setting(True, 2)(DEFAULT), Looks("Oberon10b.Scn.Fnt", 2, 0))
        self.assertEqual(setting(None, 2)(DEFAULT).differing(DEFAULT), Looks(None, 2, None))


class Shown(Engines):
    """What editors are told."""

    def looks(self, editor: Editor, *wanted: Line) -> None:
        """Waits until an editor shows these looks."""
        assert editor.mirror
        mirror = editor.mirror
        try:
            editor.wait_for(lambda: mirror.looks == [*wanted], "looks")
        except AssertionError as why:
            raise AssertionError(f"{why}: {mirror.looks} and not {wanted}") from why

    def set(self, editor: Editor, *ranges: list[int], error: str | None = None, **looks: object) -> None:
        """Sets looks."""
        assert editor.mirror
        answer = editor.ask("looks", version=editor.mirror.version, ranges=ranges, **looks)
        self.assertEqual(answer.get("error"), error, answer)

    def html(self) -> str:
        """What the note is as a page."""
        done = subprocess.run([NOTE, "export", "note", "-", "--format", "html"], capture_output=True, check=True,
                              timeout=PATIENCE, env={**os.environ, "VIALSHOAL_DATA": str(self.folder / "data")})
        return done.stdout.decode()

    def test_looks_are_set_shown_and_taken_back(self) -> None:
        first, second = self.editor(looks=True), self.editor(looks=True, units="utf-8")
        plain = self.editor()
        first.edit((0, 0, "é one two\n"))
        second.shows("é one two\n")
        plain.shows("é one two\n")
        self.set(first, [2, 5], bold=True)
        self.looks(first, {"begin": 2, "end": 5, "bold": True})
        self.looks(second, {"begin": 3, "end": 6, "bold": True})
        self.set(second, [5, 8], [0, 2], colour=2)
        self.looks(first, {"begin": 0, "end": 1, "colour": 2}, {"begin": 2, "end": 4, "bold": True},
                   {"begin": 4, "end": 5, "bold": True, "colour": 2}, {"begin": 5, "end": 7, "colour": 2})
        self.assertIn('<span style="font-weight:bold;color:#cc2222">e</span>', self.html())
        # Each takes back its own, and nothing of another's.
        self.assertTrue(first.ask("undo")["done"])
        self.looks(second, {"begin": 0, "end": 2, "colour": 2}, {"begin": 5, "end": 8, "colour": 2})
        self.assertTrue(second.ask("undo")["done"])
        self.looks(first)
        self.assertTrue(first.ask("redo")["done"])
        self.looks(second, {"begin": 3, "end": 6, "bold": True})
        self.assertTrue(first.ask("undo")["done"])
        self.assertTrue(first.ask("undo")["done"])
        second.shows("")
        self.assertFalse(plain.notices("looks"))

    def test_what_is_set_again_since_stays(self) -> None:
        first, second = self.editor(looks=True), self.editor(looks=True)
        first.edit((0, 0, "abcdef"))
        second.shows("abcdef")
        self.set(first, [0, 6], colour=2)
        self.looks(second, {"begin": 0, "end": 6, "colour": 2})
        self.set(second, [2, 4], colour=4)
        self.assertTrue(first.ask("undo")["done"])
        self.looks(first, {"begin": 2, "end": 4, "colour": 4})
        # What is so already isn't set, and is no edit.
        self.set(first, [2, 4], colour=4)
        self.assertTrue(first.ask("redo")["done"])
        self.looks(second, {"begin": 0, "end": 2, "colour": 2}, {"begin": 2, "end": 4, "colour": 4},
                   {"begin": 4, "end": 6, "colour": 2})

    def test_what_was_deleted_comes_back_in_its_looks(self) -> None:
        first, second = self.editor(looks=True), self.editor(looks=True)
        first.edit((0, 0, "one two"))
        second.shows("one two")
        self.set(first, [0, 3], **BOLD_RED)
        # What is asked of the first one next is to be so since it has seen what the second one did.
        for editor in first, second:
            self.looks(editor, {"begin": 0, "end": 3, **BOLD_RED})
        second.edit((0, 4, ""))
        first.shows("two")
        self.looks(first)
        self.assertTrue(second.ask("undo")["done"])
        first.shows("one two")
        self.looks(first, {"begin": 0, "end": 3, **BOLD_RED})
        # What is typed within is plain, and what is typed beside moves it and needs no notice.
        first.edit((1, 1, "x"))
        self.looks(second, {"begin": 0, "end": 1, **BOLD_RED}, {"begin": 2, "end": 4, **BOLD_RED})
        self.looks(first, {"begin": 0, "end": 1, **BOLD_RED}, {"begin": 2, "end": 4, **BOLD_RED})
        before = len(second.notices("looks"))
        first.edit((8, 8, "!"))
        second.shows("oxne two!")
        second.ask("on")
        self.assertEqual(len(second.notices("looks")), before)

    def test_other_peoples_looks(self) -> None:
        first = self.editor("ada", log=self.file_log(), looks=True)
        first.gets_number()
        second = self.editor("bo", link=self.person("ada").link(), looks=True)
        second.gets_number()
        first.edit((0, 0, "one\n"))
        second.shows("one\n")
        self.set(second, [0, 3], **BOLD_RED)
        self.looks(first, {"begin": 0, "end": 3, **BOLD_RED})
        third = self.editor("ada", looks=True)
        self.looks(third, {"begin": 0, "end": 3, **BOLD_RED})
        second.edit((0, 0, "zero "))
        first.shows("zero one\n")
        fourth = self.editor("ada", looks=True)
        self.looks(fourth, {"begin": 5, "end": 8, **BOLD_RED})

    def test_editors_at_random(self) -> None:
        chance = random.Random(5)
        editors = [self.editor(looks=True, units=units) for units in ("utf-8", "utf-16", "utf-32")]
        for _ in range(4):
            for _ in range(30):
                editor = chance.choice(editors)
                if chance.random() < 0.3:
                    editor.read()
                length = editor.mirror.units.count(editor.mirror.units.encode(editor.text))
                begin = chance.randrange(length + 1)
                end = min(length, begin + chance.choice((0, 0, 1, 4)))
                what = chance.random()
                if what < 0.4:
                    editor.edit((begin, end, "".join(chance.choices("abc \n", k=chance.choice((0, 1, 3))))))
                elif what < 0.8:
                    editor.send({"do": "looks", "id": 1, "version": editor.mirror.version, "ranges": [[begin, end]],
                                 **chance.choice([dict[str, Any](bold=True), {"bold": False}, {"colour": 2}, {"colour": 1}])})
                else:
                    editor.send({"do": chance.choice(("undo", "undo", "redo"))})
            self.alike(*editors)
            fresh = self.editor(looks=True)
            for editor in editors:
                fresh.wait_for(lambda: (editor.read(0.02), editor.mirror.looks == fresh.mirror.looks)[1], "looks to be alike")
        # All is ASCII, so positions are the same in all units.
        self.assertFalse([line for one in editors for line in one.lines if "error" in line])

    def test_looks_are_made_anew_with_the_rest(self) -> None:
        first = self.editor("ada", log=self.file_log(), looks=True)
        first.edit((0, 0, "one two three"))
        first.settle()
        wait_for(lambda: (first.read(0.02), first.notices("state")[-1]["log"] == "sent")[1], "all to be sent")
        engine = self.engine("ada")
        first.close()
        # As it closes the file the engine takes away what SQLite has beside it.
        wait_for(lambda: not alive(engine), "the engine to end")
        shutil.copytree(self.folder / "ada", self.folder / "copied", ignore=shutil.ignore_patterns("run"))
        log = FileLog(self.folder)
        log.kill()
        # Both go on under one number, each with looks for old and new words.
        editors = [self.editor(data, looks=True) for data in ("ada", "copied")]
        for number, (editor, looks) in enumerate(zip(editors, (BOLD_RED, dict[str, Any](bold=True, colour=4)))):
            editor.edit((13, 13, f" new{number}"))
            editor.settle()
            self.set(editor, [4 * number, 4 * number + 3], [14, 17], **looks)
            editor.settle()
        log.start()
        for editor in editors:
            # What is made anew is gone for a moment, at which both may show the same.
            editor.wait_for(lambda: {"new0", "new1"} <= {*editor.text.split()}, "what both typed")
        text = self.alike(*editors)
        self.assertEqual(sorted(text.split()), sorted("one two three new0 new1".split()))
        words = {one: text.index(one) for one in ("new0", "new1")}
        wanted = sorted([{"begin": begin, "end": begin + 3, **looks} for begin, looks in (
            (0, BOLD_RED), (4, {"bold": True, "colour": 4}), (words["new0"], BOLD_RED),
            (words["new1"], {"bold": True, "colour": 4}))], key=lambda one: one["begin"])
        for editor in editors:
            self.looks(editor, *wanted)

    def test_what_no_editor_should_send(self) -> None:
        editor = self.editor(looks=True)
        editor.edit((0, 0, "🎉x"))
        editor.settle()
        for more, code in (({"bold": 1}, "field"), ({"colour": 16}, "field"), ({"colour": True}, "field"), ({}, "field"),
                           ({"colour": -1}, "field"), ({"bold": "yes"}, "field"), ({"bold": 1.0}, "field"), ({"colour": [2]}, "field")):
            self.set(editor, [0, 3], error=code, **cast(dict[str, Any], more))
        for ranges, code in (([[0, 4]], "outside"), ([[1, 3]], "split"), ([[3, 2]], "field"), ([[0]], "field"), ("all", "field"),
                             ([["a", "b"]], "field"), ([[0, 10**30]], "field"), ([[-1, 2]], "field")):
            answer = editor.ask("looks", version=editor.mirror.version, ranges=ranges, bold=True)
            self.assertEqual(answer.get("error"), code, answer)
        self.assertEqual(editor.ask("looks", version=99, ranges=[[0, 3]], bold=True)["error"], "version")
        self.set(editor, bold=True)
        self.assertEqual(editor.text, "🎉x")
        self.assertIn("<pre>\n🎉x</pre>", self.html())

    def test_what_was_done_says_so(self) -> None:
        editor = self.editor(looks=True)
        editor.edit((0, 0, "one"))
        self.set(editor, [0, 3], bold=True)
        done = subprocess.run([NOTE, "log", "note", "--json"], capture_output=True, check=True, timeout=PATIENCE)
        self.assertEqual(json.loads(done.stdout)["steps"][-1]["looked"], 3)
