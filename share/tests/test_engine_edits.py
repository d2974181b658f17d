"""The engine, by the real command: edits that meet, and what no editor should send."""
import json
import os
import random
import resource
import signal
import subprocess
import time
from typing import cast
from unittest import mock

from share.editors.mirror import MOST_UNANSWERED, Mirror, TextChange
from share.engine.engine import Engine
from share.store import notes
from share.sync.session import Session
from share.tests.editors import PATIENCE, Editor, EngineHere, Engines
from share.tests.servers import FileLog
from share.tests.support import NOTE
from share.text.errors import Trouble
from share.text.line import Line

LETTERS = "abc  \n\t\r\\é߀ñ漢字🎉👍"


class Carried(Engines):
    """Editors that don't look at notices for some time meet all the same."""

    def test_editors_at_random(self) -> None:
        chance = random.Random(7)
        first, second = self.others("ada", "bo")
        third = self.editor("bo", units="utf-8")
        fourth = self.editor("ada", units="utf-32")
        editors = [first, second, third, fourth]
        for _ in range(6):
            for _ in range(40):
                editor = chance.choice(editors)
                if chance.random() < 0.3:
                    editor.read()
                self.edit_at_random(editor, chance)
            text = self.alike(*editors)
        self.assertEqual(text.replace("\r", "\0").replace("\n", "\r").replace("\0", "\n"),
                         self.person("ada").text().decode())
        self.assertFalse([line for one in editors for line in one.lines if "error" in line])

    @staticmethod
    def edit_at_random(editor: Editor, chance: random.Random) -> None:
        """Some replacements at random characters, or an undo or redo."""
        if chance.random() < 0.15:
            editor.send({"do": chance.choice(["undo", "undo", "redo"])})
            return
        units, text, changes = editor.mirror.units, editor.text, list[TextChange]()
        for _ in range(chance.choice((1, 1, 1, 2, 5))):
            begin = chance.randrange(len(text) + 1)
            end = min(len(text), begin + chance.choice((0, 0, 0, 1, 4)))
            new = "".join(chance.choices(LETTERS, k=chance.choice((0, 1, 1, 3))))
            first, last = (units.count(units.encode(text[:place])) for place in (begin, end))
            changes.append((first, last, new))
            text = text[:begin] + new + text[end:]
        editor.edit(*changes)

    def test_typing_without_a_pause_holds_nobody_back(self) -> None:
        first, second = self.others("ada", "bo")
        beside, keys, late = self.editor("ada"), 0, list[int]()
        second.edit((0, 0, "\n"))
        first.shows("\n")
        # A key takes 10 ms, by the clock of who types.
        first.mirror._clock = lambda: keys / 100
        for number in range(10):
            word, hung = f"w{number}.", time.monotonic() + PATIENCE
            second.edit((0, 0, word))
            late.append(0)
            while word not in first.text:
                self.assertLess(time.monotonic(), hung, "others' text isn't seen while one types")
                # It types without looking at anything, but where it has to.
                if first.mirror.waits():
                    first.wait_for(lambda: not first.mirror.waits(), "its edits to be answered")
                keys += 1
                first.type("x")
                # A notice has what was gathered sent, too, however many aren't answered.
                self.assertLessEqual(first.mirror.made - first.mirror.answered, 2 * MOST_UNANSWERED)
                for editor in first, second, beside:
                    editor.read()
                late[-1] += word in beside.text
        self.alike(first, second)
        self.assertGreater(first.mirror.made, 100)
        # What somebody beside sees is seen here after some keys, as a rule.
        self.assertLess(sorted(late)[5], 500, late)

    def test_a_notice_is_sent_anew_at_once(self) -> None:
        first, second = self.editor(), self.editor()
        first.edit((0, 0, "abc\n"))
        second.shows("abc\n")
        second.listens = False
        for number in range(1, 10):
            first.edit((0, 0, "x"))
            first.settle()
            second.edit((second.mirror.units.count(second.mirror.units.encode(second.text)),) * 2 + ("y",))
            second.wait_for(lambda: any(line.get("answer") == "edit" and line["edits"] == number for line in second.lines),
                            "an answer")
        # All that it dropped comes as one, after the answer.
        (changes,) = second.wait_for(lambda: [line for line in second.notices("changes") if line["edits"] == 9], "a notice")
        self.assertEqual(changes["changes"], [[0, 0, "x" * 9]])
        second.listens = True
        second.mirror.take(changes)
        second.mirror.answered = 9
        self.assertEqual(self.alike(first, second), "x" * 9 + "abc\n" + "y" * 9)

    def test_what_was_answered_is_on_the_disk(self) -> None:
        chance = random.Random(11)
        words: list[str] = []
        for _ in range(4):
            editor = Editor(self.folder / "data")
            shown = editor.text
            for word in words:
                self.assertEqual(shown.count(word), 1)
            for _ in range(chance.randrange(1, 8)):
                word = f"<{len(words)}>"
                editor.type(word)
                editor.settle()
                words.append(word)
            os.kill(self.engine(), signal.SIGKILL)
            while editor._receive():
                pass
            editor.kill()
        self.assertEqual(self.editor().text, "".join(words))

    def test_an_editor_that_is_killed_takes_nothing_from_the_others(self) -> None:
        first, second = self.editor(), self.editor()
        for number in range(50):
            first.type(f"{number} ")
        first.process.kill()
        first.kill()
        second.type("end")
        second.settle()
        self.assertIn("end", second.text)
        second.close()
        # What the killed one had sent may be taken in after that.
        self.assertEqual(self.printed()[:len(second.text)], second.text)

    def test_an_editor_that_does_not_read_holds_nobody_up(self) -> None:
        first, second = self.editor(), self.editor()
        for number in range(300):
            first.type(f"{number:0>9000}\n")
            first.read()
        first.settle()
        self.assertEqual(len(first.text), 300 * 9_001)
        second.wait_for(lambda: second.text == first.text, "all of it")


class InItsLine(EngineHere):
    """What an edit puts at the begins of lines stays in these where another opens a line there, which its editor hasn't seen."""

    def test_each_change_of_an_edit(self) -> None:
        for place in 2, 4, 6:
            (_, first, _, first_asks), (other, second, _, second_asks) = self.editors
            first.edit([(0, len(first.text), "a\nb\nc\nd\n")])
            self.meet()
            second.edit([(place, place, "NEW\nX\n")])
            self.engine.take(other, second_asks)
            # As `:2,4s/^/> /` makes them, and from the last one to the first, as a rectangle may.
            changes = [(2, 2, "> "), (6, 6, "> "), (10, 10, "> ")]
            first.edit(changes if place < 6 else [(6, 6, "> "), (4, 4, "> "), (2, 2, "> ")])
            self.assertEqual(len(first_asks), 1)
            lines = ["a", "> b", "> c", "> d"]
            self.shows("".join(f"{line}\n" for line in [*lines[:place // 2], "NEW", "X", *lines[place // 2:]]))

    def test_what_is_no_line_stays_behind(self) -> None:
        (_, first, _, _), (other, second, _, second_asks) = self.editors
        first.edit([(0, 0, "a\nb\nc\n")])
        self.meet()
        second.edit([(2, 2, "in line ")])
        self.engine.take(other, second_asks)
        first.edit([(2, 2, "> "), (6, 6, "> ")])
        self.shows("a\n> in line b\n> c\n")


class Wrong(Engines):
    """What no editor should send is answered with a code, and nothing is lost."""

    def test_requests_that_are_none(self) -> None:
        editor, other = self.editor(), self.editor()
        editor.edit((0, 0, "é🎉x\n"))
        other.shows("é🎉x\n")
        for line, code in (
                (b"", "json"), (b"tea", "json"), (b"[1]", "json"), (b'"x"', "json"), (b"{", "json"), (b"\xff\xfe", "json"),
                (b'{"do":"edit"' + b"[" * 100_000, "json"), (b"[" * 100_000, "json"), (b"null", "json"),
                (b"{}", "unknown"), (b'{"do":7}', "unknown"), (b'{"do":"dance"}', "unknown"), (b'{"do":["open"]}', "unknown"),
                (b'{"do":"open","protocol":1,"units":["utf-8"]}', "order"), (b'{"do":"cursor"}', "field"),
                (b'{"do":"cursor","version":0,"at":-1}', "field"), (b'{"do":"cursor","version":0,"at":true}', "field"),
                (b'{"do":"cursor","version":0,"at":99}', "outside"), (b'{"do":"cursor","version":77,"at":0}', "version"),
                (b'{"do":"cursor","version":0,"at":2}', "split"), (b'{"do":"seen","version":-5}', "field"),
                (b'{"do":"who","version":0,"begin":0}', "field"), (b'{"do":"past","at":100}', "outside"),
                (b'{"do":"history","from":"x"}', "field"), (b'{"do":"save"}', "field"), (b'{"do":"text"}', "field"),
                (b'{"do":"save","path":"/a\\u0000b"}', "unsaved"), (b'{"do":"save","path":"a"}', "unsaved"),
                (b'{"do":"save","path":"/a\\ud800b"}', "field"), (b'{"do":"\\ud800","id":"\\ud800"}', "unknown"),
                (b'{"do":"seen","version":' + b"9" * 9_000 + b"}", "json")):
            before = len(editor.lines)
            editor.listens = False
            editor.write(line + b"\n")
            editor.wait_for(lambda: any("error" in one for one in editor.lines[before:]), f"an error to {line[:60]!r}")
            self.assertEqual([one["error"] for one in editor.lines[before:] if "error" in one], [code], line[:60])
        editor.listens = True
        editor.type("on")
        editor.settle()
        other.shows("é🎉x\non")
        self.assertEqual(editor.text, other.text)

    def test_edits_that_are_void(self) -> None:
        editor, other = self.editor(), self.editor()
        editor.edit((0, 0, "é🎉x\n"))
        other.shows("é🎉x\n")
        for more, code in (
                ({"changes": [[0, 99, ""]]}, "outside"), ({"changes": [[3, 2, ""]]}, "outside"),
                ({"changes": [[-1, 0, "x"]]}, "outside"), ({"changes": [[0, 5, ""], [1, 1, "x"]]}, "outside"),
                ({"changes": [[2, 2, "x"]]}, "split"), ({"changes": [[0, 2, ""]]}, "split"),
                ({"changes": [[0, 0, "\ud83c"]]}, "split"), ({"changes": [[0, 0, "a\udf89b"]]}, "split"),
                ({"changes": "all"}, "field"), ({"changes": [[0, 0]]}, "field"), ({"changes": [[0, 0, 7]]}, "field"),
                ({"changes": [[False, 0, ""]]}, "field"), ({"changes": [[0.0, 0, ""]]}, "field"), ({}, "field"),
                ({"changes": [], "version": 10**15}, "version"), ({"changes": [], "version": 10**30}, "field"),
                ({"changes": [], "version": "1"}, "field"), ({"changes": [[0, 0, ""]] * 50_001}, "long"),
                ({"changes": [], "edits": 0}, "order"), ({"changes": [], "edits": 70}, "order"),
                ({"changes": [[10**12, 10**13, ""]]}, "outside"),
                ({"changes": [[10**30, 10**31, ""]]}, "field")):
            made = editor.mirror.made + 1
            line: Line = {"do": "edit", "version": editor.mirror.version, "edits": made, **cast(Line, more)}
            editor.mirror.made = line["edits"]
            editor.send(line)
            answer = editor.wait_for(lambda: next((one for one in editor.lines if one.get("answer") == "edit"
                                                   and one.get("error") and one["edits"] == line["edits"]), None), f"{more}")
            editor.lines.remove(answer)
            self.assertEqual(answer["error"], code, more)
            self.assertEqual(editor.text, "é🎉x\n")
        # What is made before the text was taken over counts, and is as void.
        editor.listens = False
        made, version = editor.mirror.made, editor.mirror.version
        for number in range(1, 4):
            editor.send({"do": "edit", "version": version, "edits": made + number, "changes": [[0, 70 * (number < 2), "z"]]})
        editor.wait_for(lambda: len([one for one in editor.lines if one.get("edits", 0) > made and "error" in one]) == 3,
                        "three errors")
        self.assertEqual([one["error"] for one in editor.lines if one.get("edits", 0) > made and "error" in one],
                         ["outside", "stale", "stale"])
        editor.mirror.made = made + 3
        editor.mirror.take(editor.notices("text")[-1])
        editor.listens = True
        editor.type("on")
        editor.settle()
        other.shows("é🎉x\non")
        self.assertEqual(editor.text, other.text)

    def test_an_edit_of_100_megabytes(self) -> None:
        editor, other = self.editor(), self.editor()
        editor.type("before ")
        editor.settle()
        editor.edit((0, 0, "x" * 100_000_000))
        editor.shows("before ")
        self.assertEqual([line["error"] for line in editor.lines if "error" in line], ["long"])
        # One that fits a line is more than a site may type, and is taken out but for what was done of it.
        editor.type("after")
        editor.settle()
        other.shows("before after")
        with open(f"/proc/{self.engine()}/status", encoding="ascii") as status:
            peak = next(int(line.split()[1]) for line in status if line.startswith("VmHWM"))
        self.assertLess(peak, 300_000)

    def test_before_it_is_opened(self) -> None:
        editor = self.editor(opens=False)
        for what in ("edit", "undo", "redo", "cursor", "seen", "text", "on", "who", "history", "past", "changed", "save"):
            self.assertEqual(editor.ask(what, version=0, edits=1, changes=[])["error"], "order")
        self.assertEqual(editor.ask("close"), {"answer": "close", "id": editor.lines[-1]["id"]})
        self.assertFalse(editor._receive())

    def test_a_note_that_can_not_be_opened(self) -> None:
        path = self.folder / "data" / "notes" / "note.note"
        path.parent.mkdir(parents=True)
        path.write_bytes(b"rubbish")
        editor = self.editor(opens=False)
        answer = editor.ask("open", protocol=1, units=["utf-8"])
        self.assertEqual(answer["error"], "failed")
        self.assertIn("note.note", answer["words"])
        path.unlink()
        self.assertEqual(editor.ask("open", protocol=1, units=["utf-8"])["text"], "")

    def test_a_name_that_is_none(self) -> None:
        for name in "../x", "a/b", ".x", "":
            done = subprocess.run([NOTE, "engine", name], capture_output=True, timeout=PATIENCE, input=b"")
            self.assertEqual((done.returncode, done.stdout), (2, b""))

    def test_what_the_disk_does_not_take_is_taken_out(self) -> None:
        limit = resource.getrlimit(resource.RLIMIT_FSIZE)
        resource.setrlimit(resource.RLIMIT_FSIZE, (300_000, limit[1]))
        try:
            editor = self.editor()
        finally:
            resource.setrlimit(resource.RLIMIT_FSIZE, limit)
        kept = 0
        while kept < 200 and "error" not in (answer := (editor.type("x" * 4_000 + "\n"), editor.settle())[1]):
            kept += 1
        self.assertEqual(answer["error"], "unkept")
        editor.shows(("x" * 4_000 + "\n") * kept)
        editor.ask("on")
        self.assertEqual(self.printed(), editor.text)

    def test_what_is_typed_beside_what_is_taken_out_stays_there(self) -> None:
        engine = Engine("note", lambda: Session(notes.open_note("note", None, None)), lambda: None)
        self.addCleanup(engine.close)
        sent: list[bytes] = []
        peer = engine.joined(sent.append, lambda: 0)
        engine.take(peer, [b'{"do": "open", "protocol": 1, "units": ["utf-8"]}'])
        engine.turn()
        lines: list[Line] = []
        mirror = Mirror(json.loads(sent[0]), lines.append)
        for at, word in (0, "one two "), (4, "twin "), (9, "twice "):
            mirror.edit([(at, at, word)])
        first, second, third = [json.dumps(line).encode() for line in lines]
        engine.take(peer, [first])
        assert engine.session
        with mock.patch.object(Session, "can_type", new=False):
            # The number is another one now, which doesn't hold yet.
            engine.take(peer, [second])
        engine.take(peer, [third])
        engine.turn()
        for line in map(json.loads, sent):
            mirror.take(line)
        self.assertEqual(mirror.text, "one twice two ")
        self.assertEqual(engine.session.text(), b"one twice two ")

    def test_a_program_that_can_not_be_started_again(self) -> None:
        engine = Engine("note", lambda: Session(notes.open_note("note", None, None)), lambda: None)
        self.addCleanup(engine.close)
        sent: list[bytes] = []
        peer = engine.joined(sent.append, lambda: 0)

        def does(*requests: Line) -> list[Line]:
            sent.clear()
            waiting: list[bytes | None] = [json.dumps(one).encode() for one in requests]
            while waiting:
                engine.take(peer, waiting)
            engine.turn()
            return [json.loads(line) for line in sent]

        mirror = Mirror(does({"do": "open", "protocol": 1, "units": ["utf-8"]})[0], lambda line: None)

        def types(*words: str) -> list[str | None]:
            made, version = mirror.made, mirror.version
            for word in words:
                mirror.edit([(0, 0, word)])
            found = does(*({"do": "edit", "version": version, "edits": made + number, "changes": [[0, 0, word]]}
                           for number, word in enumerate(words, 1)))
            for line in found:
                mirror.take(line)
            return [line.get("error") for line in found if line.get("answer") == "edit"]

        self.assertEqual(types("c", "b"), [None, None])
        program = os.environ.get("VIALSHOAL_PROGRAM", "")
        assert engine.session
        with mock.patch.dict(os.environ, VIALSHOAL_PROGRAM="/bin/false"):
            engine.session.site._program.process.kill()
            self.assertEqual(types("x", "y"), ["failed", "stale"])
            self.assertEqual(does({"do": "undo", "id": 1})[-1]["error"], "failed")
            self.assertEqual(types("z"), ["failed"])
            self.assertEqual(mirror.text, "bc")
        self.assertEqual(os.environ.get("VIALSHOAL_PROGRAM", ""), program)
        does()
        self.assertEqual(types("a"), [None])
        self.assertEqual(mirror.text, "abc")
        # Where the program ends between two edits that came at once, the first one is kept.
        assert engine.session
        site = engine.session.site
        with mock.patch.object(site, "insert", side_effect=[site.insert(0, b"1"), Trouble("ended")]):
            self.assertEqual(types("1", "2"), [None, "failed"])
        does()
        mirror.take(next((line for line in map(json.loads, sent) if "notice" in line), {}))
        assert engine.session
        self.assertEqual(engine.session.text(), b"1abc")
        self.assertEqual(self.person().text(), b"1abc")
        self.assertEqual(types("0"), [None])
        self.assertEqual(self.person().text(), b"01abc")
        self.assertEqual(mirror.text, "01abc")

    def test_without_a_number_nothing_can_be_typed(self) -> None:
        first = self.editor("ada", log=self.file_log())
        first.gets_number()
        link = self.person("ada").link()
        log = FileLog(self.folder)
        log.kill()
        second = self.editor("bo", link=link)
        second.wait_for(lambda: second.notices("state"), "the state")
        self.assertEqual((second.notices("state")[-1]["types"], second.notices("state")[-1]["log"]), (False, "away"))
        second.edit((0, 0, "too early"))
        self.assertEqual(second.settle()["error"], "number")
        self.assertEqual(second.text, "")
        log.start()
        second.gets_number()
        second.edit((0, 0, "now"))
        first.shows("now")


if __name__ == "__main__":
    import unittest
    unittest.main()
